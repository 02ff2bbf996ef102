//! Catalogues of box files.
use crate::refusal::{accepted, answer};
use crate::{slices, Refusal, Sbox};

/// A catalogue of S-boxes: up to 64 box files in one buffer of 258 to 65,535 bytes.
///
/// ```
/// use satmegwo::{Catalogue, Refusal, Sbox};
///
/// let sbox = Sbox::new(3, 3, [3, 1, 4, 0, 2, 5, 6, 7])?;
/// let mut catalogue = Catalogue::empty(258 + 2 * 34)?;
/// assert_eq!(catalogue.add_box(&sbox)?, 0);
/// assert_eq!(catalogue.add(&sbox.add_to_column(1, 5, 1)?.to_bytes())?, 1);
/// assert_eq!(catalogue.add_box(&sbox), Err(Refusal::NoRoom));
/// // A record lies in the buffer as the file was.
/// assert_eq!(Sbox::from_bytes(catalogue.fetch(0)?)?, sbox);
/// catalogue.remove(0)?;
/// assert_eq!(catalogue.fetch(1), Err(Refusal::NoRecord));
/// assert_eq!(catalogue.records().count(), 1);
/// # Ok::<(), satmegwo::Refusal>(())
/// ```
#[derive(Clone, Debug, PartialEq, Eq, Hash)]
pub struct Catalogue {
    bytes: Vec<u8>,
}

impl Catalogue {
    /// A catalogue without records, in a buffer of this length. Refusals: 13.
    pub fn empty(length: usize) -> Result<Catalogue, Refusal> {
        Catalogue::from_bytes(vec![0; length])
    }

    /// The catalogue that these bytes are. Refusals: 13.
    pub fn from_bytes(bytes: impl Into<Vec<u8>>) -> Result<Catalogue, Refusal> {
        let bytes = bytes.into();
        answer(slices::check_catalogue(&bytes, &mut [0]))?;
        Ok(Catalogue { bytes })
    }

    /// The whole buffer.
    pub fn bytes(&self) -> &[u8] {
        &self.bytes
    }

    /// How many records it has.
    pub fn len(&self) -> u32 {
        let mut figures = [0];
        accepted(slices::check_catalogue(&self.bytes, &mut figures));
        figures[0]
    }

    /// Whether it has no record.
    pub fn is_empty(&self) -> bool {
        self.len() == 0
    }

    /// Adds a box file, at the start of the lowest gap that is long enough, and gives its index.
    /// Refusals: those of the file (10, 1, 2, 10, 4), 14.
    pub fn add(&mut self, file: &[u8]) -> Result<u32, Refusal> {
        let mut figures = [0];
        answer(slices::add_record(&mut self.bytes, file, &mut figures))?;
        Ok(figures[0])
    }

    /// Adds a box. Refusals: 14.
    pub fn add_box(&mut self, sbox: &Sbox) -> Result<u32, Refusal> {
        self.add(&sbox.to_bytes())
    }

    /// Removes a record; the index of each record after it becomes one lower. Refusals: 15.
    pub fn remove(&mut self, index: u32) -> Result<(), Refusal> {
        answer(slices::remove_record(&mut self.bytes, index))
    }

    /// A record: a part of the buffer, not a copy. Refusals: 15.
    pub fn fetch(&self, index: u32) -> Result<&[u8], Refusal> {
        let mut figures = [0; 2];
        answer(slices::fetch_record(&self.bytes, index, &mut figures))?;
        let [offset, length] = figures.map(|figure| figure as usize);
        Ok(&self.bytes[offset..offset + length])
    }

    /// All records, by their indices.
    pub fn records(&self) -> impl Iterator<Item = &[u8]> {
        (0..).map_while(|index| self.fetch(index).ok())
    }

    /// Moves the records down to start at 258 without gaps; their order and their bytes stay.
    pub fn compact(&mut self) {
        accepted(slices::compact_catalogue(&mut self.bytes));
    }
}
