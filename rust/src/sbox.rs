//! S-boxes and their figures.
use crate::figures::{Autocorrelation, Degree, DynamicDistance, LargestCell, Nonlinearity, RaisingSwap, SumNonlinearity};
use crate::lists::{Cells, List, NearestPairs};
use crate::refusal::{accepted, answer};
use crate::{slices, DetailedRefusal, FileError, Refusal, TruthTable};
use std::fs::File;
use std::io::Read;
use std::path::Path;

/// The bytes of the longest sheet.
const SHEET_BYTES: usize = 332;
/// The bytes of the longest box file.
const FILE_BYTES: u64 = 1026;

/// An S-box that the library accepts: n inputs (1 to 8), m outputs (1 to 32), and 2^n rows below 2^m.
///
/// Bit 1 is the lowest. Combination c (a component function, c being its output mask) is the parity of the
/// ones in (row AND c). A limit i, from 1 to m, is the most outputs that a combination may have; with i = m
/// a call goes over all 2^m − 1 of them, which takes about a tenth of a microsecond each at 8 inputs, and
/// cannot be stopped; a long sweep is divided into parts ([`Sbox::nonlinearity_between`]).
///
/// `sbox[x]` is the output for input x, `sbox.len()` is 2^n, and a loop over `&sbox` goes over the outputs.
///
/// ```
/// use satmegwo::{Nonlinearity, Sbox};
///
/// let sbox = Sbox::new(3, 3, [3, 1, 4, 0, 2, 5, 6, 7])?;
/// // The three outputs together are w·x with w = 7; no two of them are affine.
/// assert_eq!(sbox.nonlinearity(3)?, Nonlinearity { figure: 0, c: 7, w: 7, b: 0, limit: 3 });
/// assert_eq!(sbox.nonlinearity(2)?.figure, 2);
/// assert_eq!((sbox[2], sbox.len(), sbox.iter().max()), (4, 8, Some(7)));
/// assert!(sbox.is_bijective() && sbox.is_complete());
/// # Ok::<(), satmegwo::Refusal>(())
/// ```
#[derive(Clone, Debug, PartialEq, Eq, Hash)]
pub struct Sbox {
    n: u32,
    m: u32,
    rows: Vec<u32>,
}

impl Sbox {
    /// An S-box of these widths and rows. Refusals: 1, 2, 3, 4.
    pub fn new(n: u32, m: u32, rows: impl Into<Vec<u32>>) -> Result<Sbox, DetailedRefusal> {
        let rows = rows.into();
        answer(slices::check_box(n, m, &rows)).map_err(|refusal| DetailedRefusal::of_box(refusal, n, m, &rows))?;
        Ok(Sbox { n, m, rows })
    }

    /// The number of inputs, n.
    pub fn inputs(&self) -> u32 {
        self.n
    }

    /// The number of outputs, m.
    pub fn outputs(&self) -> u32 {
        self.m
    }

    /// The output for each input.
    pub fn rows(&self) -> &[u32] {
        &self.rows
    }

    /// The S-box of the bytes of a box file: n and m in a byte each, then the rows, four bytes each, low
    /// byte first. `Sbox::try_from` does the same. Refusals: 10, 1, 2, 4.
    ///
    /// ```
    /// use satmegwo::{Refusal, Sbox};
    ///
    /// let sbox = Sbox::from_bytes(&[1, 2, 3, 0, 0, 0, 1, 0, 0, 0])?;
    /// assert_eq!((sbox.inputs(), sbox.outputs(), sbox.rows()), (1, 2, &[3, 1][..]));
    /// assert_eq!(sbox.to_bytes(), [1, 2, 3, 0, 0, 0, 1, 0, 0, 0]);
    /// assert_eq!(Sbox::from_bytes(&[1, 2, 3]).unwrap_err().refusal, Refusal::FileLength);
    /// # Ok::<(), satmegwo::Refusal>(())
    /// ```
    pub fn from_bytes(file: &[u8]) -> Result<Sbox, DetailedRefusal> {
        // If the first byte is not a width, the file is refused before the length of the rows is checked.
        let n = file.first().copied().filter(|n| (1..=8).contains(n)).unwrap_or(1);
        let (mut rows, mut widths) = (vec![0; 1 << n], [0; 2]);
        answer(slices::read_box(file, &mut rows, &mut widths)).map_err(|refusal| DetailedRefusal::of_file(refusal, file))?;
        Ok(Sbox { n: widths[0], m: widths[1], rows })
    }

    /// The S-box of a box file on disk; a table of numbers is no box file.
    ///
    /// ```no_run
    /// let sbox = satmegwo::Sbox::from_path("aes.box")?;
    /// println!("{}", sbox.sheet());
    /// # Ok::<(), satmegwo::FileError>(())
    /// ```
    pub fn from_path(path: impl AsRef<Path>) -> Result<Sbox, FileError> {
        let path = path.as_ref();
        let mut file = Vec::new();
        // One byte more than the longest box file has is enough to see that this one is longer.
        let read = File::open(path).and_then(|opened| opened.take(FILE_BYTES + 1).read_to_end(&mut file));
        read.map_err(|error| FileError::Unreadable { path: path.into(), error })?;
        Sbox::from_bytes(&file).map_err(|error| FileError::Refused { path: path.into(), error })
    }

    /// The bytes of its box file. [`Sbox::from_bytes`] gives this S-box back.
    pub fn to_bytes(&self) -> Vec<u8> {
        let mut file = vec![0; 2 + 4 * self.rows.len()];
        accepted(slices::write_box(self.n, self.m, &self.rows, &mut file));
        file
    }

    /// The sheet, as the program `boxsheet` prints it for the box file.
    pub fn sheet(&self) -> String {
        sheet_of_bytes(&self.to_bytes())
    }

    /// The S-box of packed columns (coordinate functions). Refusals: 1, 2, 3, 16.
    ///
    /// ```
    /// use satmegwo::Sbox;
    ///
    /// let sbox = Sbox::from_packed(2, 2, &[0b0101, 0b0011])?;
    /// assert_eq!(sbox.rows(), [3, 2, 1, 0]);
    /// assert_eq!(sbox.to_packed(), [0b0101, 0b0011]);
    /// # Ok::<(), satmegwo::Refusal>(())
    /// ```
    pub fn from_packed(n: u32, m: u32, packed: &[u8]) -> Result<Sbox, Refusal> {
        let mut rows = vec![0; 1 << n.clamp(1, 8)];
        answer(slices::unpack_columns(n, m, packed, &mut rows))?;
        Ok(Sbox { n, m, rows })
    }

    /// The columns (coordinate functions), packed for the mask: column 1 first, the truth values in input order, eight to a
    /// byte, lowest bit first.
    pub fn to_packed(&self) -> Vec<u8> {
        let mut packed = vec![0; self.m as usize * self.rows.len().div_ceil(8)];
        accepted(slices::pack_columns(self.n, self.m, &self.rows, &mut packed));
        packed
    }

    /// The Walsh spectrum, halved, of a component function: the entries of the linear approximation table
    /// (LAT) for output mask c. For each input mask w it is the number of inputs where combination c equals
    /// w·x, less 2^(n−1). Refusals: 6.
    pub fn component_spectrum(&self, c: u32) -> Result<Vec<i32>, Refusal> {
        let mut values = vec![0; self.rows.len()];
        answer(slices::component_spectrum(self.n, self.m, &self.rows, c, &mut values))?;
        Ok(values)
    }

    /// The nonlinearity d within the limit i; the linearity is 2^n − 2d. Refusals: 6.
    pub fn nonlinearity(&self, i: u32) -> Result<Nonlinearity, Refusal> {
        let mut figures = [0; 4];
        answer(slices::nonlinearity(self.n, self.m, &self.rows, i, &mut figures))?;
        let [figure, c, w, b] = figures;
        Ok(Nonlinearity { figure, c, w, b, limit: i })
    }

    /// All best linear approximations: pairs of a combination within the limit i and an affine function
    /// that differ at as few inputs as the nonlinearity says. Refusals: 6.
    ///
    /// ```
    /// use satmegwo::{Pair, Sbox};
    ///
    /// let sbox = Sbox::new(2, 1, [0, 0, 0, 1])?;
    /// assert_eq!(sbox.nonlinearity(1)?.figure, 1);
    /// let pairs: Vec<Pair> = sbox.nearest_pairs(1)?.collect();
    /// let pair = |w, b| Pair { c: 1, w, b };
    /// assert_eq!(pairs, [pair(0, 0), pair(1, 0), pair(2, 0), pair(3, 1)]);
    /// # Ok::<(), satmegwo::Refusal>(())
    /// ```
    pub fn nearest_pairs(&self, i: u32) -> Result<NearestPairs, Refusal> {
        let (mut list, mut number) = (vec![0; 4096], [0]);
        // A call with too short a list does not give the number, so a longer one is tried.
        loop {
            match answer(slices::nearest_pairs(self.n, self.m, &self.rows, i, &mut list, &mut number)) {
                Err(Refusal::ListTooShort) => list = vec![0; 16 * list.len()],
                Err(refusal) => return Err(refusal),
                Ok(()) => break,
            }
        }
        list.truncate(number[0] as usize);
        Ok(List::of(list))
    }

    /// The S-box with the affine function w·x XOR b added to column j (a coordinate function), which
    /// leaves the nonlinearity as it is within every limit. Refusals: 6.
    pub fn add_to_column(&self, j: u32, w: u32, b: u32) -> Result<Sbox, Refusal> {
        let mut rows = vec![0; self.rows.len()];
        answer(slices::add_to_column(self.n, self.m, &self.rows, j, w, b, &mut rows))?;
        Ok(Sbox { rows, ..*self })
    }

    /// Row a of the difference distribution table (DDT), here called XOR table, of a box of at most 16
    /// outputs: for each beta the number of x with S(x) XOR S(x XOR a) = beta. Refusals: 2, 6.
    pub fn xor_row(&self, a: u32) -> Result<Vec<u16>, Refusal> {
        let mut counts = vec![0; 1 << self.m.min(16)];
        answer(slices::xor_row(self.n, self.m, &self.rows, a, &mut counts))?;
        Ok(counts)
    }

    /// The differential uniformity: the largest cell of the XOR table (DDT).
    pub fn largest_cell(&self) -> LargestCell {
        let mut figures = [0; 3];
        accepted(slices::largest_cell(self.n, self.m, &self.rows, &mut figures));
        let [figure, a, beta] = figures;
        LargestCell { figure, a, beta }
    }

    /// All cells of the XOR table (DDT) that reach the differential uniformity.
    ///
    /// ```
    /// use satmegwo::{Cell, Sbox};
    ///
    /// let sbox = Sbox::new(2, 2, [0, 1, 2, 3])?;
    /// assert_eq!(sbox.largest_cell().figure, 4);
    /// let cells: Vec<Cell> = sbox.largest_cells().collect();
    /// assert_eq!(cells, [1, 2, 3].map(|a| Cell { a, beta: a }));
    /// # Ok::<(), satmegwo::Refusal>(())
    /// ```
    pub fn largest_cells(&self) -> Cells {
        // One for each pair of different inputs: no box has more cells.
        let most = (self.rows.len() - 1) * self.rows.len() / 2;
        let (mut list, mut number) = (vec![0; most], [0]);
        accepted(slices::largest_cells(self.n, self.m, &self.rows, &mut list, &mut number));
        list.truncate(number[0] as usize);
        List::of(list)
    }

    /// The absolute indicator, the largest autocorrelation within the limit i. Refusals: 6.
    pub fn autocorrelation(&self, i: u32) -> Result<Autocorrelation, Refusal> {
        let mut figures = [0; 3];
        answer(slices::autocorrelation(self.n, self.m, &self.rows, i, &mut figures))?;
        let [figure, c, s] = figures;
        Ok(Autocorrelation { figure, c, s, limit: i })
    }

    /// The dynamic distance of order (i, j), which measures SAC and BIC, doubled: over combinations within
    /// the limit i, and changes of 1 to j input bits. The strict avalanche criterion (SAC) holds where
    /// order (1, 1) gives 0, and the bit independence criterion (BIC) where (2, 1) does; this BIC is not
    /// the correlation of Webster and Tavares. Refusals: 6.
    pub fn dynamic_distance(&self, i: u32, j: u32) -> Result<DynamicDistance, Refusal> {
        let mut figures = [0; 3];
        answer(slices::dynamic_distance(self.n, self.m, &self.rows, i, j, &mut figures))?;
        let [figure, c, d] = figures;
        Ok(DynamicDistance { figure, c, d, limit: i, flips: j })
    }

    /// The least algebraic degree (Sage's `min_degree`) of a combination (component function) within the
    /// limit i; others give the largest. Refusals: 6.
    pub fn degree(&self, i: u32) -> Result<Degree, Refusal> {
        let mut figures = [0; 2];
        answer(slices::degree(self.n, self.m, &self.rows, i, &mut figures))?;
        let [figure, c] = figures;
        Ok(Degree { figure, c, limit: i })
    }

    /// Whether the S-box is complete: every input bit changes every column (coordinate function) at some
    /// input.
    pub fn is_complete(&self) -> bool {
        let mut figures = [0];
        accepted(slices::complete(self.n, self.m, &self.rows, &mut figures));
        figures[0] == 1
    }

    /// Whether the S-box is a permutation: n = m and no two rows are equal.
    pub fn is_bijective(&self) -> bool {
        let mut figures = [0];
        accepted(slices::bijective(self.n, self.m, &self.rows, &mut figures));
        figures[0] == 1
    }

    /// An S-box of n inputs and n outputs becomes one of n + 1 of each: its columns are enlarged by k with
    /// the constant 0, and the new highest output bit is the truth table enlarged by k with the constant
    /// 1. Refusals: 1 (n = 8), 3 (the table has other inputs), 4 (a row is not below 2^n), 6 (k).
    ///
    /// ```
    /// use satmegwo::{Sbox, TruthTable};
    ///
    /// let sbox = Sbox::new(3, 3, [3, 1, 4, 0, 2, 5, 6, 7])?;
    /// let large = sbox.enlarged(&TruthTable::new(3, [1, 0, 0, 0, 1, 1, 0, 1])?, 1)?;
    /// assert_eq!(large.rows(), [11, 1, 4, 0, 10, 13, 6, 15, 9, 3, 8, 12, 5, 2, 7, 14]);
    /// assert!(large.is_bijective());
    /// # Ok::<(), satmegwo::Refusal>(())
    /// ```
    pub fn enlarged(&self, table: &TruthTable, k: u32) -> Result<Sbox, Refusal> {
        let mut rows = vec![0; 2 * self.rows.len()];
        answer(slices::enlarge_box(self.n, &self.rows, table.values(), k, &mut rows))?;
        Ok(Sbox { n: self.n + 1, m: self.n + 1, rows })
    }

    /// The smallest swap of two different rows that raises the nonlinearity over all combinations, or
    /// `None` exactly where no swap does. Boxes of at most 8 outputs. Refusals: 2.
    ///
    /// ```
    /// use satmegwo::Sbox;
    ///
    /// let mut rows: Vec<u32> = (0..16).collect();
    /// while let Some(swap) = Sbox::new(4, 4, rows.clone())?.raising_swap()? {
    ///     rows.swap(swap.low as usize, swap.high as usize);
    ///     assert_eq!(Sbox::new(4, 4, rows.clone())?.nonlinearity(4)?.figure, swap.nonlinearity);
    /// }
    /// # Ok::<(), satmegwo::Refusal>(())
    /// ```
    pub fn raising_swap(&self) -> Result<Option<RaisingSwap>, Refusal> {
        let mut figures = [0; 4];
        answer(slices::raising_swap(self.n, self.m, &self.rows, &mut figures))?;
        let [found, low, high, nonlinearity] = figures;
        Ok((found == 1).then_some(RaisingSwap { low, high, nonlinearity }))
    }
}

/// The S-box of the bytes of a box file, as [`Sbox::from_bytes`] has it.
///
/// ```
/// use satmegwo::Sbox;
///
/// let bytes: &[u8] = &[1, 2, 3, 0, 0, 0, 1, 0, 0, 0];
/// let sbox: Sbox = bytes.try_into()?;
/// assert_eq!(sbox, Sbox::new(1, 2, [3, 1])?);
/// # Ok::<(), satmegwo::Refusal>(())
/// ```
impl TryFrom<&[u8]> for Sbox {
    type Error = DetailedRefusal;

    fn try_from(file: &[u8]) -> Result<Sbox, DetailedRefusal> {
        Sbox::from_bytes(file)
    }
}

/// The sheet of the bytes of a box file: nine lines, or the one line `refused N` where they are none.
///
/// ```
/// let file = [1, 1, 0, 0, 0, 0, 1, 0, 0, 0];
/// let lines = "box 1 1\nnonlinearity 0 1 1 0 1\nxor 2 1 1\nautocorrelation 2 1 1 1\nsac 1 1 1\nbic none\n\
///              degree 1 1 1\ncomplete yes\nbijective yes\n";
/// assert_eq!(satmegwo::sheet_of_bytes(&file), lines);
/// assert_eq!(satmegwo::sheet_of_bytes(b"1 0"), "refused 1\n");
/// ```
pub fn sheet_of_bytes(file: &[u8]) -> String {
    let (mut text, mut length) = (vec![0; SHEET_BYTES], [0]);
    accepted(slices::sheet(file, &mut text, &mut length));
    text.truncate(length[0] as usize);
    String::from_utf8(text).expect("a sheet is plain text")
}

/// The nonlinearity within the limit i of one to four S-boxes whose outputs are added by XOR, each with
/// its own input bits: the least count over all their inputs together, up to 2^32.
/// Refusals: 11 (another number of boxes), 12 (different numbers of outputs), 6.
///
/// ```
/// use satmegwo::{sum_nonlinearity, Sbox};
///
/// let one = Sbox::new(3, 3, [3, 1, 4, 0, 2, 5, 6, 7])?;
/// let two = Sbox::new(2, 3, [0, 5, 3, 6])?;
/// let sum = sum_nonlinearity(&[&one, &two], 1)?;
/// assert_eq!((sum.figure, sum.c, &sum.masks[..], sum.b), (8, 1, &[1, 3][..], 0));
/// # Ok::<(), satmegwo::Refusal>(())
/// ```
pub fn sum_nonlinearity(boxes: &[&Sbox], i: u32) -> Result<SumNonlinearity, Refusal> {
    let count = boxes.len().min(5); // 5 is refused as every greater number is
    let lent = std::array::from_fn(|k| boxes.get(k).map_or((0, 0, &[][..]), |one| (one.n, one.m, &one.rows[..])));
    let mut figures = vec![0; 3 + count];
    answer(slices::sum_nonlinearity(count as u32, lent, i, &mut figures))?;
    let (masks, b) = (figures[2..2 + count].to_vec(), figures[2 + count]);
    Ok(SumNonlinearity { figure: figures[0], c: figures[1], masks, b, limit: i })
}
