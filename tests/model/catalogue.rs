//! The catalogue of document 02 §7, from its definition.
//!
//! A catalogue's bytes are read into the records that they hold, each rule being looked at by
//! itself; a call changes the list of records, and the bytes are made anew from that list. What
//! a call would leave in the lent buffer is part of the value returned.
use crate::model::{parse_file, Answer, FILE_LENGTH, INPUT_WIDTH, OUTPUT_WIDTH, READ_VALUE, WRITTEN_LENGTH};

/// The refusals' numbers.
pub const NO_CATALOGUE: u32 = 13;
pub const NO_ROOM: u32 = 14;
pub const NO_RECORD: u32 = 15;

/// Where the records may begin: behind the count and the places.
pub const FIRST: usize = 2 + 64 * 4;
/// The longest buffer, and the most records.
pub const LONGEST: usize = 65535;
pub const MOST_RECORDS: usize = 64;

/// A record: where it lies, and the box file that it is.
#[derive(Clone, Debug, PartialEq)]
pub struct Record {
    pub offset: usize,
    pub file: Vec<u8>,
}

impl Record {
    fn end(&self) -> usize {
        self.offset + self.file.len()
    }
}

/// A catalogue that keeps every rule.
#[derive(Clone, Debug, PartialEq)]
pub struct Catalogue {
    pub size: usize,
    pub records: Vec<Record>,
}

/// A number of two bytes, low byte first.
fn word(bytes: &[u8], place: usize) -> usize {
    usize::from(bytes[place]) + 256 * usize::from(bytes[place + 1])
}

/// The offset and the length that stand on a place of the directory, counted from 0.
fn pair(bytes: &[u8], place: usize) -> (usize, usize) {
    (word(bytes, 2 + 4 * place), word(bytes, 4 + 4 * place))
}

/// The catalogue that these bytes are, or refusal 13: one rule after the other.
pub fn read(bytes: &[u8]) -> Answer<Catalogue> {
    rule((FIRST..=LONGEST).contains(&bytes.len()))?;
    let count = word(bytes, 0);
    rule(count <= MOST_RECORDS)?;
    let pairs: Vec<(usize, usize)> = (0..count).map(|place| pair(bytes, place)).collect();
    rule(pairs.windows(2).all(|two| two[0].0 < two[1].0))?;
    rule((count..MOST_RECORDS).all(|place| pair(bytes, place) == (0, 0)))?;
    rule(pairs.iter().all(|&(offset, length)| offset >= FIRST && offset + length <= bytes.len()))?;
    let record = |&(offset, length): &(usize, usize)| Record { offset, file: bytes[offset..offset + length].to_vec() };
    let records: Vec<Record> = pairs.iter().map(record).collect();
    rule(records.iter().all(|record| parse_file(&record.file).is_ok()))?;
    let catalogue = Catalogue { size: bytes.len(), records };
    let owners = catalogue.owners();
    rule(owners.iter().all(|&number| number <= 1))?;
    rule((FIRST..bytes.len()).all(|place| owners[place] == 1 || bytes[place] == 0))?;
    Ok(catalogue)
}

fn rule(holds: bool) -> Answer<()> {
    if holds {
        Ok(())
    } else {
        Err(NO_CATALOGUE)
    }
}

impl Catalogue {
    /// For each byte of the buffer, how many records have it.
    fn owners(&self) -> Vec<u8> {
        let mut owners = vec![0; self.size];
        for record in &self.records {
            owners[record.offset..record.end()].iter_mut().for_each(|number| *number += 1);
        }
        owners
    }

    /// The runs of bytes from `FIRST` on that no record has: start and length, lowest first.
    fn gaps(&self) -> Vec<(usize, usize)> {
        let owners = self.owners();
        let mut gaps: Vec<(usize, usize)> = Vec::new();
        for place in (FIRST..self.size).filter(|&place| owners[place] == 0) {
            match gaps.last_mut() {
                Some((start, length)) if *start + *length == place => *length += 1,
                _ => gaps.push((place, 1)),
            }
        }
        gaps
    }

    /// How many bytes no record has, wherever they lie.
    pub fn free(&self) -> usize {
        self.gaps().iter().map(|&(_, length)| length).sum()
    }

    /// The bytes of the buffer: count, pairs, records, and 0 everywhere else.
    pub fn bytes(&self) -> Vec<u8> {
        let mut bytes = vec![0; self.size];
        let mut put = |place: usize, number: usize| {
            bytes[place] = (number % 256) as u8;
            bytes[place + 1] = (number / 256) as u8;
        };
        put(0, self.records.len());
        for (place, record) in self.records.iter().enumerate() {
            put(2 + 4 * place, record.offset);
            put(4 + 4 * place, record.file.len());
        }
        for record in &self.records {
            bytes[record.offset..record.end()].copy_from_slice(&record.file);
        }
        bytes
    }
}

// ---------------------------------------------------------------------------
// The calls. `figures_len` is the length of the array that is lent for figures.
// ---------------------------------------------------------------------------

fn check_figures(length: usize, right: usize) -> Answer<()> {
    if length == right {
        Ok(())
    } else {
        Err(WRITTEN_LENGTH)
    }
}

/// Figures: the number of records.
pub fn check(bytes: &[u8], figures_len: usize) -> Answer<[u32; 1]> {
    let catalogue = read(bytes)?;
    check_figures(figures_len, 1)?;
    Ok([catalogue.records.len() as u32])
}

/// Figures: the index of the new record. With them, the bytes afterwards.
pub fn add(bytes: &[u8], file: &[u8], figures_len: usize) -> Answer<([u32; 1], Vec<u8>)> {
    let mut catalogue = read(bytes)?;
    parse_file(file)?;
    check_figures(figures_len, 1)?;
    if catalogue.records.len() == MOST_RECORDS {
        return Err(NO_ROOM);
    }
    let gaps = catalogue.gaps();
    let &(offset, _) = gaps.iter().find(|&&(_, length)| length >= file.len()).ok_or(NO_ROOM)?;
    catalogue.records.push(Record { offset, file: file.to_vec() });
    catalogue.records.sort_by_key(|record| record.offset);
    let index = catalogue.records.iter().position(|record| record.offset == offset).expect("it was put there");
    Ok(([index as u32], catalogue.bytes()))
}

/// The bytes afterwards.
pub fn remove(bytes: &[u8], index: u32) -> Answer<Vec<u8>> {
    let mut catalogue = read(bytes)?;
    if index as usize >= catalogue.records.len() {
        return Err(NO_RECORD);
    }
    catalogue.records.remove(index as usize);
    Ok(catalogue.bytes())
}

/// Figures: where the record lies, and its length.
pub fn fetch(bytes: &[u8], index: u32, figures_len: usize) -> Answer<[u32; 2]> {
    let catalogue = read(bytes)?;
    let record = catalogue.records.get(index as usize).ok_or(NO_RECORD)?;
    check_figures(figures_len, 2)?;
    Ok([record.offset as u32, record.file.len() as u32])
}

/// The bytes afterwards.
pub fn compact(bytes: &[u8]) -> Answer<Vec<u8>> {
    let mut catalogue = read(bytes)?;
    let mut next = FIRST;
    for record in &mut catalogue.records {
        record.offset = next;
        next = record.end();
    }
    Ok(catalogue.bytes())
}

// ---------------------------------------------------------------------------
// The check in one pass, for times. It gives what `check` gives.
// ---------------------------------------------------------------------------

/// The number of records, or refusal 13, without a copy of anything.
pub fn quick_check(bytes: &[u8]) -> Answer<u32> {
    rule((FIRST..=LONGEST).contains(&bytes.len()))?;
    let count = word(bytes, 0);
    rule(count <= MOST_RECORDS)?;
    let mut end = FIRST;
    for place in 0..count {
        let (offset, length) = pair(bytes, place);
        rule(end <= offset && offset + length <= bytes.len())?;
        rule(all_zero(&bytes[end..offset]))?;
        rule(file_refusal(&bytes[offset..offset + length]).is_none())?;
        end = offset + length;
    }
    rule(all_zero(&bytes[2 + 4 * count..FIRST]) && all_zero(&bytes[end..]))?;
    Ok(count as u32)
}

fn all_zero(bytes: &[u8]) -> bool {
    bytes.iter().all(|&byte| byte == 0)
}

/// What a file is refused by, without reading its rows into a list.
fn file_refusal(file: &[u8]) -> Option<u32> {
    if file.len() < 2 {
        return Some(FILE_LENGTH);
    }
    let (n, m) = (file[0], file[1]);
    let too_large = |four: &[u8]| u64::from(u32::from_le_bytes([four[0], four[1], four[2], four[3]])) >= 1 << m;
    match (n, m) {
        (0 | 9.., _) => Some(INPUT_WIDTH),
        (_, 0 | 33..) => Some(OUTPUT_WIDTH),
        _ if file.len() != 2 + (4 << n) => Some(FILE_LENGTH),
        _ if file[2..].chunks_exact(4).any(too_large) => Some(READ_VALUE),
        _ => None,
    }
}

#[cfg(test)]
mod tests {
    use super::*;
    use crate::boxes::random_rows;
    use crate::model::file_of;
    use crate::random::Random;

    /// A file of 10 bytes, and one of 18.
    const SMALL: [u8; 10] = [1, 2, 3, 0, 0, 0, 1, 0, 0, 0];
    const LARGER: [u8; 18] = [2, 1, 1, 0, 0, 0, 0, 0, 0, 0, 1, 0, 0, 0, 0, 0, 0, 0];

    fn after(bytes: &[u8], file: &[u8], index: u32) -> Vec<u8> {
        let (figures, bytes) = add(bytes, file, 1).expect("there is room");
        assert_eq!(figures, [index]);
        bytes
    }

    #[test]
    fn lengths_from_both_sides() {
        assert_eq!(check(&[0; 257], 1), Err(13));
        assert_eq!(check(&[0; 258], 1), Ok([0]));
        assert_eq!(check(&vec![0; 65535], 1), Ok([0]));
        assert_eq!(check(&vec![0; 65536], 1), Err(13));
        assert_eq!(add(&[0; 267], &SMALL, 1), Err(14));
        assert_eq!(add(&[0; 268], &SMALL, 1).unwrap().0, [0]);
    }

    #[test]
    fn the_bytes_of_a_small_catalogue() {
        let bytes = after(&after(&[0; 300], &SMALL, 0), &LARGER, 1);
        let mut wanted = vec![2, 0, 2, 1, 10, 0, 12, 1, 18, 0];
        wanted.resize(258, 0);
        wanted.extend(SMALL);
        wanted.extend(LARGER);
        wanted.resize(300, 0);
        assert_eq!(bytes, wanted);
    }

    #[test]
    fn a_gap_serves_again_and_the_lowest_comes_first() {
        let mut bytes = vec![0; 320];
        for index in 0..3 {
            bytes = after(&bytes, &SMALL, index);
        }
        let full = bytes.clone();
        bytes = remove(&bytes, 0).unwrap();
        bytes = remove(&bytes, 1).unwrap();
        assert_eq!(fetch(&bytes, 0, 2), Ok([268, 10]));
        assert_eq!(fetch(&after(&bytes, &LARGER, 1), 1, 2), Ok([278, 18]));
        assert_eq!(after(&after(&bytes, &SMALL, 0), &SMALL, 2), full);
        let packed = compact(&bytes).unwrap();
        assert_eq!(fetch(&packed, 0, 2), Ok([258, 10]));
        assert_eq!(packed[268..], [0; 52]);
    }

    #[test]
    fn the_order_of_the_checks() {
        assert_eq!(add(&[1; 300], &[9], 2), Err(13));
        assert_eq!(add(&[0; 258], &[9], 2), Err(10));
        assert_eq!(add(&[0; 258], &SMALL, 2), Err(7));
        assert_eq!(add(&[0; 258], &SMALL, 1), Err(14));
        assert_eq!(remove(&[1; 300], 0), Err(13));
        assert_eq!(remove(&[0; 300], 0), Err(15));
        assert_eq!(fetch(&[1; 300], 0, 3), Err(13));
        assert_eq!(fetch(&[0; 300], 0, 3), Err(15));
        assert_eq!(fetch(&after(&[0; 300], &SMALL, 0), 0, 3), Err(7));
    }

    #[test]
    fn sixty_four_records_and_no_more() {
        let mut bytes = vec![0; 258 + 65 * 10];
        for index in 0..64 {
            bytes = after(&bytes, &SMALL, index);
        }
        assert_eq!(add(&bytes, &SMALL, 1), Err(14));
        bytes[0] = 65;
        assert_eq!(check(&bytes, 1), Err(13));
    }

    /// A record, a gap, two records side by side, and every single byte changed in every way.
    #[test]
    fn the_quick_check_says_the_same_of_every_damaged_byte() {
        let mut random = Random::new(7);
        let mut bytes = vec![0; 258 + 10 + 18 + 34 + 10 + 5];
        for (index, (n, m)) in [(1, 5), (2, 31), (3, 32), (1, 1)].into_iter().enumerate() {
            bytes = after(&bytes, &file_of(n, m, &random_rows(n, m, &mut random)), index as u32);
        }
        bytes = remove(&bytes, 1).unwrap();
        for place in 0..bytes.len() {
            for value in 0..=255 {
                let mut damaged = bytes.clone();
                damaged[place] = value;
                assert_eq!(quick_check(&damaged), check(&damaged, 1).map(|figures| figures[0]), "{value} at {place}");
            }
        }
    }
}
