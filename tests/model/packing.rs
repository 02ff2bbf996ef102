//! A box as packed columns, and back: document 02, section 8.
//!
//! The first half follows the document word for word. The second half does the same in
//! blocks of eight rows by eight columns, each turned over as one 64-bit number.
use crate::model::{check_box, check_inputs, check_outputs, check_read, check_written, refuse_when, Answer};

/// The refusal of this section.
pub const UNUSED_BIT: u32 = 16;

const MOST_INPUTS: u32 = 8;
const MOST_OUTPUTS: u32 = 32;

/// How many bytes a column takes: one for every eight truth values, and one with n below 3.
pub fn bytes_of_a_column(n: u32) -> usize {
    match n {
        1 | 2 => 1,
        _ => (1 << n) / 8,
    }
}

/// For column 1 first, the truth values in input order, eight to a byte, lowest bit first.
pub fn packed_by_definition(m: u32, rows: &[u32]) -> Vec<u8> {
    let mut packed = Vec::new();
    for j in 1..=m {
        let column: Vec<u8> = rows.iter().map(|row| (row >> (j - 1) & 1) as u8).collect();
        for values in column.chunks(8) {
            packed.push(values.iter().enumerate().map(|(place, value)| value << place).sum());
        }
    }
    packed
}

/// The rows whose column j, at input x, has the bit that the packed form holds for it.
pub fn unpacked_by_definition(n: u32, m: u32, packed: &[u8]) -> Vec<u32> {
    let size = bytes_of_a_column(n);
    let value = |j: u32, x: usize| -> u32 {
        let column = &packed[(j as usize - 1) * size..][..size];
        u32::from(column[x / 8] >> (x % 8) & 1)
    };
    (0..1 << n).map(|x| (1..=m).map(|j| value(j, x) << (j - 1)).sum()).collect()
}

/// Whether some byte has a bit set that stands for no input.
fn has_unused_bit_set(n: u32, packed: &[u8]) -> bool {
    let inputs = 1u32 << n;
    packed.iter().any(|byte| (inputs..8).any(|place| byte >> place & 1 == 1))
}

/// Refusals 1, 2, 3, 4, 7.
pub fn pack(n: u32, m: u32, rows: &[u32], out_len: usize) -> Answer<Vec<u8>> {
    check_box(n, m, rows)?;
    check_written(out_len, m as usize * bytes_of_a_column(n))?;
    Ok(packed_by_definition(m, rows))
}

/// Refusals 1, 2, 3, 16, 7.
pub fn unpack(n: u32, m: u32, packed: &[u8], out_len: usize) -> Answer<Vec<u32>> {
    check_inputs(n, MOST_INPUTS)?;
    check_outputs(m, MOST_OUTPUTS)?;
    check_read(packed.len(), m as usize * bytes_of_a_column(n))?;
    refuse_when(has_unused_bit_set(n, packed), UNUSED_BIT)?;
    check_written(out_len, 1 << n)?;
    Ok(unpacked_by_definition(n, m, packed))
}

// ---------------------------------------------------------------------------
// The quick way. Its arguments have been checked.
// ---------------------------------------------------------------------------

/// Eight bytes of eight bits turned over: bit t of byte k becomes bit k of byte t. Single
/// bits change places first, then squares of two by two, then of four by four.
fn turned(block: u64) -> u64 {
    let step = |block: u64, shift: u32, upper: u64| {
        let change = (block ^ (block >> shift)) & upper;
        block ^ change ^ (change << shift)
    };
    let block = step(block, 7, 0x00AA_00AA_00AA_00AA);
    let block = step(block, 14, 0x0000_CCCC_0000_CCCC);
    step(block, 28, 0x0000_0000_F0F0_F0F0)
}

/// Eight rows and eight columns at a time: the block's bytes are the rows' bytes at first,
/// and the columns' bytes once it is turned over.
pub fn pack_quickly(n: u32, rows: &[u32], out: &mut [u8]) {
    let size = bytes_of_a_column(n);
    for (k, rows) in rows.chunks(8).enumerate() {
        let mut eight = [0; 8];
        eight[..rows.len()].copy_from_slice(rows);
        let mut place = k;
        for group in 0..4 {
            let mut block = 0;
            for (t, row) in eight.iter().enumerate() {
                block |= u64::from((row >> (8 * group)) as u8) << (8 * t);
            }
            block = turned(block);
            for _ in 0..8 {
                if place >= out.len() {
                    break;
                }
                out[place] = block as u8;
                block >>= 8;
                place += size;
            }
        }
    }
}

/// The same blocks the other way round. Columns that are not there are read as 0.
pub fn unpack_quickly(n: u32, packed: &[u8], out: &mut [u32]) {
    let size = bytes_of_a_column(n);
    for (k, rows) in out.chunks_mut(8).enumerate() {
        let mut eight = [0; 8];
        let mut place = k;
        for group in 0..4 {
            let mut block = 0;
            for t in 0..8 {
                if place < packed.len() {
                    block |= u64::from(packed[place]) << (8 * t);
                }
                place += size;
            }
            block = turned(block);
            for (t, row) in eight.iter_mut().enumerate() {
                *row |= u32::from((block >> (8 * t)) as u8) << (8 * group);
            }
        }
        rows.copy_from_slice(&eight[..rows.len()]);
    }
}

#[cfg(test)]
mod tests {
    use super::*;
    use crate::boxes::{self, KINDS};
    use crate::random::Random;

    /// Column 1 of the box is 1 1 0 0 0 1 0 1, column 2 is 1 0 0 0 1 0 1 1, column 3 is
    /// 0 0 1 0 0 1 1 1; the first value is the lowest bit.
    #[test]
    fn the_example_box() {
        let packed = [0b1010_0011, 0b1101_0001, 0b1110_0100];
        assert_eq!(pack(3, 3, &[3, 1, 4, 0, 2, 5, 6, 7], 3), Ok(packed.to_vec()));
        assert_eq!(unpack(3, 3, &packed, 8), Ok(vec![3, 1, 4, 0, 2, 5, 6, 7]));
    }

    #[test]
    fn with_n_below_3_a_column_takes_one_byte() {
        assert_eq!(pack(1, 3, &[1, 6], 3), Ok(vec![1, 2, 2]));
        assert_eq!(pack(2, 2, &[0, 1, 2, 3], 2), Ok(vec![0b1010, 0b1100]));
        assert_eq!(unpack(1, 3, &[1, 2, 2], 2), Ok(vec![1, 6]));
        assert_eq!(unpack(2, 2, &[10, 12], 4), Ok(vec![0, 1, 2, 3]));
    }

    #[test]
    fn a_column_of_sixteen_values_takes_two_bytes() {
        let mut rows = [0; 16];
        (rows[0], rows[9]) = (1, 2);
        assert_eq!(pack(4, 2, &rows, 4), Ok(vec![1, 0, 0, 2]));
    }

    #[test]
    fn unused_bits() {
        assert!(unpack(1, 1, &[3], 2).is_ok());
        assert_eq!(unpack(1, 1, &[4], 2), Err(16));
        assert!(unpack(2, 2, &[15, 15], 4).is_ok());
        assert_eq!(unpack(2, 2, &[15, 16], 4), Err(16));
        assert!(unpack(3, 1, &[255], 8).is_ok());
    }

    #[test]
    fn the_order_of_checks() {
        assert_eq!(pack(9, 33, &[4], 9), Err(1));
        assert_eq!(pack(1, 33, &[4], 9), Err(2));
        assert_eq!(pack(1, 2, &[4], 9), Err(3));
        assert_eq!(pack(1, 2, &[4, 0], 9), Err(4));
        assert_eq!(pack(1, 2, &[3, 0], 9), Err(7));
        assert_eq!(unpack(0, 0, &[4], 9), Err(1));
        assert_eq!(unpack(1, 0, &[4], 9), Err(2));
        assert_eq!(unpack(1, 2, &[4], 9), Err(3));
        assert_eq!(unpack(1, 2, &[4, 0], 9), Err(16));
        assert_eq!(unpack(1, 2, &[3, 0], 9), Err(7));
    }

    #[test]
    fn both_ways_agree_and_lead_back() {
        let mut random = Random::new(8);
        for (n, m) in (1..=8).flat_map(|n| (1..=32).map(move |m| (n, m))) {
            for kind in 0..KINDS {
                let rows = boxes::of_kind(kind, n, m, &mut random);
                let packed = packed_by_definition(m, &rows);
                let mut quick = vec![255; m as usize * bytes_of_a_column(n)];
                pack_quickly(n, &rows, &mut quick);
                assert_eq!(quick, packed, "{n} by {m}: {rows:?}");
                let mut quick = vec![u32::MAX; 1 << n];
                unpack_quickly(n, &packed, &mut quick);
                assert_eq!(quick, rows, "{n} by {m}");
                assert_eq!(unpacked_by_definition(n, m, &packed), rows, "{n} by {m}");
            }
        }
    }
}
