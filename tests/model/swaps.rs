//! The swap of two unlike rows that raises the nonlinearity: document 02, section 10.
//!
//! The first part follows the document word for word; for wide boxes it counts too, but looks at a
//! swap only until one pair shows that it does not raise. The second part turns swaps down by
//! transforms of single combinations, much as the library does, and is for times alone.
use crate::counted::{self, Pairs};
use crate::fast::{self, walsh};
use crate::model::{all_outputs, check_box_up_to, check_written, nonlinearity_by_definition, parity, Answer};

/// The most outputs of a box whose rows are swapped.
pub const MOST_OUTPUTS: u32 = 8;

/// What is said where no swap raises the nonlinearity.
pub const NONE: [u32; 4] = [0; 4];

/// The rows after two of them have changed places.
pub fn after_swap(rows: &[u32], low: usize, high: usize) -> Vec<u32> {
    let mut rows = rows.to_vec();
    rows.swap(low, high);
    rows
}

/// All swaps of two unlike rows, as (low, high), in their order: by how many bits the two rows
/// differ in, then by the lower input, then by the higher.
pub fn swaps_in_order(rows: &[u32]) -> Vec<(usize, usize)> {
    let inputs = 0..rows.len();
    let pairs = inputs.clone().flat_map(|low| inputs.clone().map(move |high| (low, high)));
    let mut swaps: Vec<_> = pairs.filter(|&(low, high)| low < high && rows[low] != rows[high]).collect();
    swaps.sort_by_key(|&(low, high)| ((rows[low] ^ rows[high]).count_ones(), low, high));
    swaps
}

/// The nonlinearity over all combinations.
fn figure(n: u32, m: u32, rows: &[u32]) -> u32 {
    if n <= 3 {
        nonlinearity_by_definition(n, m, rows, m)[0]
    } else {
        counted::nonlinearities(n, m, rows, m)[m as usize - 1][0]
    }
}

/// 1, both inputs and the new figure; or four zeros.
pub fn raising_swap_by_definition(n: u32, m: u32, rows: &[u32]) -> [u32; 4] {
    let present = figure(n, m, rows);
    for (low, high) in swaps_in_order(rows) {
        let later = figure(n, m, &after_swap(rows, low, high));
        if later > present {
            return [1, low as u32, high as u32, later];
        }
    }
    NONE
}

/// The same, by counting: a swap raises the figure exactly if every pair of a combination and an
/// affine function then differs at more inputs than the present figure. A pair that does not stops
/// the swap, and is looked at first for the next one.
pub fn raising_swap_by_counting(n: u32, m: u32, rows: &[u32]) -> [u32; 4] {
    let present = figure(n, m, rows);
    let mut pairs = Pairs::new(n, m, rows);
    let mut last = (1, 0);
    for (low, high) in swaps_in_order(rows) {
        pairs.swap(low, high);
        match pairs.within(present, last) {
            Some(pair) => last = pair,
            None => return [1, low as u32, high as u32, figure(n, m, &after_swap(rows, low, high))],
        }
        pairs.swap(low, high);
    }
    NONE
}

/// Refusals 1, 2, 3, 4, 7.
pub fn raising_swap(n: u32, m: u32, rows: &[u32], figures_len: usize) -> Answer<[u32; 4]> {
    check_box_up_to(MOST_OUTPUTS, n, m, rows)?;
    check_written(figures_len, 4)?;
    Ok(if n <= 5 { raising_swap_by_definition(n, m, rows) } else { raising_swap_by_counting(n, m, rows) })
}

// ---------------------------------------------------------------------------
// The quick way, for the benchmark. Its arguments have been checked.
// ---------------------------------------------------------------------------

/// A combination and an affine function that are as near as any: the nonlinearity's witness.
struct Witness {
    c: u32,
    w: u32,
    b: u32,
}

impl Witness {
    /// Whether they differ at more inputs after the swap: before it they agree at both, and the
    /// combination has unlike values there, so that it agrees at neither afterwards.
    fn is_left_behind(&self, rows: &[u32], low: usize, high: usize) -> bool {
        let value = |x: usize| parity(rows[x] & self.c);
        let line = |x: usize| parity(self.w & x as u32) ^ self.b as u8;
        value(low) == line(low) && value(high) == line(high) && value(low) != value(high)
    }
}

/// The largest magnitude in the spectrum of combination c.
fn largest(rows: &[u32], c: u32) -> i32 {
    let mut buffer = [0i32; 256];
    let values = &mut buffer[..rows.len()];
    for (value, row) in values.iter_mut().zip(rows) {
        let mut ones = row & c;
        ones ^= ones >> 4;
        ones ^= ones >> 2;
        ones ^= ones >> 1;
        *value = 1 - 2 * (ones & 1) as i32;
    }
    walsh(values);
    values.iter().fold(0, |most, value| most.max(value.abs()))
}

/// A combination whose largest magnitude is the limit or more, if there is one: first the one
/// that turned the last swap down.
fn reaching(m: u32, rows: &[u32], limit: i32, last: u32) -> Option<u32> {
    if largest(rows, last) >= limit {
        return Some(last);
    }
    (1..=all_outputs(m)).find(|&c| largest(rows, c) >= limit)
}

/// As `raising_swap_by_definition`. A swap is out as soon as the present witness stays, or one
/// combination has a magnitude that is not below the present largest.
pub fn raising_swap_quickly(n: u32, m: u32, rows: &[u32]) -> [u32; 4] {
    let [present, c, w, b] = fast::nonlinearity(n, m, rows, m);
    let (witness, limit) = (Witness { c, w, b }, rows.len() as i32 - 2 * present as i32);
    let mut last = c;
    let mut later = rows.to_vec();
    for bits in 1..=m {
        for low in 0..rows.len() {
            for high in low + 1..rows.len() {
                if (rows[low] ^ rows[high]).count_ones() != bits || !witness.is_left_behind(rows, low, high) {
                    continue;
                }
                later.swap(low, high);
                match reaching(m, &later, limit, last) {
                    Some(c) => last = c,
                    None => return [1, low as u32, high as u32, fast::nonlinearity(n, m, &later, m)[0]],
                }
                later.swap(low, high);
            }
        }
    }
    NONE
}

#[cfg(test)]
mod tests {
    use super::*;
    use crate::boxes::{self, KINDS};
    use crate::published;
    use crate::random::Random;

    /// Rows 0, 1, 2, 3: they differ in one bit at (0, 1), (0, 2), (1, 3), (2, 3), and in two at
    /// (0, 3), (1, 2).
    #[test]
    fn the_order_of_swaps() {
        assert_eq!(swaps_in_order(&[0, 1, 2, 3]), [(0, 1), (0, 2), (1, 3), (2, 3), (0, 3), (1, 2)]);
        assert_eq!(swaps_in_order(&[5, 5, 5, 5]), []);
        assert_eq!(swaps_in_order(&[1, 1, 0, 1]), [(0, 2), (1, 2), (2, 3)]);
    }

    /// Functions of two inputs are affine where their ones are even in number, and else as far
    /// from affine as can be; and a swap keeps that number.
    #[test]
    fn two_inputs() {
        for rows in 0..16 {
            let rows: Vec<u32> = (0..4).map(|x| rows >> x & 1).collect();
            assert_eq!(raising_swap(2, 1, &rows, 4), Ok(NONE));
        }
    }

    /// An affine function: every swap of unlike rows leads 2 inputs away from it, and (0, 4) is
    /// the first one.
    #[test]
    fn an_affine_function_of_three_inputs() {
        assert_eq!(raising_swap(3, 1, &[0, 0, 0, 0, 1, 1, 1, 1], 4), Ok([1, 0, 4, 2]));
    }

    #[test]
    fn the_best_boxes_are_not_raised() {
        let aes = published::all().into_iter().find(|known| known.name == "aes").expect("it is among them");
        assert_eq!(raising_swap(8, 8, &aes.rows, 4), Ok(NONE));
    }

    #[test]
    fn the_order_of_checks() {
        assert_eq!(raising_swap(9, 9, &[2], 3), Err(1));
        assert_eq!(raising_swap(1, 9, &[2], 3), Err(2));
        assert_eq!(raising_swap(1, 1, &[2], 3), Err(3));
        assert_eq!(raising_swap(1, 1, &[2, 0], 3), Err(4));
        assert_eq!(raising_swap(1, 1, &[1, 0], 3), Err(7));
        assert_eq!(raising_swap(1, 8, &[255, 0], 4), Ok(NONE));
    }

    #[test]
    fn all_ways_agree() {
        let mut random = Random::new(10);
        for (n, m) in (1..=5).flat_map(|n| (1..=8).map(move |m| (n, m))) {
            for kind in 0..KINDS {
                let rows = boxes::of_kind(kind, n, m, &mut random);
                let wanted = raising_swap_by_definition(n, m, &rows);
                assert_eq!(raising_swap_by_counting(n, m, &rows), wanted, "{n} by {m}: {rows:?}");
                assert_eq!(raising_swap_quickly(n, m, &rows), wanted, "{n} by {m}: {rows:?}");
            }
        }
    }

    /// Whole figures for every swap at six inputs, and the two quicker ways at seven and eight.
    #[test]
    fn the_ways_agree_on_wide_boxes() {
        let mut random = Random::new(12);
        for (m, kind) in [(1, 0), (4, 5), (6, 5)] {
            let rows = boxes::of_kind(kind, 6, m, &mut random);
            assert_eq!(raising_swap_by_counting(6, m, &rows), raising_swap_by_definition(6, m, &rows), "6 by {m}: {rows:?}");
        }
        for (n, m, kind) in [(7, 7, 5), (7, 3, 9), (8, 8, 5), (8, 4, 0), (8, 8, 4)] {
            let rows = boxes::of_kind(kind, n, m, &mut random);
            assert_eq!(raising_swap_quickly(n, m, &rows), raising_swap_by_counting(n, m, &rows), "{n} by {m}: {rows:?}");
        }
    }

    /// A step raises the figure to what it says.
    #[test]
    fn a_climb() {
        let mut random = Random::new(11);
        let mut rows: Vec<u32> = boxes::random_permutation(6, &mut random).into_iter().map(u32::from).collect();
        let mut steps = 0;
        loop {
            let [raised, low, high, later] = raising_swap_quickly(6, 6, &rows);
            if raised == 0 {
                break;
            }
            rows.swap(low as usize, high as usize);
            assert_eq!(fast::nonlinearity(6, 6, &rows, 6)[0], later);
            steps += 1;
        }
        assert!(steps > 0);
    }
}
