//! Boxes to test with: random ones, and ones in which an analyser is likely to slip.
use crate::model::{self, all_outputs};
use crate::random::Random;

/// How many kinds of boxes there are; `of_kind` counts around them.
pub const KINDS: u32 = 12;

/// A box of the given kind. Where a kind does not exist at these widths a near one is made.
pub fn of_kind(kind: u32, n: u32, m: u32, random: &mut Random) -> Vec<u32> {
    match kind % KINDS {
        0 => random_rows(n, m, random),
        1 => constant(n, m, random),
        2 => affine_columns(n, m, random),
        3 => identity(n, m),
        4 => bent_columns(n, m, random),
        5 => permuted(n, m, random),
        6 => two_values(n, m, random),
        7 => two_equal_rows(n, m, random),
        8 => quadratic(n, m, random),
        9 => deaf_to_one_bit(n, m, random),
        10 => one_affine_combination(n, m, random),
        _ => few_ones(n, m, random),
    }
}

pub fn random_rows(n: u32, m: u32, random: &mut Random) -> Vec<u32> {
    (0..1 << n).map(|_| random.draw() as u32 & all_outputs(m)).collect()
}

pub fn random_table(n: u32, random: &mut Random) -> Vec<u8> {
    (0..1 << n).map(|_| random.below(2) as u8).collect()
}

/// A permutation of 0 to 2^h - 1.
pub fn random_permutation(h: u32, random: &mut Random) -> Vec<u8> {
    let mut entries: Vec<u8> = (0..=(1u32 << h) - 1).map(|x| x as u8).collect();
    random.shuffle(&mut entries);
    entries
}

/// Every input gives the same row; now and then this row is 0 or the largest one.
fn constant(n: u32, m: u32, random: &mut Random) -> Vec<u32> {
    let other = random_rows(1, m, random)[0];
    vec![random.pick(&[0, all_outputs(m), other]); 1 << n]
}

/// Puts truth tables together: the first is column 1.
fn from_columns(n: u32, columns: &[Vec<u8>]) -> Vec<u32> {
    let mut rows = vec![0; 1 << n];
    for (j, column) in columns.iter().enumerate() {
        for (row, &bit) in rows.iter_mut().zip(column) {
            *row |= u32::from(bit) << j;
        }
    }
    rows
}

fn affine(n: u32, random: &mut Random) -> Vec<u8> {
    let (w, b) = (random.below(1 << n), random.below(2) as u8);
    (0..1 << n).map(|x| model::parity(w & x) ^ b).collect()
}

pub fn affine_columns(n: u32, m: u32, random: &mut Random) -> Vec<u32> {
    let columns: Vec<Vec<u8>> = (0..m).map(|_| affine(n, random)).collect();
    from_columns(n, &columns)
}

fn identity(n: u32, m: u32) -> Vec<u32> {
    (0..1 << n).map(|x| x & all_outputs(m)).collect()
}

/// The cube in the field of 256 elements, an 8 by 8 box: under each input difference every pair
/// of inputs has an output difference of its own.
pub fn cubes() -> Vec<u32> {
    (0..256).map(|x| times(x, times(x, x))).collect()
}

/// The product in that field, whose polynomial is x^8 + x^4 + x^3 + x + 1.
fn times(x: u32, y: u32) -> u32 {
    let whole = (0..8).filter(|k| y >> k & 1 == 1).fold(0, |sum, k| sum ^ x << k);
    (8..15).rev().fold(whole, |rest, k| if rest >> k & 1 == 1 { rest ^ 0x11B << (k - 8) } else { rest })
}

/// A bent function, or for odd n one on all inputs but the highest.
fn bent(n: u32, random: &mut Random) -> Vec<u8> {
    let even = n & !1;
    if even == 0 {
        return random_table(n, random);
    }
    let permutation = random_permutation(even / 2, random);
    let table = random_table(even / 2, random);
    let bent = model::bent_function(even, &permutation, &table, 1 << even).expect("nothing to refuse");
    bent.iter().copied().cycle().take(1 << n).collect()
}

fn bent_columns(n: u32, m: u32, random: &mut Random) -> Vec<u32> {
    let columns: Vec<Vec<u8>> = (0..m).map(|_| bent(n, random)).collect();
    from_columns(n, &columns)
}

/// With m = n a bijective box.
fn permuted(n: u32, m: u32, random: &mut Random) -> Vec<u32> {
    let mut rows = identity(n, m);
    random.shuffle(&mut rows);
    rows
}

/// Only two rows occur, so most figures are reached in many places.
fn two_values(n: u32, m: u32, random: &mut Random) -> Vec<u32> {
    let values = random_rows(1, m, random);
    (0..1 << n).map(|_| random.pick(&values)).collect()
}

/// A permutation in which one row was copied over another.
fn two_equal_rows(n: u32, m: u32, random: &mut Random) -> Vec<u32> {
    let mut rows = permuted(n, m, random);
    let (from, to) = (random.below(1 << n), random.below(1 << n));
    rows[to as usize] = rows[from as usize];
    rows
}

/// Columns of degree 2 at most: products of two affine functions.
fn quadratic(n: u32, m: u32, random: &mut Random) -> Vec<u32> {
    let mut product = || -> Vec<u8> {
        let (f, g) = (affine(n, random), affine(n, random));
        f.iter().zip(&g).map(|(a, b)| a & b).collect()
    };
    let columns: Vec<Vec<u8>> = (0..m).map(|_| product()).collect();
    from_columns(n, &columns)
}

/// One input bit changes nothing in one column.
fn deaf_to_one_bit(n: u32, m: u32, random: &mut Random) -> Vec<u32> {
    let mut rows = random_rows(n, m, random);
    let (input, column) = (1usize << random.below(n), 1u32 << random.below(m));
    for x in (0..rows.len()).filter(|x| x & input != 0) {
        rows[x] = rows[x] & !column | rows[x ^ input] & column;
    }
    rows
}

/// The highest column makes the sum of all columns affine: the witness stands at the end.
fn one_affine_combination(n: u32, m: u32, random: &mut Random) -> Vec<u32> {
    let sum = affine(n, random);
    let mut rows = random_rows(n, m, random);
    for (row, &wanted) in rows.iter_mut().zip(&sum) {
        let parity = model::parity(*row);
        *row ^= u32::from(parity ^ wanted) << (m - 1);
    }
    rows
}

/// A combination of exactly k outputs is affine, and as a rule none of fewer: what is found within
/// the limit k is not found within k - 1.
pub fn affine_from(k: u32, n: u32, m: u32, random: &mut Random) -> Vec<u32> {
    let mut outputs: Vec<u32> = (0..m).collect();
    random.shuffle(&mut outputs);
    let c = outputs[..k as usize].iter().fold(0, |c, j| c | 1 << j);
    let sum = affine(n, random);
    with_combination(c, outputs[0], &sum, random_rows(n, m, random))
}

/// The rows with output j + 1 changed so that combination c, which has it, is this function.
fn with_combination(c: u32, j: u32, function: &[u8], mut rows: Vec<u32>) -> Vec<u32> {
    for (row, &wanted) in rows.iter_mut().zip(function) {
        *row ^= u32::from(model::parity(*row & c) ^ wanted) << j;
    }
    rows
}

/// A combination of k outputs, one of which is given, from 1 to m.
pub fn combination_with(output: u32, k: u32, m: u32, random: &mut Random) -> u32 {
    let mut others: Vec<u32> = (0..m).filter(|&j| j != output - 1).collect();
    random.shuffle(&mut others);
    others[..k as usize - 1].iter().fold(1 << (output - 1), |c, j| c | 1 << j)
}

/// Combination c is affine, and the other columns are 1 at an odd number of inputs. From two inputs on
/// no affine function is so, nor a function that any change of inputs flips everywhere or nowhere.
pub fn decided_by(c: u32, n: u32, m: u32, random: &mut Random) -> Vec<u32> {
    let mut rows = random_rows(n, m, random);
    let odd = rows.iter().fold(0, |sum, row| sum ^ row);
    rows[random.below(1 << n) as usize] ^= !odd & all_outputs(m);
    with_combination(c, c.ilog2(), &affine(n, random), rows)
}

/// All rows but a few are 0, and the last one is as large as can be.
fn few_ones(n: u32, m: u32, random: &mut Random) -> Vec<u32> {
    let mut rows = vec![0; 1 << n];
    rows[random.below(1 << n) as usize] = 1 << random.below(m);
    rows[(1 << n) - 1] = all_outputs(m);
    rows
}

#[cfg(test)]
mod tests {
    use super::*;
    use crate::counted;

    #[test]
    fn each_pair_of_the_cube_has_its_own_difference() {
        let cells = model::largest_cells(8, 8, &cubes(), 255 * 128, 1).expect("nothing to refuse");
        assert_eq!(cells.len(), 255 * 128);
    }

    /// Every limit that an affine combination is made for has figures of its own, from three inputs
    /// on; with fewer, most boxes have an affine combination of few outputs anyway.
    #[test]
    fn limits_matter_where_a_combination_is_made_affine() {
        let mut random = Random::new(9);
        for (n, m) in [(5, 6), (6, 9), (8, 4), (8, 8)] {
            for k in 2..=m {
                let rows = affine_from(k, n, m, &mut random);
                let pairs = counted::nonlinearities(n, m, &rows, m);
                let [below, at] = [k - 1, k].map(|i| pairs[i as usize - 1]);
                assert!(below[0] > 0 && at[0] == 0 && at[1].count_ones() == k, "{n} by {m}, k = {k}: {below:?}, {at:?}");
                let degrees = counted::degrees(n, m, &rows, m);
                assert!(degrees[k as usize - 1][0] <= 1 && degrees[k as usize - 2][0] > 1, "{degrees:?}");
            }
        }
    }

    #[test]
    fn a_combination_has_the_output_that_is_given() {
        let mut random = Random::new(10);
        for (output, m) in (1..=32).flat_map(|m| (1..=m).map(move |output| (output, m))) {
            for k in 1..=m.min(4) {
                let c = combination_with(output, k, m, &mut random);
                assert!(c.count_ones() == k && c >> (output - 1) & 1 == 1 && c <= all_outputs(m), "{c:b}");
            }
        }
    }

    /// One output alone decides from two inputs on, and a combination of two or three from six inputs on:
    /// functions of fewer inputs are so few that others among 32 outputs are affine, or have a change that
    /// flips them everywhere.
    #[test]
    fn the_combination_that_is_given_decides() {
        let mut random = Random::new(11);
        for (n, m, k) in (2..=8).flat_map(|n| [17, 24, 31, 32].map(|m| (n, m, 1))).chain([(6, 32, 2), (6, 32, 3), (8, 17, 2), (8, 32, 3)]) {
            let c = combination_with(m, k, m, &mut random);
            let rows = decided_by(c, n, m, &mut random);
            let at = k as usize - 1;
            assert_eq!(counted::nonlinearities(n, m, &rows, k)[at][..2], [0, c], "{n} by {m}, c = {c:b}");
            assert_eq!(counted::autocorrelations(n, m, &rows, k)[at][..2], [1 << n, c], "{n} by {m}, c = {c:b}");
            let [degree, witness] = counted::degrees(n, m, &rows, k)[at];
            assert!(degree <= 1 && witness == c, "{n} by {m}, c = {c:b}: {degree}, {witness:b}");
        }
    }

    #[test]
    fn every_kind_is_a_box_at_every_width() {
        let mut random = Random::new(3);
        for n in 1..=8 {
            for m in 1..=32 {
                for kind in 0..KINDS {
                    let rows = of_kind(kind, n, m, &mut random);
                    assert!(model::complete(n, m, &rows, 1).is_ok(), "kind {kind}, {n} by {m}: {rows:?}");
                }
            }
        }
    }
}
