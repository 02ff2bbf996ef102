//! The second program: every call of documents 01 and 02, from its definition.
//!
//! Each call first looks for a refusal, down the table of document 01, and then counts
//! inputs and adds up plus and minus ones as the definition says. A lent array shows up
//! here only as its length; what the call would write to it is the value returned.
use crate::combinations::{how_many, within};
use crate::counted;
use crate::fast;
use std::collections::BTreeMap;

/// The refusals' numbers.
pub const INPUT_WIDTH: u32 = 1;
pub const OUTPUT_WIDTH: u32 = 2;
pub const READ_LENGTH: u32 = 3;
pub const READ_VALUE: u32 = 4;
pub const NOT_A_PERMUTATION: u32 = 5;
pub const PARAMETER: u32 = 6;
pub const WRITTEN_LENGTH: u32 = 7;
pub const NO_FUNCTION: u32 = 8;
pub const LIST_TOO_SHORT: u32 = 9;
pub const FILE_LENGTH: u32 = 10;

/// The most outputs of a box, and of a box of which a whole XOR row is given.
const MOST_OUTPUTS: u32 = 32;
const MOST_OUTPUTS_OF_A_ROW: u32 = 16;

/// A result, or the number of the refusal.
pub type Answer<T> = Result<T, u32>;

// ---------------------------------------------------------------------------
// Checks. Each gives its refusal or nothing.
// ---------------------------------------------------------------------------

pub fn refuse_when(condition: bool, number: u32) -> Answer<()> {
    if condition {
        Err(number)
    } else {
        Ok(())
    }
}

pub(crate) fn check_inputs(n: u32, most: u32) -> Answer<()> {
    refuse_when(n < 1 || n > most, INPUT_WIDTH)
}

pub(crate) fn check_outputs(m: u32, most: u32) -> Answer<()> {
    refuse_when(m < 1 || m > most, OUTPUT_WIDTH)
}

pub(crate) fn check_read(length: usize, right: usize) -> Answer<()> {
    refuse_when(length != right, READ_LENGTH)
}

fn check_rows(m: u32, rows: &[u32]) -> Answer<()> {
    refuse_when(rows.iter().any(|&row| u64::from(row) >= 1 << m), READ_VALUE)
}

fn check_truth_values(table: &[u8]) -> Answer<()> {
    refuse_when(table.iter().any(|&value| value > 1), READ_VALUE)
}

pub fn check_parameter(value: u32, low: u32, high: u32) -> Answer<()> {
    refuse_when(value < low || value > high, PARAMETER)
}

pub fn check_written(length: usize, right: usize) -> Answer<()> {
    refuse_when(length != right, WRITTEN_LENGTH)
}

/// Refusals 1 to 4 of a box with at most `most` outputs.
pub fn check_box_up_to(most: u32, n: u32, m: u32, rows: &[u32]) -> Answer<()> {
    check_inputs(n, 8)?;
    check_outputs(m, most)?;
    check_read(rows.len(), 1 << n)?;
    check_rows(m, rows)
}

/// Refusals 1 to 4 of a box.
pub fn check_box(n: u32, m: u32, rows: &[u32]) -> Answer<()> {
    check_box_up_to(MOST_OUTPUTS, n, m, rows)
}

/// Refusals 1, 3 and 4 of a truth table with at most `most` inputs.
fn check_table(n: u32, most: u32, table: &[u8]) -> Answer<()> {
    check_inputs(n, most)?;
    check_read(table.len(), 1 << n)?;
    check_truth_values(table)
}

// ---------------------------------------------------------------------------
// Definitions. Their arguments have been checked.
// ---------------------------------------------------------------------------

/// The parity of the ones in a number: 0 or 1.
pub fn parity(number: u32) -> u8 {
    (number.count_ones() & 1) as u8
}

/// The combination of all outputs, 2^m - 1, which is also the largest row.
pub fn all_outputs(m: u32) -> u32 {
    ((1u64 << m) - 1) as u32
}

/// The truth table of combination c.
pub fn combination(rows: &[u32], c: u32) -> Vec<u8> {
    rows.iter().map(|&row| parity(row & c)).collect()
}

/// The truth table of x -> w·x.
fn linear(n: u32, w: u32) -> Vec<u8> {
    (0..1 << n).map(|x| parity(w & x)).collect()
}

/// The linear approximation values: for each w, in how many inputs f equals w·x, less 2^(n-1).
fn spectrum_by_definition(n: u32, f: &[u8]) -> Vec<i32> {
    let value = |w| -> i32 {
        let line = linear(n, w);
        let equal: i32 = f.iter().zip(&line).map(|(a, b)| i32::from(a == b)).sum();
        equal - (1 << (n - 1))
    };
    (0..1 << n).map(value).collect()
}

/// In how many inputs f differs from the affine function `line` XOR b.
fn count_of_differing(f: &[u8], line: &[u8], b: u32) -> u32 {
    f.iter().zip(line).map(|(&v, &l)| u32::from(v != l ^ b as u8)).sum()
}

/// The least count with its first witness: d, c, w, b. Here and below, the combinations come
/// in the order of `within`: those of fewer outputs first, then the smaller.
pub fn nonlinearity_by_definition(n: u32, m: u32, rows: &[u32], i: u32) -> [u32; 4] {
    nonlinearity_over(n, rows, &within(m, i)).expect("c = 1 always exists")
}

/// The same over these combinations, and nothing where there are none.
pub fn nonlinearity_over(n: u32, rows: &[u32], combinations: &[u32]) -> Option<[u32; 4]> {
    let lines: Vec<Vec<u8>> = (0..1 << n).map(|w| linear(n, w)).collect();
    let mut best: Option<[u32; 4]> = None;
    for &c in combinations {
        let f = combination(rows, c);
        for w in 0..1u32 << n {
            for b in 0..2 {
                let differing = count_of_differing(&f, &lines[w as usize], b);
                if best.is_none_or(|best| differing < best[0]) {
                    best = Some([differing, c, w, b]);
                }
            }
        }
    }
    best
}

/// A pair in the list of all nearest pairs: c * 512 + 2 * w + b.
pub fn coded_pair(c: u32, w: u32, b: u32) -> u64 {
    u64::from(c) * 512 + 2 * u64::from(w) + u64::from(b)
}

/// All pairs that differ at the fewest inputs: the combinations in their order, then w, then b.
pub fn nearest_pairs_by_definition(n: u32, m: u32, rows: &[u32], i: u32) -> Vec<u64> {
    let least = nonlinearity_by_definition(n, m, rows, i)[0];
    let lines: Vec<Vec<u8>> = (0..1 << n).map(|w| linear(n, w)).collect();
    let mut pairs = Vec::new();
    for c in within(m, i) {
        let f = combination(rows, c);
        for (w, line) in (0..).zip(&lines) {
            pairs.extend((0..2).filter(|&b| count_of_differing(&f, line, b) == least).map(|b| coded_pair(c, w, b)));
        }
    }
    pairs
}

/// The cells of one row of the XOR table that are not 0: for each β its count of x with
/// S(x) XOR S(x XOR a) = β, in ascending β.
fn cells_by_definition(rows: &[u32], a: u32) -> BTreeMap<u32, u32> {
    let mut cells = BTreeMap::new();
    for x in 0..rows.len() {
        *cells.entry(rows[x] ^ rows[x ^ a as usize]).or_insert(0) += 1;
    }
    cells
}

/// One row of the XOR table, whole.
fn xor_row_by_definition(m: u32, rows: &[u32], a: u32) -> Vec<u16> {
    let mut row = vec![0; 1 << m];
    for (beta, count) in cells_by_definition(rows, a) {
        row[beta as usize] = count as u16;
    }
    row
}

/// The largest count with its first witness: count, a, β. A cell of 0 is never the largest.
pub fn largest_cell_by_definition(n: u32, rows: &[u32]) -> [u32; 3] {
    let mut best = [0, 0, 0];
    for a in 1..1u32 << n {
        for (beta, count) in cells_by_definition(rows, a) {
            if count > best[0] {
                best = [count, a, beta];
            }
        }
    }
    best
}

/// All cells that reach the largest count, each as a * 2^32 + β: by ascending a, then by
/// ascending β.
pub fn largest_cells_by_definition(n: u32, rows: &[u32]) -> Vec<u64> {
    let largest = largest_cell_by_definition(n, rows)[0];
    let mut cells = Vec::new();
    for a in 1..1u32 << n {
        for (beta, count) in cells_by_definition(rows, a) {
            if count == largest {
                cells.push((u64::from(a) << 32) + u64::from(beta));
            }
        }
    }
    cells
}

/// r(s): plus one where f(x) = f(x XOR s), minus one elsewhere, over all x.
fn correlation(f: &[u8], s: u32) -> i32 {
    (0..f.len()).map(|x| if f[x] == f[x ^ s as usize] { 1 } else { -1 }).sum()
}

/// The largest |r(s)| with its first witness: figure, c, s.
pub fn autocorrelation_by_definition(n: u32, m: u32, rows: &[u32], i: u32) -> [u32; 3] {
    autocorrelation_over(n, rows, &within(m, i)).expect("c = 1 and s = 1 always exist")
}

/// The same over these combinations.
pub fn autocorrelation_over(n: u32, rows: &[u32], combinations: &[u32]) -> Option<[u32; 3]> {
    let mut best: Option<[u32; 3]> = None;
    for &c in combinations {
        let f = combination(rows, c);
        for s in 1..1u32 << n {
            let figure = correlation(&f, s).unsigned_abs();
            if best.is_none_or(|b| figure > b[0]) {
                best = Some([figure, c, s]);
            }
        }
    }
    best
}

/// In how many inputs f changes when the bits of d are flipped.
fn count_of_changes(f: &[u8], d: u32) -> u32 {
    (0..f.len()).map(|x| u32::from(f[x] != f[x ^ d as usize])).sum()
}

/// The dynamic distance of order (i, j), not halved, with its first witness: figure, c, d.
pub fn dynamic_distance_by_definition(n: u32, m: u32, rows: &[u32], i: u32, j: u32) -> [u32; 3] {
    dynamic_distance_over(n, rows, &within(m, i), j).expect("c = 1 and d = 1 always exist")
}

/// The same over these combinations.
pub fn dynamic_distance_over(n: u32, rows: &[u32], combinations: &[u32], j: u32) -> Option<[u32; 3]> {
    let mut best: Option<[u32; 3]> = None;
    let half = 1u32 << (n - 1);
    for &c in combinations {
        let f = combination(rows, c);
        for d in (1..1u32 << n).filter(|d| d.count_ones() <= j) {
            let figure = half.abs_diff(count_of_changes(&f, d));
            if best.is_none_or(|b| figure > b[0]) {
                best = Some([figure, c, d]);
            }
        }
    }
    best
}

/// The coefficient at u is the XOR of f(x) over all x whose ones lie within u.
fn normal_form_by_definition(f: &[u8]) -> Vec<u8> {
    let coefficient = |u: usize| (0..f.len()).filter(|x| x & !u == 0).fold(0, |sum, x| sum ^ f[x]);
    (0..f.len()).map(coefficient).collect()
}

/// The most ones in any u with coefficient 1, and 0 if there is none.
pub fn degree_of_function(f: &[u8]) -> u32 {
    let coefficients = normal_form_by_definition(f);
    let present = (0..f.len()).filter(|&u| coefficients[u] == 1);
    present.map(|u| u.count_ones()).max().unwrap_or(0)
}

/// The least degree of a combination, and the first that has it: degree, c.
pub fn degree_by_definition(m: u32, rows: &[u32], i: u32) -> [u32; 2] {
    let mut best = [u32::MAX, 0];
    for c in within(m, i) {
        let degree = degree_of_function(&combination(rows, c));
        if degree < best[0] {
            best = [degree, c];
        }
    }
    best
}

pub fn complete_by_definition(n: u32, m: u32, rows: &[u32]) -> bool {
    (1..=m).all(|j| {
        let f = combination(rows, 1 << (j - 1));
        (1..=n).all(|k| count_of_changes(&f, 1 << (k - 1)) > 0)
    })
}

pub fn bijective_by_definition(n: u32, m: u32, rows: &[u32]) -> bool {
    let no_two_equal = (0..rows.len()).all(|x| !rows[x + 1..].contains(&rows[x]));
    n == m && no_two_equal
}

/// How a figure over the combinations within a limit is reached: the first way that takes no long
/// time. The unit tests hold each of the later ways to the first.
#[derive(Clone, Copy, Debug, PartialEq)]
pub enum Way {
    /// Value by value, as it stands above.
    ByDefinition,
    /// The same counts by packed words: `counted`.
    ByCounting,
    /// By transforms, as the library does: `fast`. No limit of a box of at most 16 outputs needs
    /// it, nor the limits 1 to 4 of any box.
    ByTransform,
}

pub fn way(n: u32, m: u32, i: u32) -> Way {
    way_over(n, how_many(m, i))
}

/// The same where so many combinations are looked at.
pub fn way_over(n: u32, combinations: u64) -> Way {
    if combinations << (2 * n) <= 1 << 20 {
        Way::ByDefinition
    } else if combinations << n <= 1 << 24 {
        Way::ByCounting
    } else {
        Way::ByTransform
    }
}

/// The figures within the last of the limits that were counted.
fn last<F: Copy>(within_each_limit: Vec<F>) -> F {
    *within_each_limit.last().expect("there is a limit")
}

// ---------------------------------------------------------------------------
// The calls.
// ---------------------------------------------------------------------------

pub fn spectrum(n: u32, table: &[u8], out_len: usize) -> Answer<Vec<i32>> {
    check_table(n, 8, table)?;
    check_written(out_len, 1 << n)?;
    Ok(spectrum_by_definition(n, table))
}

/// The only function that can have the values is found by adding them up with the signs of
/// w·x, which gives 2^(n-1) or -2^(n-1) at each x; whether it does have them is then looked at.
pub fn inverse_spectrum(n: u32, values: &[i32], table_len: usize) -> Answer<Vec<u8>> {
    check_inputs(n, 8)?;
    check_read(values.len(), 1 << n)?;
    check_written(table_len, 1 << n)?;
    let signed_sum = |x: u32| -> i64 {
        let signed = |(w, &v): (usize, &i32)| if parity(w as u32 & x) == 0 { i64::from(v) } else { -i64::from(v) };
        values.iter().enumerate().map(signed).sum()
    };
    let candidate: Vec<u8> = (0..1 << n).map(|x| u8::from(signed_sum(x) < 0)).collect();
    refuse_when(spectrum_by_definition(n, &candidate) != values, NO_FUNCTION)?;
    Ok(candidate)
}

pub fn component_spectrum(n: u32, m: u32, rows: &[u32], c: u32, out_len: usize) -> Answer<Vec<i32>> {
    check_box(n, m, rows)?;
    check_parameter(c, 1, all_outputs(m))?;
    check_written(out_len, 1 << n)?;
    Ok(spectrum_by_definition(n, &combination(rows, c)))
}

/// Figures: d, c, w, b.
pub fn nonlinearity(n: u32, m: u32, rows: &[u32], i: u32, figures_len: usize) -> Answer<[u32; 4]> {
    check_box(n, m, rows)?;
    check_parameter(i, 1, m)?;
    check_written(figures_len, 4)?;
    Ok(match way(n, m, i) {
        Way::ByDefinition => nonlinearity_by_definition(n, m, rows, i),
        Way::ByCounting => last(counted::nonlinearities(n, m, rows, i)),
        Way::ByTransform => fast::nonlinearity(n, m, rows, i),
    })
}

/// The pairs in their order; their number is the figure.
pub fn nearest_pairs(n: u32, m: u32, rows: &[u32], i: u32, list_len: usize, figures_len: usize) -> Answer<Vec<u64>> {
    check_box(n, m, rows)?;
    check_parameter(i, 1, m)?;
    check_written(figures_len, 1)?;
    let pairs = match way(n, m, i) {
        Way::ByDefinition => nearest_pairs_by_definition(n, m, rows, i),
        _ => counted::nearest_pairs(n, m, rows, i),
    };
    refuse_when(list_len < pairs.len(), LIST_TOO_SHORT)?;
    Ok(pairs)
}

pub fn add_to_column(n: u32, m: u32, rows: &[u32], j: u32, w: u32, b: u32, out_len: usize) -> Answer<Vec<u32>> {
    check_box(n, m, rows)?;
    check_parameter(j, 1, m)?;
    check_parameter(w, 0, (1 << n) - 1)?;
    check_parameter(b, 0, 1)?;
    check_written(out_len, 1 << n)?;
    let added = |x: u32| u32::from(parity(w & x) ^ b as u8) << (j - 1);
    Ok((0..1 << n).map(|x| rows[x as usize] ^ added(x)).collect())
}

pub fn xor_row(n: u32, m: u32, rows: &[u32], a: u32, counts_len: usize) -> Answer<Vec<u16>> {
    check_box_up_to(MOST_OUTPUTS_OF_A_ROW, n, m, rows)?;
    check_parameter(a, 1, (1 << n) - 1)?;
    check_written(counts_len, 1 << m)?;
    Ok(xor_row_by_definition(m, rows, a))
}

/// Figures: count, a, β.
pub fn largest_cell(n: u32, m: u32, rows: &[u32], figures_len: usize) -> Answer<[u32; 3]> {
    check_box(n, m, rows)?;
    check_written(figures_len, 3)?;
    Ok(largest_cell_by_definition(n, rows))
}

/// The cells in their order; their number is the figure.
pub fn largest_cells(n: u32, m: u32, rows: &[u32], list_len: usize, figures_len: usize) -> Answer<Vec<u64>> {
    check_box(n, m, rows)?;
    check_written(figures_len, 1)?;
    let cells = largest_cells_by_definition(n, rows);
    refuse_when(list_len < cells.len(), LIST_TOO_SHORT)?;
    Ok(cells)
}

/// Figures: figure, c, s.
pub fn autocorrelation(n: u32, m: u32, rows: &[u32], i: u32, figures_len: usize) -> Answer<[u32; 3]> {
    check_box(n, m, rows)?;
    check_parameter(i, 1, m)?;
    check_written(figures_len, 3)?;
    Ok(match way(n, m, i) {
        Way::ByDefinition => autocorrelation_by_definition(n, m, rows, i),
        Way::ByCounting => last(counted::autocorrelations(n, m, rows, i)),
        Way::ByTransform => fast::autocorrelation(n, m, rows, i),
    })
}

/// Figures: the doubled figure, c, d.
pub fn dynamic_distance(n: u32, m: u32, rows: &[u32], i: u32, j: u32, figures_len: usize) -> Answer<[u32; 3]> {
    check_box(n, m, rows)?;
    check_parameter(i, 1, m)?;
    check_parameter(j, 1, n)?;
    check_written(figures_len, 3)?;
    Ok(match way(n, m, i) {
        Way::ByDefinition => dynamic_distance_by_definition(n, m, rows, i, j),
        Way::ByCounting => last(counted::dynamic_distances(n, m, rows, i, j)),
        Way::ByTransform => fast::dynamic_distance(n, m, rows, i, j),
    })
}

pub fn normal_form(n: u32, table: &[u8], out_len: usize) -> Answer<Vec<u8>> {
    check_table(n, 8, table)?;
    check_written(out_len, 1 << n)?;
    Ok(normal_form_by_definition(table))
}

/// Figures: degree, c.
pub fn degree(n: u32, m: u32, rows: &[u32], i: u32, figures_len: usize) -> Answer<[u32; 2]> {
    check_box(n, m, rows)?;
    check_parameter(i, 1, m)?;
    check_written(figures_len, 2)?;
    Ok(match way(n, m, i) {
        Way::ByDefinition => degree_by_definition(m, rows, i),
        Way::ByCounting => last(counted::degrees(n, m, rows, i)),
        Way::ByTransform => fast::degree(n, m, rows, i),
    })
}

/// Figure: 1 for yes, 0 for no.
pub fn complete(n: u32, m: u32, rows: &[u32], figures_len: usize) -> Answer<[u32; 1]> {
    check_box(n, m, rows)?;
    check_written(figures_len, 1)?;
    Ok([u32::from(complete_by_definition(n, m, rows))])
}

/// Figure: 1 for yes, 0 for no.
pub fn bijective(n: u32, m: u32, rows: &[u32], figures_len: usize) -> Answer<[u32; 1]> {
    check_box(n, m, rows)?;
    check_written(figures_len, 1)?;
    Ok([u32::from(bijective_by_definition(n, m, rows))])
}

pub fn enlarge_column(n: u32, table: &[u8], k: u32, a: u32, out_len: usize) -> Answer<Vec<u8>> {
    check_table(n, 7, table)?;
    check_parameter(k, 1, n)?;
    check_parameter(a, 0, 1)?;
    check_written(out_len, 2 << n)?;
    let upper = (0..table.len()).map(|x| table[x ^ (1 << (k - 1))] ^ a as u8);
    Ok(table.iter().copied().chain(upper).collect())
}

pub fn enlarge_box(n: u32, rows: &[u32], table: &[u8], k: u32, out_len: usize) -> Answer<Vec<u32>> {
    check_inputs(n, 7)?;
    check_read(rows.len(), 1 << n)?;
    check_read(table.len(), 1 << n)?;
    check_rows(n, rows)?;
    check_truth_values(table)?;
    check_parameter(k, 1, n)?;
    check_written(out_len, 2 << n)?;
    let top_bit = |value: u8| u32::from(value) << n;
    let lower = (0..rows.len()).map(|x| rows[x] | top_bit(table[x]));
    let flipped = (0..rows.len()).map(|x| x ^ (1 << (k - 1)));
    let upper = flipped.map(|x| rows[x] | top_bit(table[x] ^ 1));
    Ok(lower.chain(upper).collect())
}

fn is_permutation(entries: &[u8]) -> bool {
    (0..entries.len()).all(|value| entries.iter().any(|&entry| usize::from(entry) == value))
}

pub fn bent_function(n: u32, permutation: &[u8], table: &[u8], out_len: usize) -> Answer<Vec<u8>> {
    refuse_when(![2, 4, 6, 8].contains(&n), INPUT_WIDTH)?;
    let h = n / 2;
    check_read(permutation.len(), 1 << h)?;
    check_read(table.len(), 1 << h)?;
    check_truth_values(table)?;
    refuse_when(!is_permutation(permutation), NOT_A_PERMUTATION)?;
    check_written(out_len, 1 << n)?;
    let mut out = Vec::new();
    for x in 0..1usize << h {
        for y in 0..1u32 << h {
            out.push(parity(u32::from(permutation[x]) & y) ^ table[x]);
        }
    }
    Ok(out)
}

/// A box as it was read from a file.
#[derive(Clone, Debug, PartialEq)]
pub struct FileBox {
    pub n: u32,
    pub m: u32,
    pub rows: Vec<u32>,
}

/// Everything about the file itself, before any array is lent.
pub fn parse_file(file: &[u8]) -> Answer<FileBox> {
    refuse_when(file.len() < 2, FILE_LENGTH)?;
    let (n, m) = (u32::from(file[0]), u32::from(file[1]));
    check_inputs(n, 8)?;
    check_outputs(m, MOST_OUTPUTS)?;
    refuse_when(file.len() != 2 + 4 * (1 << n), FILE_LENGTH)?;
    let row = |four: &[u8]| u32::from_le_bytes([four[0], four[1], four[2], four[3]]);
    let rows: Vec<u32> = file[2..].chunks(4).map(row).collect();
    check_rows(m, &rows)?;
    Ok(FileBox { n, m, rows })
}

/// Figures: n, m.
pub fn read_box(file: &[u8], rows_len: usize, figures_len: usize) -> Answer<FileBox> {
    let read = parse_file(file)?;
    check_written(rows_len, 1 << read.n)?;
    check_written(figures_len, 2)?;
    Ok(read)
}

/// The file of a box, to be written to an array of exactly its length.
pub fn write_box(n: u32, m: u32, rows: &[u32], file_len: usize) -> Answer<Vec<u8>> {
    check_box(n, m, rows)?;
    check_written(file_len, 2 + 4 * (1 << n))?;
    Ok(file_of(n, m, rows))
}

/// The file that holds a box.
pub fn file_of(n: u32, m: u32, rows: &[u32]) -> Vec<u8> {
    let mut file = vec![n as u8, m as u8];
    file.extend(rows.iter().flat_map(|row| row.to_le_bytes()));
    file
}

#[cfg(test)]
mod tests {
    use super::*;

    const F: [u32; 8] = [3, 1, 4, 0, 2, 5, 6, 7];

    /// What the comment of `Way::ByTransform` says.
    #[test]
    fn no_limit_of_16_outputs_needs_a_transform() {
        for (n, m) in (1..=8).flat_map(|n| (1..=32).map(move |m| (n, m))) {
            let most = if m <= 16 { m } else { 4 };
            assert!((1..=most).all(|i| way(n, m, i) != Way::ByTransform), "{n} by {m}");
        }
        assert_eq!(way(8, 32, 5), Way::ByTransform);
    }

    #[test]
    fn case_1_the_identity_of_one_bit() {
        assert_eq!(nonlinearity(1, 1, &[0, 1], 1, 4), Ok([0, 1, 1, 0]));
        assert_eq!(dynamic_distance(1, 1, &[0, 1], 1, 1, 3).unwrap()[0], 1);
        assert_eq!(degree(1, 1, &[0, 1], 1, 2), Ok([1, 1]));
    }

    #[test]
    fn case_2_a_constant() {
        assert_eq!(nonlinearity(1, 1, &[0, 0], 1, 4), Ok([0, 1, 0, 0]));
        assert_eq!(degree(1, 1, &[0, 0], 1, 2), Ok([0, 1]));
    }

    #[test]
    fn case_3_the_product_of_two_bits() {
        assert_eq!(spectrum(2, &[0, 0, 0, 1], 4), Ok(vec![1, 1, 1, -1]));
        assert_eq!(component_spectrum(2, 1, &[0, 0, 0, 1], 1, 4), Ok(vec![1, 1, 1, -1]));
        assert_eq!(nonlinearity(2, 1, &[0, 0, 0, 1], 1, 4), Ok([1, 1, 0, 0]));
        assert_eq!(dynamic_distance(2, 1, &[0, 0, 0, 1], 1, 2, 3).unwrap()[0], 0);
    }

    #[test]
    fn cases_4_to_6_the_way_back() {
        assert_eq!(inverse_spectrum(2, &[1, 1, 1, -1], 4), Ok(vec![0, 0, 0, 1]));
        assert_eq!(inverse_spectrum(2, &[1, 1, 1, 1], 4), Err(8));
        assert_eq!(inverse_spectrum(1, &[0, 0], 2), Err(8));
    }

    #[test]
    fn case_7_the_identity_of_two_bits() {
        let rows = [0, 1, 2, 3];
        assert_eq!(nonlinearity(2, 2, &rows, 2, 4), Ok([0, 1, 1, 0]));
        assert_eq!(largest_cell(2, 2, &rows, 3), Ok([4, 1, 1]));
        assert_eq!(autocorrelation(2, 2, &rows, 2, 3), Ok([4, 1, 1]));
    }

    #[test]
    fn case_8_one_column_enlarged() {
        let f = [1, 1, 0, 0, 0, 1, 0, 1];
        let wide = enlarge_column(3, &f, 1, 1, 16).unwrap();
        assert_eq!(wide[..8], f);
        assert_eq!(wide[8..], [0, 0, 1, 1, 0, 1, 0, 1]);
    }

    #[test]
    fn case_9_a_box_enlarged() {
        let wide = enlarge_box(3, &F, &[1, 0, 0, 0, 1, 1, 0, 1], 1, 16).unwrap();
        assert_eq!(wide, [11, 1, 4, 0, 10, 13, 6, 15, 9, 3, 8, 12, 5, 2, 7, 14]);
        assert_eq!(nonlinearity(4, 4, &wide, 4, 4), Ok([0, 12, 1, 1]));
        assert_eq!(bijective(4, 4, &wide, 1), Ok([1]));
        assert_eq!(dynamic_distance(4, 4, &wide, 1, 1, 3).unwrap()[0], 0);
    }

    #[test]
    fn case_10_a_bent_function() {
        let f = bent_function(4, &[0, 1, 2, 3], &[0; 4], 16).unwrap();
        assert_eq!(f, [0, 0, 0, 0, 0, 1, 0, 1, 0, 0, 1, 1, 0, 1, 1, 0]);
        let rows: Vec<u32> = f.iter().map(|&v| u32::from(v)).collect();
        assert_eq!(nonlinearity(4, 1, &rows, 1, 4).unwrap()[0], 6);
        assert!(spectrum(4, &f, 16).unwrap().iter().all(|v| v.abs() == 2));
    }

    #[test]
    fn the_bounds_document_01_names() {
        assert_eq!(nonlinearity(0, 1, &[0], 1, 4), Err(1));
        assert_eq!(nonlinearity(9, 1, &[0; 512], 1, 4), Err(1));
        assert!(enlarge_column(7, &[0; 128], 7, 0, 256).is_ok());
        assert_eq!(enlarge_column(8, &[0; 256], 7, 0, 512), Err(1));
        assert!(complete(1, 3, &[0, 7], 1).is_ok());
        assert_eq!(complete(1, 3, &[0, 8], 1), Err(4));
        assert!(enlarge_box(3, &F, &[0; 8], 3, 16).is_ok());
        assert_eq!(enlarge_box(3, &F, &[0; 8], 4, 16), Err(6));
        assert_eq!(dynamic_distance(1, 1, &[0, 1], 2, 1, 3), Err(6));
    }

    /// The bounds of document 02, section 2.
    #[test]
    fn a_box_has_at_most_32_outputs() {
        assert!(complete(1, 32, &[0, u32::MAX], 1).is_ok());
        assert_eq!(complete(1, 33, &[0, 0], 1), Err(2));
        assert!(complete(1, 31, &[0, (1 << 31) - 1], 1).is_ok());
        assert_eq!(complete(1, 31, &[0, 1 << 31], 1), Err(4));
        assert!(component_spectrum(1, 32, &[0, 1], u32::MAX, 2).is_ok());
        assert_eq!(component_spectrum(1, 32, &[0, 1], 0, 2), Err(6));
        assert_eq!(component_spectrum(1, 31, &[0, 1], 1 << 31, 2), Err(6));
        assert_eq!(add_to_column(1, 32, &[0, 1], 32, 1, 0, 2), Ok(vec![0, (1 << 31) + 1]));
        assert_eq!(add_to_column(1, 32, &[0, 1], 33, 1, 0, 2), Err(6));
    }

    /// A whole XOR row is given up to 16 outputs; above, 2 comes before 3.
    #[test]
    fn an_xor_row_has_at_most_16_outputs() {
        assert!(xor_row(1, 16, &[0, 65535], 1, 65536).is_ok());
        assert_eq!(xor_row(1, 17, &[0, 0], 1, 131072), Err(2));
        assert_eq!(xor_row(1, 32, &[0, 0, 0], 9, 7), Err(2));
        assert_eq!(xor_row(1, 16, &[0, 0, 0], 9, 7), Err(3));
        assert_eq!(xor_row(9, 17, &[0, 0], 1, 7), Err(1));
        assert_eq!(largest_cell(1, 17, &[0, 65536], 3), Ok([2, 1, 65536]));
    }

    #[test]
    fn a_limit_is_1_to_m() {
        assert_eq!([0, 1, 3, 4].map(|i| nonlinearity(3, 3, &F, i, 4).err()), [Some(6), None, None, Some(6)]);
        assert_eq!([0, 1, 3, 4].map(|i| autocorrelation(3, 3, &F, i, 3).err()), [Some(6), None, None, Some(6)]);
        assert_eq!([0, 1, 3, 4].map(|i| degree(3, 3, &F, i, 2).err()), [Some(6), None, None, Some(6)]);
    }

    /// The three columns together are affine; no one or two of them are.
    #[test]
    fn figures_within_a_limit() {
        assert_eq!(nonlinearity(3, 3, &F, 3, 4), Ok([0, 7, 7, 0]));
        assert_eq!(nonlinearity(3, 3, &F, 2, 4).unwrap()[0], 2);
        assert_eq!(degree(3, 3, &F, 3, 2), Ok([1, 7]));
        assert_eq!(degree(3, 3, &F, 2, 2), Ok([2, 1]));
        // Column 1 is x1·x2 and column 2 is x1·x2 XOR x1: each is bent, and their sum is x1.
        let rows = [0, 2, 0, 1];
        assert_eq!(autocorrelation(2, 2, &rows, 1, 3), Ok([0, 1, 1]));
        assert_eq!(autocorrelation(2, 2, &rows, 2, 3), Ok([4, 3, 1]));
        assert_eq!(dynamic_distance(2, 2, &rows, 2, 1, 3), Ok([2, 3, 1]));
    }

    /// Document 02, section 6: c = 4 is preferred to c = 3. Columns 1 and 2 are x1·x2 and
    /// x1·x2 XOR x1, so their sum is x1; column 3 is x2.
    #[test]
    fn one_output_comes_before_two() {
        let rows = [0, 2, 4, 5];
        assert_eq!(nonlinearity(2, 3, &rows, 3, 4), Ok([0, 4, 2, 0]));
        assert_eq!(autocorrelation(2, 3, &rows, 3, 3), Ok([4, 4, 1]));
        assert_eq!(dynamic_distance(2, 3, &rows, 3, 2, 3), Ok([2, 4, 1]));
        assert_eq!(degree(2, 3, &rows, 3, 2), Ok([1, 4]));
    }

    /// Of equally many outputs the smaller combination comes first: the columns are bent, and
    /// each sum of two of them is affine.
    #[test]
    fn the_smaller_of_two_pairs_of_outputs_comes_first() {
        let rows = [0, 2, 4, 1];
        assert_eq!([3, 5, 6].map(|c| degree_of_function(&combination(&rows, c))), [1, 1, 1]);
        assert_eq!(nonlinearity(2, 3, &rows, 3, 4), Ok([0, 3, 1, 0]));
        assert_eq!(autocorrelation(2, 3, &rows, 3, 3), Ok([4, 3, 1]));
        assert_eq!(dynamic_distance(2, 3, &rows, 2, 2, 3), Ok([2, 3, 1]));
        assert_eq!(degree(2, 3, &rows, 3, 2), Ok([1, 3]));
    }

    /// Where every figure is 0, the witness is the first there is.
    #[test]
    fn a_bent_box_has_the_first_witness() {
        let rows = [0, 2, 0, 1];
        assert_eq!(autocorrelation(2, 2, &rows, 1, 3), Ok([0, 1, 1]));
        assert_eq!(dynamic_distance(2, 2, &rows, 1, 2, 3), Ok([0, 1, 1]));
    }

    #[test]
    fn the_order_of_checks() {
        assert_eq!(bent_function(2, &[5, 5], &[0, 2], 4), Err(4));
        assert_eq!(bent_function(2, &[5, 0], &[0, 1], 9), Err(5));
        assert_eq!(enlarge_box(2, &[9, 9, 9, 9], &[0; 3], 1, 8), Err(3));
        assert_eq!(inverse_spectrum(1, &[0, 0], 3), Err(7));
        assert_eq!(largest_cells(1, 1, &[0, 0], 0, 2), Err(7));
        assert_eq!(largest_cells(1, 1, &[0, 0], 0, 1), Err(9));
    }

    /// The identity of two bits: each of its three combinations is one linear function, and differs
    /// from it nowhere.
    #[test]
    fn the_nearest_pairs_of_a_linear_box() {
        let pairs = vec![coded_pair(1, 1, 0), coded_pair(2, 2, 0), coded_pair(3, 3, 0)];
        assert_eq!(pairs, [514, 1028, 1542]);
        assert_eq!(nearest_pairs(2, 2, &[0, 1, 2, 3], 2, 3, 1), Ok(pairs.clone()));
        assert_eq!(nearest_pairs(2, 2, &[0, 1, 2, 3], 1, 9, 1), Ok(pairs[..2].to_vec()));
        assert_eq!(nearest_pairs(2, 2, &[0, 1, 2, 3], 2, 2, 1), Err(9));
        assert_eq!(nearest_pairs(2, 2, &[0, 1, 2, 3], 2, 2, 0), Err(7));
        assert_eq!(nearest_pairs(2, 2, &[0, 1, 2, 3], 3, 2, 0), Err(6));
    }

    /// Fewer outputs come first, and within a combination w, then b: x AND y differs at one input from
    /// 0, x, y and NOT (x XOR y), and so does the same column shifted.
    #[test]
    fn the_nearest_pairs_of_a_bent_function() {
        let of = |c: u32| [coded_pair(c, 0, 0), coded_pair(c, 1, 0), coded_pair(c, 2, 0), coded_pair(c, 3, 1)];
        assert_eq!(nearest_pairs(2, 1, &[0, 0, 0, 1], 1, 4, 1), Ok(of(1).to_vec()));
        assert_eq!(nearest_pairs(2, 3, &[0, 0, 0, 5], 1, 8, 1), Ok(vec![coded_pair(2, 0, 0)]));
        assert_eq!(nearest_pairs(2, 2, &[0, 0, 0, 3], 1, 8, 1), Ok([of(1), of(2)].concat()));
    }

    /// 1, 2, 3, 4, then 6 for the limit, then 7.
    #[test]
    fn a_limit_is_looked_at_after_the_box_and_before_the_figures() {
        assert_eq!(nonlinearity(9, 33, &[4, 4], 0, 1), Err(1));
        assert_eq!(nonlinearity(1, 33, &[4], 0, 1), Err(2));
        assert_eq!(nonlinearity(1, 2, &[4], 0, 1), Err(3));
        assert_eq!(nonlinearity(1, 2, &[0, 4], 0, 1), Err(4));
        assert_eq!(nonlinearity(1, 2, &[0, 3], 0, 1), Err(6));
        assert_eq!(nonlinearity(1, 2, &[0, 3], 1, 1), Err(7));
        assert_eq!(nonlinearity(1, 32, &[0, 3], 33, 1), Err(6));
        assert_eq!(nonlinearity(1, 32, &[0, 3], 32, 1), Err(7));
    }

    #[test]
    fn a_file_row_has_four_bytes_low_byte_first() {
        assert_eq!(file_of(1, 32, &[0x0403_0201, 255]), [1, 32, 1, 2, 3, 4, 255, 0, 0, 0]);
        let read = read_box(&[1, 32, 1, 2, 3, 4, 255, 0, 0, 0], 2, 2);
        assert_eq!(read, Ok(FileBox { n: 1, m: 32, rows: vec![0x0403_0201, 255] }));
    }

    #[test]
    fn a_box_is_written_as_its_file() {
        assert_eq!(write_box(1, 32, &[0x0403_0201, 255], 10), Ok(vec![1, 32, 1, 2, 3, 4, 255, 0, 0, 0]));
        assert_eq!(write_box(3, 3, &F, 34), Ok(file_of(3, 3, &F)));
        assert_eq!(write_box(9, 33, &[], 0), Err(1));
        assert_eq!(write_box(1, 33, &[], 0), Err(2));
        assert_eq!(write_box(1, 1, &[2], 0), Err(3));
        assert_eq!(write_box(1, 1, &[0, 2], 0), Err(4));
        assert_eq!(write_box(1, 1, &[0, 1], 9), Err(7));
    }

    #[test]
    fn the_order_of_a_files_checks() {
        assert_eq!(read_box(&[9], 2, 2), Err(10));
        assert_eq!(read_box(&[9, 0], 2, 2), Err(1));
        assert_eq!(read_box(&[8, 0], 2, 2), Err(2));
        assert_eq!(read_box(&[8, 33], 2, 2), Err(2));
        assert_eq!(read_box(&[8, 32], 2, 2), Err(10));
        assert_eq!(read_box(&[1, 1, 2, 0, 0, 0, 0, 0, 0], 2, 2), Err(10));
        assert_eq!(read_box(&[1, 1, 2, 0, 0, 0, 0, 0, 0, 0, 0], 2, 2), Err(10));
        assert_eq!(read_box(&[1, 1, 2, 0, 0, 0, 0, 0, 0, 0], 1, 2), Err(4));
        assert_eq!(read_box(&[1, 31, 0, 0, 0, 128, 0, 0, 0, 0], 1, 2), Err(4));
        assert_eq!(read_box(&[1, 1, 1, 0, 0, 0, 0, 0, 0, 0], 1, 2), Err(7));
        assert_eq!(read_box(&[1, 1, 1, 0, 0, 0, 0, 0, 0, 0], 2, 1), Err(7));
    }

    #[test]
    fn a_spectrum_holds_counts_less_half_of_the_inputs() {
        assert_eq!(spectrum(3, &[0; 8], 8), Ok(vec![4, 0, 0, 0, 0, 0, 0, 0]));
        assert_eq!(spectrum(3, &[1; 8], 8), Ok(vec![-4, 0, 0, 0, 0, 0, 0, 0]));
        assert_eq!(spectrum(3, &[0, 0, 0, 0, 0, 0, 0, 1], 8), Ok(vec![3, 1, 1, -1, 1, -1, -1, 1]));
        assert_eq!(spectrum(1, &[0, 1], 2), Ok(vec![0, 1]));
        assert_eq!(spectrum(1, &[1, 0], 2), Ok(vec![0, -1]));
    }

    #[test]
    fn twice_a_spectrum_is_no_functions_spectrum() {
        assert_eq!(inverse_spectrum(1, &[2, 0], 2), Err(8));
        assert_eq!(inverse_spectrum(2, &[2, 2, 2, -2], 4), Err(8));
        assert_eq!(inverse_spectrum(3, &[6, 2, 2, -2, 2, -2, -2, 2], 8), Err(8));
    }

    #[test]
    fn sums_beyond_32_bits_do_not_pass_for_a_spectrum() {
        assert_eq!(inverse_spectrum(1, &[1, 0], 2), Ok(vec![0, 0]));
        assert_eq!(inverse_spectrum(1, &[1 + i32::MIN, i32::MIN], 2), Err(8));
    }

    #[test]
    fn the_normal_form_goes_back_by_the_same_rule() {
        let f = [1, 0, 0, 1, 1, 1, 0, 1];
        let coefficients = normal_form(3, &f, 8).unwrap();
        assert_eq!(normal_form(3, &coefficients, 8), Ok(f.to_vec()));
        assert_eq!(normal_form(2, &[0, 0, 0, 1], 4), Ok(vec![0, 0, 0, 1]));
        assert_eq!(normal_form(2, &[1, 1, 1, 0], 4), Ok(vec![1, 0, 0, 1]));
    }

    /// A listed cell keeps all 32 bits of β, and a above them.
    #[test]
    fn cells_of_32_outputs() {
        let rows = [0, u32::MAX, 1, 0];
        assert_eq!(xor_row(2, 16, &[0, 65535, 1, 0], 3, 65536).unwrap()[65534], 2);
        assert_eq!(largest_cell(2, 32, &rows, 3), Ok([2, 1, 1]));
        let wanted = [(1, 1), (1, u32::MAX), (2, 1), (2, u32::MAX), (3, 0), (3, u32::MAX - 1)];
        let wanted: Vec<u64> = wanted.iter().map(|&(a, beta)| (a << 32) + u64::from(beta)).collect();
        assert_eq!(largest_cells(2, 32, &rows, 6, 1), Ok(wanted));
        assert_eq!(largest_cells(2, 32, &rows, 5, 1), Err(9));
    }

    /// The list runs by ascending a, then by ascending β, whichever input gives a β first: under
    /// a = 1 the inputs 0 and 1 give 9, and 2 and 3 give 5.
    #[test]
    fn cells_in_order() {
        let rows = [0, 9, 3, 6];
        let wanted = [(1, 5), (1, 9), (2, 3), (2, 15), (3, 6), (3, 10)];
        let wanted: Vec<u64> = wanted.iter().map(|&(a, beta)| (a << 32) + beta).collect();
        assert_eq!(largest_cells(2, 4, &rows, 6, 1), Ok(wanted));
    }

    /// Each column of the example has degree 2; the three of them together are affine.
    #[test]
    fn the_degree_is_that_of_the_weakest_combination() {
        assert_eq!([1, 2, 4].map(|c| degree_of_function(&combination(&F, c))), [2, 2, 2]);
        assert_eq!(degree(3, 3, &F, 3, 2), Ok([1, 7]));
    }

    /// Two columns that are equal, or that differ everywhere, are together constant.
    #[test]
    fn a_constant_combination_has_degree_0() {
        assert_eq!(degree(2, 2, &[0, 0, 0, 3], 2, 2), Ok([0, 3]));
        assert_eq!(degree(2, 2, &[2, 2, 2, 1], 2, 2), Ok([0, 3]));
        // Column 3 is constant by itself and comes before columns 1 and 2 together.
        assert_eq!(degree(2, 3, &[4, 4, 4, 7], 3, 2), Ok([0, 4]));
    }

    /// Columns made of x1·x2, x1, 1 and, in the last box, of x3 too.
    #[test]
    fn the_first_weakest_combination_of_small_boxes() {
        assert_eq!(degree(2, 1, &[0, 0, 0, 1], 1, 2), Ok([2, 1]));
        assert_eq!(degree(2, 2, &[0, 2, 0, 3], 2, 2), Ok([1, 2]));
        assert_eq!(degree(2, 3, &[4, 6, 4, 7], 3, 2), Ok([0, 4]));
        assert_eq!(degree(2, 3, &[0, 2, 0, 7], 3, 2), Ok([0, 5]));
        assert_eq!(degree(3, 2, &[0, 0, 0, 1, 0, 0, 0, 2], 2, 2), Ok([2, 3]));
    }

    #[test]
    fn the_degree_looks_at_its_array_last() {
        assert_eq!(degree(3, 3, &F, 3, 1), Err(7));
        assert_eq!(degree(3, 3, &F, 3, 3), Err(7));
        assert_eq!(degree(3, 2, &F, 2, 1), Err(4));
    }
}
