//! The same figures as `model`, quickly: for wide boxes and for the benchmark.
//!
//! The boxes and limits given here have been checked. Buffers lie on the stack and are used
//! again for many combinations. No combination outside the limit is visited, and each one's
//! truth table is made by adding a single column to that of another one.
use crate::combinations::before;
use std::ops::{Add, Sub};

/// The most inputs a box can have, as a number of rows.
const ROWS: usize = 256;

/// In-place Walsh transform: `values` holds plus and minus ones and then each W(w), their
/// sum with the signs of w·x.
pub fn walsh<T>(values: &mut [T])
where
    T: Copy + Add<Output = T> + Sub<Output = T>,
{
    let mut half = 1;
    // The first three steps on eight values at a time stay within registers.
    if values.len() >= 8 {
        for eight in values.chunks_exact_mut(8) {
            walsh_of_eight(eight.try_into().expect("a chunk of eight"));
        }
        half = 8;
    }
    while half < values.len() {
        for block in values.chunks_exact_mut(2 * half) {
            let (low, high) = block.split_at_mut(half);
            for (u, v) in low.iter_mut().zip(high) {
                (*u, *v) = (*u + *v, *u - *v);
            }
        }
        half *= 2;
    }
}

fn walsh_of_eight<T>(v: &mut [T; 8])
where
    T: Copy + Add<Output = T> + Sub<Output = T>,
{
    for i in 0..4 {
        (v[i], v[i + 4]) = (v[i] + v[i + 4], v[i] - v[i + 4]);
    }
    for i in [0, 1, 4, 5] {
        (v[i], v[i + 2]) = (v[i] + v[i + 2], v[i] - v[i + 2]);
    }
    for i in [0, 2, 4, 6] {
        (v[i], v[i + 1]) = (v[i] + v[i + 1], v[i] - v[i + 1]);
    }
}

/// A truth table; only as much of it is used as the box has rows.
type Table = [u8; ROWS];

fn columns_of(m: u32, rows: &[u32]) -> Vec<Table> {
    let mut columns = vec![[0; ROWS]; m as usize];
    for (j, column) in columns.iter_mut().enumerate() {
        for (bit, row) in column.iter_mut().zip(rows) {
            *bit = (row >> j) as u8 & 1;
        }
    }
    columns
}

/// Calls `visit` with every combination of at most i outputs and its truth table, in
/// ascending order. Among equal figures the order that counts is another one (`before`), so
/// whoever keeps the best looks at both combinations where two figures are equal.
fn visit_combinations(m: u32, rows: &[u32], i: u32, mut visit: impl FnMut(u32, &[u8])) {
    let nothing = [0; ROWS];
    add_outputs(&columns_of(m, rows), 0, &nothing[..rows.len()], i, &mut visit);
}

/// Goes on from combination c, whose truth table is given: adds one more output, visits what
/// comes out, and goes on from there until `left` outputs are added. The outputs that may be
/// added, whose columns are given, lie below all that c has. So each combination is reached
/// once, from its highest output downwards, and with a higher output added all comes after
/// what comes with a lower one.
fn add_outputs(columns: &[Table], c: u32, table: &[u8], left: u32, visit: &mut impl FnMut(u32, &[u8])) {
    let mut buffer = [0; ROWS];
    let sum = &mut buffer[..table.len()];
    for (j, column) in columns.iter().enumerate() {
        for ((bit, before), change) in sum.iter_mut().zip(table).zip(column) {
            *bit = before ^ change;
        }
        let with_j = c | 1 << j;
        visit(with_j, sum);
        if j > 0 && left > 1 {
            add_outputs(&columns[..j], with_j, sum, left - 1, visit);
        }
    }
}

fn signs_32(table: &[u8], signs: &mut [i32]) {
    for (sign, &bit) in signs.iter_mut().zip(table) {
        *sign = 1 - 2 * i32::from(bit);
    }
}

fn signs_16(table: &[u8], signs: &mut [i16]) {
    for (sign, &bit) in signs.iter_mut().zip(table) {
        *sign = 1 - 2 * i16::from(bit);
    }
}

/// Keeps the largest figure, and among equals the combination that comes before the others.
struct Best {
    figure: i32,
    c: u32,
}

impl Best {
    fn none() -> Best {
        Best { figure: -1, c: 0 }
    }

    fn offer(&mut self, figure: i32, c: u32) {
        if figure > self.figure || (figure == self.figure && before(c, self.c)) {
            *self = Best { figure, c };
        }
    }
}

/// Figures: d, c, w, b.
pub fn nonlinearity(n: u32, m: u32, rows: &[u32], i: u32) -> [u32; 4] {
    let mut buffer = [0i32; ROWS];
    let values = &mut buffer[..1 << n];
    let mut best = Best::none();
    visit_combinations(m, rows, i, |c, table| {
        signs_32(table, values);
        walsh(values);
        let largest = values.iter().fold(0, |most, value| most.max(value.abs()));
        best.offer(largest, c);
    });
    nonlinearity_witness(n, rows, &best)
}

/// As `nonlinearity`, with values of 16 bits, which are wide enough for n up to 8 and of
/// which twice as many go through each instruction. Only the benchmark asks for it.
pub fn nonlinearity_16(n: u32, m: u32, rows: &[u32], i: u32) -> [u32; 4] {
    let mut buffer = [0i16; ROWS];
    let values = &mut buffer[..1 << n];
    let mut best = Best::none();
    visit_combinations(m, rows, i, |c, table| {
        signs_16(table, values);
        walsh(values);
        let largest = values.iter().fold(0, |most, value| most.max(value.abs()));
        best.offer(i32::from(largest), c);
    });
    nonlinearity_witness(n, rows, &best)
}

/// The first (w, b) at which the combination that was found reaches its figure.
fn nonlinearity_witness(n: u32, rows: &[u32], best: &Best) -> [u32; 4] {
    let values = walsh_values(rows, best.c);
    let w = values.iter().position(|v| v.abs() == best.figure).expect("it was reached");
    let distance = ((1 << n) - best.figure) as u32 / 2;
    [distance, best.c, w as u32, u32::from(values[w] < 0)]
}

/// The truth table of one combination. Shifts fold the ones of (row AND c) onto bit 1; they
/// are quicker here than counting ones, since many rows go through each instruction.
fn combination(rows: &[u32], c: u32, table: &mut [u8]) {
    for (bit, row) in table.iter_mut().zip(rows) {
        let mut ones = row & c;
        ones ^= ones >> 16;
        ones ^= ones >> 8;
        ones ^= ones >> 4;
        ones ^= ones >> 2;
        ones ^= ones >> 1;
        *bit = ones as u8 & 1;
    }
}

/// W(w) of combination c for each w: twice its spectrum.
pub fn walsh_values(rows: &[u32], c: u32) -> Vec<i32> {
    let mut table = vec![0; rows.len()];
    let mut values = vec![0; rows.len()];
    combination(rows, c, &mut table);
    signs_32(&table, &mut values);
    walsh(&mut values);
    values
}

/// All r(s) by the rule of Wiener and Khinchin: the transform of the squares of W(w) is
/// 2^n times the autocorrelation. Sums stay within 2^(2n), so 32 bits hold them.
fn correlations(n: u32, table: &[u8], values: &mut [i32]) {
    signs_32(table, values);
    walsh(values);
    for value in values.iter_mut() {
        *value *= *value;
    }
    walsh(values);
    for value in values.iter_mut() {
        *value >>= n;
    }
}

/// Figures: figure, c, s.
pub fn autocorrelation(n: u32, m: u32, rows: &[u32], i: u32) -> [u32; 3] {
    let mut buffer = [0i32; ROWS];
    let values = &mut buffer[..1 << n];
    let mut best = Best::none();
    visit_combinations(m, rows, i, |c, table| {
        correlations(n, table, values);
        let largest = values[1..].iter().fold(0, |most, value| most.max(value.abs()));
        best.offer(largest, c);
    });
    let s = correlation_witness(n, rows, &best, 1..1 << n);
    [best.figure as u32, best.c, s]
}

/// The first of the given changes at which the combination that was found reaches its figure.
fn correlation_witness(n: u32, rows: &[u32], best: &Best, changes: impl IntoIterator<Item = u32>) -> u32 {
    let (mut table, mut values) = ([0; ROWS], [0; ROWS]);
    let (table, values) = (&mut table[..1 << n], &mut values[..1 << n]);
    combination(rows, best.c, table);
    correlations(n, table, values);
    let reached = |s: &u32| values[*s as usize].abs() == best.figure;
    changes.into_iter().find(reached).expect("it was reached")
}

/// Figures: the doubled figure, c, d. An input changes the sum r(d) by -1 where f changes and
/// by +1 where not, so |2^(n-1) - changes| is half of |r(d)|.
pub fn dynamic_distance(n: u32, m: u32, rows: &[u32], i: u32, j: u32) -> [u32; 3] {
    let mut buffer = [0; ROWS];
    let values = &mut buffer[..1 << n];
    let changes: Vec<u32> = (1..1u32 << n).filter(|d| d.count_ones() <= j).collect();
    let mut best = Best::none();
    visit_combinations(m, rows, i, |c, table| {
        correlations(n, table, values);
        let largest = changes.iter().fold(0, |most, &d| most.max(values[d as usize].abs()));
        best.offer(largest, c);
    });
    let d = correlation_witness(n, rows, &best, changes);
    [best.figure as u32 / 2, best.c, d]
}

/// The normal forms of all columns at once: XOR does not mix the bits of a row.
fn normal_forms(values: &mut [u32]) {
    let mut half = 1;
    while half < values.len() {
        for block in values.chunks_exact_mut(2 * half) {
            let (low, high) = block.split_at_mut(half);
            for (u, v) in low.iter().zip(high) {
                *v ^= u;
            }
        }
        half *= 2;
    }
}

/// Figures: degree, c. The coefficients of a combination are the combination of the
/// coefficients, so the combinations are visited in the box of the normal forms. What is
/// kept is the largest difference from n, which is the least degree.
pub fn degree(n: u32, m: u32, rows: &[u32], i: u32) -> [u32; 2] {
    let mut buffer = [0; ROWS];
    let coefficients = &mut buffer[..rows.len()];
    coefficients.copy_from_slice(rows);
    normal_forms(coefficients);
    let mut ones = [0u8; ROWS];
    for (u, count) in ones.iter_mut().enumerate() {
        *count = u.count_ones() as u8;
    }
    let mut best = Best::none();
    visit_combinations(m, coefficients, i, |c, form| {
        let present = form.iter().zip(&ones).map(|(&coefficient, &count)| count & coefficient.wrapping_neg());
        let degree = present.fold(0, u8::max);
        best.offer(n as i32 - i32::from(degree), c);
    });
    [(n as i32 - best.figure) as u32, best.c]
}

// ---------------------------------------------------------------------------
// The same figures within every limit from 1 to `most`, in one go over the combinations.
// ---------------------------------------------------------------------------

/// The best within each limit: the best of all combinations with as many outputs, one number of
/// outputs after the other, of which a later one must be better.
fn bests_within(m: u32, rows: &[u32], most: u32, mut figure: impl FnMut(&[u8]) -> i32) -> Vec<Best> {
    let mut of_outputs: Vec<Best> = (0..=most).map(|_| Best::none()).collect();
    visit_combinations(m, rows, most, |c, table| of_outputs[c.count_ones() as usize].offer(figure(table), c));
    let mut now = Best::none();
    let mut within = Vec::new();
    for best in &of_outputs[1..] {
        now.offer(best.figure, best.c);
        within.push(Best { ..now });
    }
    within
}

/// Figures within each limit: d, c, w, b.
pub fn nonlinearities(n: u32, m: u32, rows: &[u32], most: u32) -> Vec<[u32; 4]> {
    let mut buffer = [0i32; ROWS];
    let values = &mut buffer[..1 << n];
    let bests = bests_within(m, rows, most, |table| {
        signs_32(table, values);
        walsh(values);
        values.iter().fold(0, |most, value| most.max(value.abs()))
    });
    bests.iter().map(|best| nonlinearity_witness(n, rows, best)).collect()
}

/// Figures within each limit: figure, c, s.
pub fn autocorrelations(n: u32, m: u32, rows: &[u32], most: u32) -> Vec<[u32; 3]> {
    let mut buffer = [0i32; ROWS];
    let values = &mut buffer[..1 << n];
    let bests = bests_within(m, rows, most, |table| {
        correlations(n, table, values);
        values[1..].iter().fold(0, |most, value| most.max(value.abs()))
    });
    bests.iter().map(|best| [best.figure as u32, best.c, correlation_witness(n, rows, best, 1..1 << n)]).collect()
}

/// Figures of order (i, j) for each i: the doubled figure, c, d.
pub fn dynamic_distances(n: u32, m: u32, rows: &[u32], most: u32, j: u32) -> Vec<[u32; 3]> {
    let mut buffer = [0i32; ROWS];
    let values = &mut buffer[..1 << n];
    let changes: Vec<u32> = (1..1u32 << n).filter(|d| d.count_ones() <= j).collect();
    let bests = bests_within(m, rows, most, |table| {
        correlations(n, table, values);
        changes.iter().fold(0, |most, &d| most.max(values[d as usize].abs()))
    });
    let figures = |best: &Best| [best.figure as u32 / 2, best.c, correlation_witness(n, rows, best, changes.iter().copied())];
    bests.iter().map(figures).collect()
}

// ---------------------------------------------------------------------------
// The same figures over some combinations, and nothing where there are none.
// ---------------------------------------------------------------------------

fn best_over(rows: &[u32], combinations: &[u32], mut figure: impl FnMut(&[u8]) -> i32) -> Option<Best> {
    let mut buffer = [0; ROWS];
    let table = &mut buffer[..rows.len()];
    let mut best = Best::none();
    for &c in combinations {
        combination(rows, c, table);
        best.offer(figure(table), c);
    }
    (!combinations.is_empty()).then_some(best)
}

/// Figures: d, c, w, b.
pub fn nonlinearity_over(n: u32, rows: &[u32], combinations: &[u32]) -> Option<[u32; 4]> {
    let mut buffer = [0i16; ROWS];
    let values = &mut buffer[..1 << n];
    let best = best_over(rows, combinations, |table| {
        signs_16(table, values);
        walsh(values);
        i32::from(values.iter().fold(0, |most, value| most.max(value.abs())))
    });
    best.map(|best| nonlinearity_witness(n, rows, &best))
}

/// The largest |r(s)| of the given changes, and the first witness: figure, c, s.
fn correlation_over(n: u32, rows: &[u32], combinations: &[u32], changes: &[u32]) -> Option<[u32; 3]> {
    let mut buffer = [0i32; ROWS];
    let values = &mut buffer[..1 << n];
    let best = best_over(rows, combinations, |table| {
        correlations(n, table, values);
        changes.iter().fold(0, |most, &s| most.max(values[s as usize].abs()))
    });
    best.map(|best| [best.figure as u32, best.c, correlation_witness(n, rows, &best, changes.iter().copied())])
}

/// Figures: figure, c, s.
pub fn autocorrelation_over(n: u32, rows: &[u32], combinations: &[u32]) -> Option<[u32; 3]> {
    correlation_over(n, rows, combinations, &(1..1 << n).collect::<Vec<u32>>())
}

/// Figures: the doubled figure, c, d.
pub fn dynamic_distance_over(n: u32, rows: &[u32], combinations: &[u32], j: u32) -> Option<[u32; 3]> {
    let changes: Vec<u32> = (1..1u32 << n).filter(|d| d.count_ones() <= j).collect();
    correlation_over(n, rows, combinations, &changes).map(|[figure, c, d]| [figure / 2, c, d])
}

pub fn complete(n: u32, m: u32, rows: &[u32]) -> bool {
    let all_columns = u32::MAX >> (32 - m);
    (0..n).all(|k| {
        let changed = |sum, x: usize| sum | (rows[x] ^ rows[x ^ (1 << k)]);
        (0..rows.len()).fold(0, changed) == all_columns
    })
}

pub fn bijective(n: u32, m: u32, rows: &[u32]) -> bool {
    let mut seen = [false; ROWS];
    n == m && rows.iter().all(|&row| !std::mem::replace(&mut seen[row as usize], true))
}

#[cfg(test)]
mod tests {
    use super::*;
    use crate::boxes::{self, KINDS};
    use crate::combinations::{how_many, quick_limit, within};
    use crate::counted;
    use crate::model;
    use crate::random::Random;

    /// Against what is counted, which the tests of `counted` hold to the definitions.
    fn agrees(n: u32, m: u32, rows: &[u32], i: u32, random: &mut Random) {
        let shown = format!("n = {n}, m = {m}, i = {i}, rows = {rows:?}");
        assert_eq!(Some(&nonlinearity(n, m, rows, i)), counted::nonlinearities(n, m, rows, i).last(), "{shown}");
        assert_eq!(nonlinearity_16(n, m, rows, i), nonlinearity(n, m, rows, i), "{shown}");
        assert_eq!(Some(&autocorrelation(n, m, rows, i)), counted::autocorrelations(n, m, rows, i).last(), "{shown}");
        assert_eq!(Some(&degree(n, m, rows, i)), counted::degrees(n, m, rows, i).last(), "{shown}");
        let j = random.between(1, n);
        let distances = counted::dynamic_distances(n, m, rows, i, j);
        assert_eq!(Some(&dynamic_distance(n, m, rows, i, j)), distances.last(), "j = {j}, {shown}");
    }

    fn cheap_figures_agree(n: u32, m: u32, rows: &[u32], c: u32) {
        let shown = format!("n = {n}, m = {m}, rows = {rows:?}");
        assert_eq!(complete(n, m, rows), model::complete_by_definition(n, m, rows), "{shown}");
        assert_eq!(bijective(n, m, rows), model::bijective_by_definition(n, m, rows), "{shown}");
        let spectrum = model::component_spectrum(n, m, rows, c, rows.len()).expect("nothing to refuse");
        let twice: Vec<i32> = spectrum.iter().map(|value| 2 * value).collect();
        assert_eq!(walsh_values(rows, c), twice, "c = {c}, {shown}");
    }

    #[test]
    fn combinations_within_the_limit_are_visited_in_ascending_order() {
        let mut random = Random::new(10);
        for m in 1..=32 {
            let rows = boxes::random_rows(3, m, &mut random);
            for i in [1, 2, 3, 4, m].into_iter().filter(|&i| i <= quick_limit(3, m)) {
                let mut visited = Vec::new();
                visit_combinations(m, &rows, i, |c, table| {
                    assert_eq!(table, model::combination(&rows, c), "m = {m}, c = {c}");
                    visited.push(c);
                });
                assert!(visited.is_sorted_by(|c, next| c < next), "m = {m}, i = {i}");
                visited.sort_by_key(|c| c.count_ones());
                assert_eq!(visited, within(m, i), "m = {m}, i = {i}");
            }
        }
    }

    /// A limit at random among those that take no long time.
    fn short_limit(n: u32, m: u32, random: &mut Random) -> u32 {
        let most = (1..=m).rev().find(|&i| how_many(m, i) << (2 * n) <= 1 << 21).unwrap_or(1);
        random.between(1, most)
    }

    #[test]
    fn agrees_with_what_is_counted_at_every_width() {
        let mut random = Random::new(11);
        for (n, m) in (1..=8).flat_map(|n| (1..=32).map(move |m| (n, m))) {
            for kind in 0..3 {
                let rows = boxes::of_kind(kind + 3 * m, n, m, &mut random);
                let i = short_limit(n, m, &mut random);
                agrees(n, m, &rows, i, &mut random);
                cheap_figures_agree(n, m, &rows, random.between(1, model::all_outputs(m)));
            }
        }
    }

    /// Many outputs together, and the widest boxes there are.
    #[test]
    fn agrees_with_what_is_counted_at_high_limits() {
        let mut random = Random::new(13);
        let widths = [(2, 20, 20), (4, 16, 16), (4, 32, 4), (5, 14, 14), (6, 12, 12), (7, 16, 16), (8, 16, 16), (8, 32, 4), (6, 32, 5)];
        for (n, m, i) in widths {
            let rows = boxes::random_rows(n, m, &mut random);
            agrees(n, m, &rows, i, &mut random);
        }
    }

    #[test]
    fn agrees_with_what_is_counted_on_boxes_of_every_kind() {
        let mut random = Random::new(12);
        for (n, m) in (1..=5).flat_map(|n| (1..=8).map(move |m| (n, m))) {
            for kind in 0..KINDS {
                let rows = boxes::of_kind(kind, n, m, &mut random);
                agrees(n, m, &rows, m, &mut random);
                agrees(n, m, &rows, random.between(1, m), &mut random);
            }
        }
    }

    #[test]
    fn cheap_figures_agree_at_the_widest() {
        let mut random = Random::new(12);
        for kind in 0..KINDS {
            let rows = boxes::of_kind(kind, 8, 32, &mut random);
            cheap_figures_agree(8, 32, &rows, random.draw() as u32 | 1);
        }
    }

    /// Beyond the definitions' reach, the combination that is named is looked at by itself,
    /// and others at random.
    fn no_combination_is_weaker(m: u32, i: u32, random: &mut Random) {
        for kind in 0..KINDS {
            let rows = boxes::of_kind(kind, 8, m, random);
            let of = |c| model::degree_of_function(&model::combination(&rows, c));
            let [least, first] = degree(8, m, &rows, i);
            assert_eq!(of(first), least, "{rows:?}");
            let all = within(m, i);
            for _ in 0..40 {
                let c = random.pick(&all);
                assert!(of(c) > least || (of(c) == least && !before(c, first)), "c = {c}, {rows:?}");
            }
        }
    }

    #[test]
    fn no_combination_is_weaker_at_the_widest() {
        let mut random = Random::new(14);
        no_combination_is_weaker(16, 16, &mut random);
        no_combination_is_weaker(32, 4, &mut random);
    }

    /// Two criteria that must agree: a combination of degree 1 or 0 is an affine function.
    #[test]
    fn the_degree_is_at_most_1_exactly_when_the_nonlinearity_is_0() {
        let mut random = Random::new(15);
        for (n, m) in (1..=8).flat_map(|n| [1, 2, 4, 8, 19, 32].map(|m| (n, m))) {
            for kind in 0..KINDS {
                let rows = boxes::of_kind(kind, n, m, &mut random);
                let i = random.between(1, m.min(3));
                let [weakest, _] = degree(n, m, &rows, i);
                let [nearest, ..] = nonlinearity(n, m, &rows, i);
                assert_eq!(weakest <= 1, nearest == 0, "n = {n}, m = {m}, i = {i}, rows = {rows:?}");
            }
        }
    }

    /// Each limit, at widths where one way or the other is used.
    #[test]
    fn the_figures_within_each_limit_are_those_of_the_limits() {
        let mut random = Random::new(17);
        for (n, m, most) in [(1, 1, 1), (2, 5, 5), (3, 17, 6), (5, 9, 9), (6, 20, 3), (8, 8, 8), (8, 20, 3)] {
            for kind in [0, 4, 6, 10] {
                let rows = boxes::of_kind(kind, n, m, &mut random);
                let j = random.between(1, n);
                let pairs: Vec<_> = (1..=most).map(|i| nonlinearity(n, m, &rows, i)).collect();
                assert_eq!(nonlinearities(n, m, &rows, most), pairs, "{n} by {m}, {rows:?}");
                let largest: Vec<_> = (1..=most).map(|i| autocorrelation(n, m, &rows, i)).collect();
                assert_eq!(autocorrelations(n, m, &rows, most), largest, "{n} by {m}, {rows:?}");
                let distances: Vec<_> = (1..=most).map(|i| dynamic_distance(n, m, &rows, i, j)).collect();
                assert_eq!(dynamic_distances(n, m, &rows, most, j), distances, "{n} by {m}, j = {j}, {rows:?}");
            }
        }
    }

    /// With a higher limit more combinations are looked at, and the worst of more is no better.
    #[test]
    fn a_higher_limit_never_gives_a_better_figure() {
        let mut random = Random::new(16);
        for kind in 0..KINDS {
            let rows = boxes::of_kind(kind, 5, 32, &mut random);
            for i in 1..4 {
                let shown = format!("i = {i}, rows = {rows:?}");
                assert!(nonlinearity(5, 32, &rows, i + 1)[0] <= nonlinearity(5, 32, &rows, i)[0], "{shown}");
                assert!(autocorrelation(5, 32, &rows, i + 1)[0] >= autocorrelation(5, 32, &rows, i)[0], "{shown}");
                assert!(degree(5, 32, &rows, i + 1)[0] <= degree(5, 32, &rows, i)[0], "{shown}");
            }
        }
    }
}
