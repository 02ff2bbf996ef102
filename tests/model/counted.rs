//! The definitions once more, for wide boxes: nothing is transformed, every input is counted.
//!
//! A truth table is packed into words of 64 values, and the inputs at which two functions differ
//! are the ones in the XOR of their words. This is another way than `fast`'s, and about four
//! times as slow; `model` takes its figures from here where counting value by value takes long.
//! Each function gives the figures within every limit from 1 to `most` at once, since those
//! within i are met on the way to those within i + 1.

use crate::model::coded_pair;
use std::cell::Cell;

/// The values of a truth table, 64 to a word, the lowest bit first. With fewer than 64 values the
/// rest of the one word is 0.
type Words<const W: usize> = [u64; W];

/// The most inputs that are changed at once, as a number of changes.
const CHANGES: usize = 256;

fn packed<const W: usize>(n: u32, value: impl Fn(u32) -> bool) -> Words<W> {
    let mut words = [0; W];
    for x in (0..1 << n).filter(|&x| value(x)) {
        words[x as usize / 64] |= 1 << (x % 64);
    }
    words
}

fn is_odd(number: u32) -> bool {
    number.count_ones() % 2 == 1
}

fn ones<const W: usize>(words: &Words<W>) -> u32 {
    words.iter().map(|word| word.count_ones()).sum()
}

fn xor<const W: usize>(f: &Words<W>, g: &Words<W>) -> Words<W> {
    std::array::from_fn(|k| f[k] ^ g[k])
}

fn and<const W: usize>(f: &Words<W>, g: &Words<W>) -> Words<W> {
    std::array::from_fn(|k| f[k] & g[k])
}

fn columns<const W: usize>(n: u32, m: u32, rows: &[u32]) -> Vec<Words<W>> {
    (0..m).map(|j| packed(n, |x| rows[x as usize] >> j & 1 == 1)).collect()
}

/// Calls `visit` with every combination of at most `most` outputs and its values: fewer outputs
/// first, then the smaller. `at_limit` is called after all with 1 output, with 2, and so on.
fn visit_all<const W: usize>(columns: &[Words<W>], most: u32, mut visit: impl FnMut(u32, &Words<W>), mut at_limit: impl FnMut()) {
    for outputs in 1..=most {
        let mut c: u64 = (1 << outputs) - 1;
        while c < 1 << columns.len() {
            let mut values = [0; W];
            let mut rest = c;
            while rest != 0 {
                values = xor(&values, &columns[rest.trailing_zeros() as usize]);
                rest &= rest - 1;
            }
            visit(c as u32, &values);
            c = next_with_as_many_ones(c);
        }
        at_limit();
    }
}

/// The lowest run of ones loses its highest one to the place above; the others move down.
fn next_with_as_many_ones(c: u64) -> u64 {
    let lowest = c & c.wrapping_neg();
    let raised = c + lowest;
    raised | ((c ^ raised) / lowest) >> 2
}

/// The best combination within each limit, and what `look` finds of it. Of two combinations with
/// equally good finds the first one stays. There are few functions of up to four inputs, and each
/// of those is looked at once.
fn best_within<const W: usize, F: Copy>(
    (n, m, rows): (u32, u32, &[u32]),
    most: u32,
    look: impl Fn(&Words<W>) -> F,
    is_better: impl Fn(&F, &F) -> bool,
) -> Vec<(u32, F)> {
    let mut known: Vec<Option<F>> = vec![None; if n <= 4 { 1 << (1 << n) } else { 0 }];
    let best = Cell::new(None);
    let mut within = Vec::new();
    let visit = |c: u32, f: &Words<W>| {
        let found = match known.get_mut(f[0] as usize) {
            Some(before) => *before.get_or_insert_with(|| look(f)),
            None => look(f),
        };
        if best.get().is_none_or(|(_, other)| is_better(&found, &other)) {
            best.set(Some((c, found)));
        }
    };
    visit_all(&columns(n, m, rows), most, visit, || within.push(best.get().expect("a combination was looked at")));
    within
}

/// The same over combinations that come in their order; nothing where there are none.
fn best_over<const W: usize, F>(
    (n, m, rows): (u32, u32, &[u32]),
    combinations: &[u32],
    look: impl Fn(&Words<W>) -> F,
    is_better: impl Fn(&F, &F) -> bool,
) -> Option<(u32, F)> {
    let columns = columns(n, m, rows);
    let mut best: Option<(u32, F)> = None;
    for &c in combinations {
        let outputs = (0..m as usize).filter(|j| c >> j & 1 == 1);
        let found = look(&outputs.fold([0; W], |sum, j| xor(&sum, &columns[j])));
        if best.as_ref().is_none_or(|(_, other)| is_better(&found, other)) {
            best = Some((c, found));
        }
    }
    best
}

/// All lines w·x.
fn lines<const W: usize>(n: u32) -> Vec<Words<W>> {
    (0..1 << n).map(|w| packed(n, |x| is_odd(w & x))).collect()
}

/// The nearest affine function: at how few inputs it differs, w, b.
fn nearest<const W: usize>(n: u32) -> impl Fn(&Words<W>) -> [u32; 3] {
    let (size, lines) = (1 << n, lines::<W>(n));
    move |f| {
        let mut least = [u32::MAX, 0, 0];
        for (w, line) in (0..).zip(&lines) {
            // With b = 1 they differ at all the other inputs.
            let differing = ones(&xor(f, line));
            let count = differing.min(size - differing);
            if count < least[0] {
                least = [count, w, u32::from(count < differing)];
            }
        }
        least
    }
}

/// Figures: d, c, w, b.
fn nonlinearities_of<const W: usize>(n: u32, m: u32, rows: &[u32], most: u32) -> Vec<[u32; 4]> {
    let bests = best_within((n, m, rows), most, nearest::<W>(n), |one, other| one[0] < other[0]);
    bests.into_iter().map(|(c, [d, w, b])| [d, c, w, b]).collect()
}

fn nonlinearity_over_of<const W: usize>(n: u32, m: u32, rows: &[u32], combinations: &[u32]) -> Option<[u32; 4]> {
    let best = best_over((n, m, rows), combinations, nearest::<W>(n), |one, other| one[0] < other[0]);
    best.map(|(c, [d, w, b])| [d, c, w, b])
}

/// All pairs that differ at the fewest inputs, in their order.
fn nearest_pairs_of<const W: usize>(n: u32, m: u32, rows: &[u32], i: u32) -> Vec<u64> {
    let (size, lines) = (1 << n, lines::<W>(n));
    let (mut least, mut pairs) = (u32::MAX, Vec::new());
    let visit = |c: u32, f: &Words<W>| {
        for (w, line) in (0..).zip(&lines) {
            let differing = ones(&xor(f, line));
            // With b = 1 they differ at all the other inputs.
            for (b, count) in (0..).zip([differing, size - differing]) {
                if count < least {
                    least = count;
                    pairs.clear();
                }
                if count == least {
                    pairs.push(coded_pair(c, w, b));
                }
            }
        }
    };
    visit_all(&columns(n, m, rows), i, visit, || ());
    pairs
}

/// A box whose rows are swapped, with all lines: for pairs of a combination and an affine function
/// that are counted one by one.
pub struct Pairs {
    n: u32,
    columns: Vec<Words<4>>,
    lines: Vec<Words<4>>,
}

/// A combination and the mask of an affine function, whose constant may be either.
pub type Pair = (u32, u32);

impl Pairs {
    pub fn new(n: u32, m: u32, rows: &[u32]) -> Pairs {
        Pairs { n, columns: columns(n, m, rows), lines: lines(n) }
    }

    /// Exchanges the rows of two inputs: in each column that has unlike bits there both change.
    pub fn swap(&mut self, low: usize, high: usize) {
        for column in &mut self.columns {
            let bit = |x: usize| column[x / 64] >> (x % 64) & 1;
            if bit(low) != bit(high) {
                column[low / 64] ^= 1 << (low % 64);
                column[high / 64] ^= 1 << (high % 64);
            }
        }
    }

    fn combination(&self, c: u32) -> Words<4> {
        let chosen = (0..).zip(&self.columns).filter(|(j, _)| c >> j & 1 == 1);
        chosen.fold([0; 4], |sum, (_, column)| xor(&sum, column))
    }

    /// At how few inputs they differ, with the better of the two constants.
    fn count(&self, f: &Words<4>, w: u32) -> u32 {
        let differing = ones(&xor(f, &self.lines[w as usize]));
        differing.min((1 << self.n) - differing)
    }

    /// Some pair that differs at no more than `most` inputs. The pair that is guessed comes first.
    pub fn within(&self, most: u32, guess: Pair) -> Option<Pair> {
        if self.count(&self.combination(guess.0), guess.1) <= most {
            return Some(guess);
        }
        (1..1 << self.columns.len()).find_map(|c| {
            let f = self.combination(c);
            (0..1 << self.n).find(|&w| self.count(&f, w) <= most).map(|w| (c, w))
        })
    }
}

/// The values with every pair of inputs x and x XOR 2^k exchanged, k below 6.
fn flipped_within_words<const W: usize>(words: &Words<W>, k: u32) -> Words<W> {
    const LOWER: [u64; 6] = [
        0x5555_5555_5555_5555,
        0x3333_3333_3333_3333,
        0x0F0F_0F0F_0F0F_0F0F,
        0x00FF_00FF_00FF_00FF,
        0x0000_FFFF_0000_FFFF,
        0x0000_0000_FFFF_FFFF,
    ];
    words.map(|word| (word >> (1 << k)) & LOWER[k as usize] | (word & LOWER[k as usize]) << (1 << k))
}

/// At how many inputs f changes under each s.
fn changes<const W: usize>(n: u32, f: &Words<W>) -> [u32; CHANGES] {
    let mut counts = [0; CHANGES];
    let mut flipped = [[0; W]; 64];
    flipped[0] = *f;
    let within = 1usize << n.min(6);
    for s in 1..within {
        let top = s.ilog2();
        flipped[s] = flipped_within_words(&flipped[s ^ (1 << top)], top);
    }
    for s in 1..1usize << n {
        let other: Words<W> = std::array::from_fn(|k| flipped[s % within][k ^ (s / within)]);
        counts[s] = ones(&xor(f, &other));
    }
    counts
}

/// The largest figure of the changes that are tried, and the first that has it: figure, s.
fn largest<'a, const W: usize>(n: u32, of_changes: impl Fn(u32) -> u32 + 'a, tried: &'a [u32]) -> impl Fn(&Words<W>) -> [u32; 2] + 'a {
    move |f| {
        let counts = changes(n, f);
        let mut best = [0, 0];
        for &s in tried {
            let figure = of_changes(counts[s as usize]);
            // No change is 0: with s = 0 nothing was looked at before.
            if figure > best[0] || best[1] == 0 {
                best = [figure, s];
            }
        }
        best
    }
}

/// The largest figure of the changes that are tried, and its first witness: figure, c, s.
fn largest_of<const W: usize>(
    (n, m, rows): (u32, u32, &[u32]),
    most: u32,
    of_changes: impl Fn(u32) -> u32,
    tried: &[u32],
) -> Vec<[u32; 3]> {
    let bests = best_within((n, m, rows), most, largest::<W>(n, of_changes, tried), |one, other| one[0] > other[0]);
    bests.into_iter().map(|(c, [figure, s])| [figure, c, s]).collect()
}

fn largest_over_of<const W: usize>(
    (n, m, rows): (u32, u32, &[u32]),
    combinations: &[u32],
    of_changes: impl Fn(u32) -> u32,
    tried: &[u32],
) -> Option<[u32; 3]> {
    let best = best_over((n, m, rows), combinations, largest::<W>(n, of_changes, tried), |one, other| one[0] > other[0]);
    best.map(|(c, [figure, s])| [figure, c, s])
}

/// Figures: degree, c. The coefficient at u is the parity of the ones of f within u.
fn degrees_of<const W: usize>(n: u32, m: u32, rows: &[u32], most: u32) -> Vec<[u32; 2]> {
    let mut places: Vec<u32> = (0..1 << n).collect();
    places.sort_by_key(|u| n - u.count_ones());
    let within: Vec<(u32, Words<W>)> = places.iter().map(|&u| (u.count_ones(), packed(n, |x| x & !u == 0))).collect();
    let degree = |f: &Words<W>| {
        let present = |(_, below): &&(u32, Words<W>)| ones(&and(f, below)) % 2 == 1;
        within.iter().find(present).map_or(0, |&(count, _)| count)
    };
    let bests = best_within((n, m, rows), most, degree, |one, other| one < other);
    bests.into_iter().map(|(c, degree)| [degree, c]).collect()
}

/// One, two or four words: as many as 2^n values need.
macro_rules! with_words {
    ($n:expr, $function:ident ( $($argument:expr),* )) => {
        match $n {
            0..=6 => $function::<1>($($argument),*),
            7 => $function::<2>($($argument),*),
            _ => $function::<4>($($argument),*),
        }
    };
}

/// Figures within each limit: d, c, w, b.
pub fn nonlinearities(n: u32, m: u32, rows: &[u32], most: u32) -> Vec<[u32; 4]> {
    with_words!(n, nonlinearities_of(n, m, rows, most))
}

/// All pairs within the limit i that differ at the fewest inputs, each as one number.
pub fn nearest_pairs(n: u32, m: u32, rows: &[u32], i: u32) -> Vec<u64> {
    with_words!(n, nearest_pairs_of(n, m, rows, i))
}

/// All changes of at most j inputs.
fn changes_of(n: u32, j: u32) -> Vec<u32> {
    (1..1u32 << n).filter(|d| d.count_ones() <= j).collect()
}

/// Plus one where a function does not change, minus one where it does.
fn correlation(n: u32, changes: u32) -> u32 {
    ((1 << n) - changes).abs_diff(changes)
}

/// The doubled distance of one change.
fn distance(n: u32, changes: u32) -> u32 {
    (1u32 << (n - 1)).abs_diff(changes)
}

/// Figures within each limit: figure, c, s.
pub fn autocorrelations(n: u32, m: u32, rows: &[u32], most: u32) -> Vec<[u32; 3]> {
    with_words!(n, largest_of((n, m, rows), most, |changes| correlation(n, changes), &changes_of(n, n)))
}

/// Figures of order (i, j) for each i: the doubled figure, c, d.
pub fn dynamic_distances(n: u32, m: u32, rows: &[u32], most: u32, j: u32) -> Vec<[u32; 3]> {
    with_words!(n, largest_of((n, m, rows), most, |changes| distance(n, changes), &changes_of(n, j)))
}

/// Figures over these combinations, in their order: d, c, w, b.
pub fn nonlinearity_over(n: u32, m: u32, rows: &[u32], combinations: &[u32]) -> Option<[u32; 4]> {
    with_words!(n, nonlinearity_over_of(n, m, rows, combinations))
}

/// Figures over these combinations: figure, c, s.
pub fn autocorrelation_over(n: u32, m: u32, rows: &[u32], combinations: &[u32]) -> Option<[u32; 3]> {
    with_words!(n, largest_over_of((n, m, rows), combinations, |changes| correlation(n, changes), &changes_of(n, n)))
}

/// Figures over these combinations: the doubled figure, c, d.
pub fn dynamic_distance_over(n: u32, m: u32, rows: &[u32], combinations: &[u32], j: u32) -> Option<[u32; 3]> {
    with_words!(n, largest_over_of((n, m, rows), combinations, |changes| distance(n, changes), &changes_of(n, j)))
}

/// Figures within each limit: degree, c.
pub fn degrees(n: u32, m: u32, rows: &[u32], most: u32) -> Vec<[u32; 2]> {
    with_words!(n, degrees_of(n, m, rows, most))
}

#[cfg(test)]
mod tests {
    use super::*;
    use crate::boxes::{self, KINDS};
    use crate::combinations::{how_many, within};
    use crate::model;
    use crate::random::Random;

    #[test]
    fn all_combinations_are_visited_in_their_order() {
        for m in 1..=12 {
            let columns: Vec<Words<1>> = (0..m).map(|j| [1 << j]).collect();
            for most in 1..=m {
                let mut visited = Vec::new();
                let visit = |c: u32, values: &Words<1>| {
                    assert_eq!(values, &[u64::from(c)]);
                    visited.push(c);
                };
                visit_all(&columns, most, visit, || ());
                assert_eq!(visited, within(m, most));
            }
        }
    }

    #[test]
    fn the_last_combination_of_32_outputs() {
        let columns = [[0u64]; 32];
        let mut last = 0;
        visit_all(&columns, 2, |c, _| last = c, || ());
        assert_eq!(last, 0xC000_0000);
        assert_eq!(next_with_as_many_ones(0b0110), 0b1001);
        assert_eq!(next_with_as_many_ones(0b1_1100), 0b10_0011);
    }

    #[test]
    fn inputs_are_flipped() {
        let mut random = Random::new(1);
        for n in 1..=8 {
            let f = boxes::random_table(n, &mut random);
            let counts = changes(n, &packed::<4>(n, |x| f[x as usize] == 1));
            for s in 1..1usize << n {
                let changed = (0..1 << n).filter(|&x| f[x] != f[x ^ s]).count();
                assert_eq!(counts[s] as usize, changed, "n = {n}, s = {s}, {f:?}");
            }
        }
    }

    /// Some limits up to `most` against the definitions, value by value.
    fn agrees_at(limits: &[u32], n: u32, m: u32, rows: &[u32], most: u32, random: &mut Random) {
        let shown = format!("{n} by {m}, {rows:?}");
        let j = random.between(1, n);
        let (pairs, correlations) = (nonlinearities(n, m, rows, most), autocorrelations(n, m, rows, most));
        let (distances, least) = (dynamic_distances(n, m, rows, most, j), degrees(n, m, rows, most));
        assert_eq!([pairs.len(), correlations.len(), distances.len(), least.len()], [most as usize; 4]);
        for &i in limits {
            let at = i as usize - 1;
            assert_eq!(pairs[at], model::nonlinearity_by_definition(n, m, rows, i), "i = {i}, {shown}");
            assert_eq!(correlations[at], model::autocorrelation_by_definition(n, m, rows, i), "i = {i}, {shown}");
            assert_eq!(distances[at], model::dynamic_distance_by_definition(n, m, rows, i, j), "i = {i}, j = {j}, {shown}");
            assert_eq!(least[at], model::degree_by_definition(m, rows, i), "i = {i}, {shown}");
            assert_eq!(nearest_pairs(n, m, rows, i), model::nearest_pairs_by_definition(n, m, rows, i), "i = {i}, {shown}");
        }
    }

    fn agrees(n: u32, m: u32, rows: &[u32], most: u32, random: &mut Random) {
        agrees_at(&(1..=most).collect::<Vec<u32>>(), n, m, rows, most, random);
    }

    /// The highest limit at which the definitions, value by value, take no long time.
    fn short_limit(n: u32, m: u32, operations: u64) -> u32 {
        (1..=m).rev().find(|&i| how_many(m, i) << (2 * n) <= operations).unwrap_or(1)
    }

    #[test]
    fn agrees_with_the_definitions_at_every_width() {
        let mut random = Random::new(2);
        for (n, m) in (1..=8).flat_map(|n| (1..=32).map(move |m| (n, m))) {
            for kind in 0..2 {
                let rows = boxes::of_kind(5 * m + n + 6 * kind, n, m, &mut random);
                agrees(n, m, &rows, short_limit(n, m, 1 << 17), &mut random);
            }
        }
    }

    #[test]
    fn agrees_with_the_definitions_on_boxes_of_every_kind() {
        let mut random = Random::new(3);
        for (n, m) in [(1, 1), (1, 8), (2, 3), (3, 5), (4, 4), (5, 6), (6, 4), (6, 6), (7, 3), (8, 2)] {
            for kind in 0..KINDS {
                let rows = boxes::of_kind(kind, n, m, &mut random);
                agrees(n, m, &rows, m, &mut random);
            }
        }
    }

    #[test]
    fn agrees_with_the_definitions_at_high_limits() {
        let mut random = Random::new(4);
        for (n, m, most) in [(2, 20, 20), (4, 16, 16), (4, 32, 4), (5, 14, 14), (6, 12, 12), (7, 10, 10), (8, 8, 8), (8, 32, 2)] {
            let rows = boxes::random_rows(n, m, &mut random);
            agrees_at(&[most / 2, most], n, m, &rows, most, &mut random);
        }
    }
}
