//! `second limits` and `second turns`: every limit of an accepted box. Of the 4,224 triples (n, m, i)
//! these are all 1,088 with at most 16 outputs, and of the others all that take the library a tenth of
//! a second or less: the nonlinearity and the degree in every run, the autocorrelation and the dynamic
//! distance each at a quarter of the widths, which takes turns from seed to seed and so from day to
//! day. Most of the rest cannot be run by anybody: 32 outputs have 2^32 - 1 combinations.
//!
//! In most boxes a combination of few outputs decides, and a limit that was taken too small or too
//! large would not show. So here a combination of as many outputs as the limit is made affine.
use crate::calls::{Run, AUTOCORRELATION, DEGREE, NONLINEARITY};
use crate::parts::Work;
use crate::rounds;
use second_model::boxes;
use second_model::combinations::how_many;
use second_model::model::{way, Way};
use second_model::rounds::{Summand, MOST};
use second_model::{counted, fast};
use std::ops::RangeInclusive;

pub const PARTS: &[(&str, Work)] = &[
    ("8 inputs, up to 16 outputs", &|run| up_to_16_outputs(run, 8)),
    ("8 inputs, above 16 outputs", &|run| above_16_outputs(run, 8)),
    ("7 inputs, above 16 outputs", &|run| above_16_outputs(run, 7)),
    ("6 inputs, above 16 outputs", &|run| above_16_outputs(run, 6)),
    ("5 inputs, above 16 outputs", &|run| above_16_outputs(run, 5)),
    ("4 inputs, above 16 outputs", &|run| above_16_outputs(run, 4)),
    ("3 inputs, above 16 outputs", &|run| above_16_outputs(run, 3)),
    ("2 inputs, above 16 outputs", &|run| above_16_outputs(run, 2)),
    ("1 input, above 16 outputs", &|run| above_16_outputs(run, 1)),
    ("7 inputs, up to 16 outputs", &|run| up_to_16_outputs(run, 7)),
    ("6 inputs, up to 16 outputs", &|run| up_to_16_outputs(run, 6)),
    ("1 to 5 inputs, up to 16 outputs", &|run| (1..=5).for_each(|n| up_to_16_outputs(run, n))),
];

pub const TURNS: &[(&str, Work)] = &[
    ("8 inputs", &|run| changes_above_16_outputs(run, 8)),
    ("7 inputs", &|run| changes_above_16_outputs(run, 7)),
    ("6 inputs", &|run| changes_above_16_outputs(run, 6)),
    ("5 inputs", &|run| changes_above_16_outputs(run, 5)),
    ("4 inputs", &|run| changes_above_16_outputs(run, 4)),
    ("3 inputs", &|run| changes_above_16_outputs(run, 3)),
    ("2 inputs", &|run| changes_above_16_outputs(run, 2)),
    ("1 input", &|run| changes_above_16_outputs(run, 1)),
];

/// What one combination takes the library at n = 1 to 8, in nanoseconds, as measured: of the
/// nonlinearity, and of the autocorrelation and the dynamic distance.
const NONLINEARITY_TAKES: [u64; 8] = [13, 22, 15, 25, 40, 80, 150, 285];
const CHANGES_TAKE: [u64; 8] = [17, 37, 55, 40, 75, 155, 305, 620];

/// A tenth of a second.
const QUICK: u64 = 100_000_000;

/// The highest limit that is quick.
fn highest(takes: &[u64; 8], n: u32, m: u32) -> u32 {
    let quick = |i: u32| how_many(m, i) * takes[n as usize - 1] <= QUICK;
    (1..=m).rev().find(|&i| quick(i)).expect("a limit of 1 is quick")
}

/// Each limit with a box made for it, and the limit below it with the same box: every call that
/// takes a limit, against what is counted.
fn up_to_16_outputs(run: &mut Run, n: u32) {
    for (m, k) in (1..=16).flat_map(|m| (1..=m).map(move |k| (m, k))) {
        let rows = boxes::affine_from(k, n, m, &mut run.random);
        let j = run.random.between(1, n);
        counted_limits(run, n, m, &rows, j, (k - 1).max(1)..=k);
    }
}

/// The calls that take a limit and give figures, at these limits.
fn counted_limits(run: &mut Run, n: u32, m: u32, rows: &[u32], j: u32, limits: RangeInclusive<u32>) {
    let most = *limits.end();
    let (pairs, least) = (counted::nonlinearities(n, m, rows, most), counted::degrees(n, m, rows, most));
    let (largest, distances) = (counted::autocorrelations(n, m, rows, most), counted::dynamic_distances(n, m, rows, most, j));
    for i in limits {
        let at = i as usize - 1;
        run.limited_figures_known(&NONLINEARITY, n, m, rows, i, 4, Ok(pairs[at].to_vec()));
        run.limited_figures_known(&AUTOCORRELATION, n, m, rows, i, 3, Ok(largest[at].to_vec()));
        run.limited_figures_known(&DEGREE, n, m, rows, i, 2, Ok(least[at].to_vec()));
        run.dynamic_distance_known(n, m, rows, (i, j), 3, Ok(distances[at].to_vec()));
    }
}

/// Every limit of up to 16 outputs in sums of one to four boxes.
pub fn of_sums(run: &mut Run) {
    for (m, i) in (1..=16).flat_map(|m| (1..=m).map(move |i| (m, i))) {
        let number = 1 + (m + i) as usize % MOST;
        let read = rounds::random_sum(&mut run.random, number, 4, m);
        rounds::ask(run, &read, i);
    }
}

/// Boxes above 16 outputs in which a combination of one to three outputs decides, one of which is the
/// highest; and at 8 by 32, for each output, one that has it. (Of one input every function is affine.)
pub fn deciding_outputs(run: &mut Run) {
    for (m, k) in WIDE.into_iter().flat_map(|m| (1..=3).map(move |k| (m, k))) {
        (1..=8).rev().for_each(|n| decided_by(run, n, m, m, k));
        (1..=MOST).for_each(|number| sum_decided_by(run, number, m, k));
    }
    for output in 1..32 {
        decided_by(run, 8, 32, output, 1 + output % 3);
    }
}

/// Some numbers of outputs above 16.
const WIDE: [u32; 4] = [32, 31, 24, 17];

/// Every call that takes a limit, at the limits 1 to 3, of a box in which a combination of k outputs, the
/// given one among them, is affine.
fn decided_by(run: &mut Run, n: u32, m: u32, output: u32, k: u32) {
    let c = boxes::combination_with(output, k, m, &mut run.random);
    let (rows, j) = (boxes::decided_by(c, n, m, &mut run.random), run.random.between(1, n));
    counted_limits(run, n, m, &rows, j, 1..=3);
    let pairs = counted::nearest_pairs(n, m, &rows, k);
    run.nearest_pairs_known(n, m, &rows, k, (pairs.len(), 1), Ok(pairs));
}

/// A sum of boxes in all of which the same combination is affine: of eight inputs each at 32 outputs.
fn sum_decided_by(run: &mut Run, number: usize, m: u32, k: u32) {
    let c = boxes::combination_with(m, k, m, &mut run.random);
    let mut one = || {
        let n = if m == 32 { 8 } else { run.random.between(2, 8) };
        Summand { n, m, rows: boxes::decided_by(c, n, m, &mut run.random) }
    };
    let read: Vec<Summand> = (0..number).map(|_| one()).collect();
    rounds::ask(run, &read, k);
}

/// A box of which a combination has as many outputs as the highest limit, or fewer, and is affine; in
/// every second box it has the highest output.
fn box_with_limits(run: &mut Run, n: u32, m: u32, most: u32) -> Vec<u32> {
    let k = if run.random.one_in(2) { most } else { run.random.between(1, most) };
    if run.random.one_in(2) {
        let c = boxes::combination_with(m, k, m, &mut run.random);
        boxes::decided_by(c, n, m, &mut run.random)
    } else {
        boxes::affine_from(k, n, m, &mut run.random)
    }
}

/// Boxes of 17 to 32 outputs: the nonlinearity and the degree at every quick limit.
fn above_16_outputs(run: &mut Run, n: u32) {
    for m in 17..=32 {
        let most = highest(&NONLINEARITY_TAKES, n, m);
        let rows = box_with_limits(run, n, m, most);
        let pairs = match way(n, m, most) {
            Way::ByTransform => fast::nonlinearities(n, m, &rows, most),
            _ => counted::nonlinearities(n, m, &rows, most),
        };
        let least = counted::degrees(n, m, &rows, most);
        for (i, at) in (1..=most).zip(0..) {
            run.limited_figures_known(&NONLINEARITY, n, m, &rows, i, 4, Ok(pairs[at].to_vec()));
            run.limited_figures_known(&DEGREE, n, m, &rows, i, 2, Ok(least[at].to_vec()));
        }
    }
}

/// The autocorrelation at a quarter of the widths, and the dynamic distance at another.
fn changes_above_16_outputs(run: &mut Run, n: u32) {
    for m in 17..=32 {
        let most = highest(&CHANGES_TAKE, n, m);
        match (m + n + run.turn) % 4 {
            0 => autocorrelations(run, n, m, most),
            2 => distances(run, n, m, most),
            _ => {}
        }
    }
}

fn autocorrelations(run: &mut Run, n: u32, m: u32, most: u32) {
    let rows = box_with_limits(run, n, m, most);
    let largest = match way(n, m, most) {
        Way::ByTransform => fast::autocorrelations(n, m, &rows, most),
        _ => counted::autocorrelations(n, m, &rows, most),
    };
    for (i, at) in (1..=most).zip(0..) {
        run.limited_figures_known(&AUTOCORRELATION, n, m, &rows, i, 3, Ok(largest[at].to_vec()));
    }
}

fn distances(run: &mut Run, n: u32, m: u32, most: u32) {
    let (rows, j) = (box_with_limits(run, n, m, most), run.random.between(1, n));
    let figures = match way(n, m, most) {
        Way::ByTransform => fast::dynamic_distances(n, m, &rows, most, j),
        _ => counted::dynamic_distances(n, m, &rows, most, j),
    };
    for (i, at) in (1..=most).zip(0..) {
        run.dynamic_distance_known(n, m, &rows, (i, j), 3, Ok(figures[at].to_vec()));
    }
}

#[cfg(test)]
mod tests {
    use super::*;

    /// The numbers that READING states.
    #[test]
    fn so_many_limits_are_quick() {
        let widths = || (1..=8).flat_map(|n| (17..=32).map(move |m| (n, m)));
        let quick = |takes| widths().map(|(n, m)| highest(takes, n, m)).sum::<u32>();
        let all: u32 = widths().map(|(_, m)| m).sum();
        assert_eq!((quick(&NONLINEARITY_TAKES), quick(&CHANGES_TAKE), all), (1387, 1242, 3136));
    }
}
