//! Figures over parts of the combinations: parts of every kind, cuttings merged in any order against the
//! plain calls, the merging of two parts, and every refusal. The library's calls are handed in, so that the
//! tests below can hand in others.
use crate::calls::Run;
use crate::lent::Kept;
use crate::rounds::four_of;
use satmegwo::slices::{self as library, BoxLent};
use second_model::between::{self, cut, written, Better, Ends, Part};
use second_model::boxes::{self, KINDS};
use second_model::combinations::quick_limit;
use second_model::model::{all_outputs, Answer};
use second_model::rounds::{Summand, MOST};

/// n, m, rows, i, first, last, and the array for the figures.
type LimitedPart = fn(u32, u32, &[u32], u32, u32, u32, &mut [u32]) -> u32;

/// The same with j behind i.
type DistancePart = fn(u32, u32, &[u32], u32, u32, u32, u32, &mut [u32]) -> u32;

/// The number of boxes, the boxes, i, first, last, and the array for the figures.
type SumPart = fn(u32, [BoxLent; MOST], u32, u32, u32, &mut [u32]) -> u32;

/// Two parts, and the array for what they make.
type Merge = fn(&[u32], &[u32], &mut [u32]) -> u32;

/// The calls over parts.
pub struct Calls {
    pub nonlinearity: LimitedPart,
    pub autocorrelation: LimitedPart,
    pub dynamic_distance: DistancePart,
    pub sum_nonlinearity: SumPart,
    pub merge_least: Merge,
    pub merge_largest: Merge,
}

pub const LIBRARY: Calls = Calls {
    nonlinearity: library::nonlinearity_between,
    autocorrelation: library::autocorrelation_between,
    dynamic_distance: library::dynamic_distance_between,
    sum_nonlinearity: library::sum_nonlinearity_between,
    merge_least: library::merge_least,
    merge_largest: library::merge_largest,
};

/// A figure of one box, with j where there is one.
#[derive(Clone, Copy, Debug, PartialEq)]
pub enum Figure {
    Nonlinearity,
    Autocorrelation,
    Distance(u32),
}

impl Figure {
    fn name(self) -> &'static str {
        match self {
            Figure::Nonlinearity => "nonlinearity_between",
            Figure::Autocorrelation => "autocorrelation_between",
            Figure::Distance(_) => "dynamic_distance_between",
        }
    }

    /// How many figures there are behind the 1.
    pub fn figures(self) -> usize {
        if self == Figure::Nonlinearity {
            4
        } else {
            3
        }
    }

    pub fn better(self) -> Better {
        if self == Figure::Nonlinearity {
            Better::Less
        } else {
            Better::Larger
        }
    }

    fn model(self, n: u32, m: u32, rows: &[u32], i: u32, ends: Ends, len: usize) -> Answer<Part> {
        match self {
            Figure::Nonlinearity => between::nonlinearity(n, m, rows, i, ends, len),
            Figure::Autocorrelation => between::autocorrelation(n, m, rows, i, ends, len),
            Figure::Distance(j) => between::dynamic_distance(n, m, rows, (i, j), ends, len),
        }
    }
}

/// What the library says, as the model would.
fn told(written: Option<Vec<u32>>) -> Part {
    written.filter(|figures| figures[0] == 1).map(|figures| figures[1..].to_vec())
}

/// A box that parts are asked of.
pub struct Asked<'a> {
    pub calls: &'a Calls,
    pub n: u32,
    pub m: u32,
    pub rows: Vec<u32>,
}

impl Asked<'_> {
    /// One part, of the library and of the model, compared. Gives what the library says of it.
    pub fn part(&self, run: &mut Run, figure: Figure, i: u32, ends: Ends, figures_len: usize) -> Part {
        let Asked { calls, n, m, ref rows } = *self;
        run.calling(figure.name());
        let (read, mut figures) = (run.copy(rows), run.lend(figures_len));
        let code = match figure {
            Figure::Nonlinearity => (calls.nonlinearity)(n, m, read.content(), i, ends.0, ends.1, figures.part()),
            Figure::Autocorrelation => (calls.autocorrelation)(n, m, read.content(), i, ends.0, ends.1, figures.part()),
            Figure::Distance(j) => (calls.dynamic_distance)(n, m, read.content(), i, j, ends.0, ends.1, figures.part()),
        };
        let wanted = figure.model(n, m, rows, i, ends, figures_len).map(|part| written(&part, figure.figures()));
        told(run.judge(code, &[&read], &figures, &wanted, || {
            format!("{figure:?}, n = {n}, m = {m}, rows = {rows:?}, i = {i}, {ends:?}, figures_len = {figures_len}")
        }))
    }

    /// All three figures of a part, each in an array of the right length.
    fn figures(&self, run: &mut Run, i: u32, ends: Ends) {
        let j = run.random.between(1, self.n);
        for figure in [Figure::Nonlinearity, Figure::Autocorrelation, Figure::Distance(j)] {
            self.part(run, figure, i, ends, 1 + figure.figures());
        }
    }

    /// The parts of a cutting, merged, are what the plain call says.
    fn makes_the_whole(&self, run: &mut Run, figure: Figure, i: u32) {
        let Asked { n, m, ref rows, .. } = *self;
        let parts = cut(m, &mut run.random);
        let found: Vec<Part> = parts.iter().map(|&ends| self.part(run, figure, i, ends, 1 + figure.figures())).collect();
        let mut whole = vec![0; figure.figures()];
        let code = match figure {
            Figure::Nonlinearity => library::nonlinearity(n, m, rows, i, &mut whole),
            Figure::Autocorrelation => library::autocorrelation(n, m, rows, i, &mut whole),
            Figure::Distance(j) => library::dynamic_distance(n, m, rows, i, j, &mut whole),
        };
        let merged = merged_in_any_order(run, self.calls, figure.better(), figure.figures(), &found);
        run.law("parts make the whole", code == 0 && merged.as_ref() == Some(&whole), || {
            format!("{figure:?} in the parts {parts:?}: {merged:?}, and whole {whole:?}, n = {n}, m = {m}, i = {i}, rows = {rows:?}")
        });
    }
}

/// Two parts merged, by the library and by the model, compared. Gives what the library wrote.
fn merge(run: &mut Run, calls: &Calls, better: Better, x: &[u32], y: &[u32], merged_len: usize) -> Option<Vec<u32>> {
    let (name, call) = match better {
        Better::Less => ("merge_least", calls.merge_least),
        Better::Larger => ("merge_largest", calls.merge_largest),
    };
    run.calling(name);
    let (one, other, mut both) = (run.copy(x), run.copy(y), run.lend(merged_len));
    let code = call(one.content(), other.content(), both.part());
    let wanted = between::merged_arrays(better, x, y, merged_len);
    run.judge(code, &[&one, &other], &both, &wanted, || format!("{better:?}, x = {x:?}, y = {y:?}, merged_len = {merged_len}"))
}

/// The parts merged by the library, two at a time, whichever two, one of them perhaps twice.
fn merged_in_any_order(run: &mut Run, calls: &Calls, better: Better, figures: usize, found: &[Part]) -> Part {
    let mut left: Vec<Vec<u32>> = found.iter().map(|part| written(part, figures)).collect();
    left.push(run.random.pick(&left.iter().collect::<Vec<_>>()).clone());
    while left.len() > 1 {
        run.random.shuffle(&mut left);
        let (x, y) = (left.pop().expect("there are two"), left.pop().expect("there are two"));
        left.push(merge(run, calls, better, &x, &y, 1 + figures)?);
    }
    told(left.pop())
}

pub fn all(run: &mut Run) {
    with(run, &LIBRARY);
}

fn with(run: &mut Run, calls: &Calls) {
    every_part_of_few_outputs(run, calls);
    around_what_decides(run, calls);
    low_limits_of_many_outputs(run, calls);
    cuttings(run, calls);
    refusals(run, calls);
    sums(run, calls);
    refused_sums(run, calls);
    mergings(run, calls);
    refused_mergings(run, calls);
}

/// Every part at every limit of boxes of up to four outputs.
fn every_part_of_few_outputs(run: &mut Run, calls: &Calls) {
    for (n, m) in (1..=8).flat_map(|n| (1..=4).map(move |m| (n, m))) {
        let kind = run.random.below(KINDS);
        let asked = Asked { calls, n, m, rows: boxes::of_kind(kind, n, m, &mut run.random) };
        for (first, last) in (1..1 << m).flat_map(|first| (first..1 << m).map(move |last| (first, last))) {
            let i = run.random.between(1, m);
            asked.figures(run, i, (first, last));
        }
    }
}

/// One combination is affine: parts that begin or end with it, and parts that miss it by one.
fn around_what_decides(run: &mut Run, calls: &Calls) {
    for (n, m) in (2..=8).flat_map(|n| [5, 8, 16, 17, 31, 32].map(|m| (n, m))) {
        let output = run.random.pick(&[1, m / 2, m - 1, m]);
        let k = run.random.between(1, 4);
        let c = boxes::combination_with(output, k, m, &mut run.random);
        let asked = Asked { calls, n, m, rows: boxes::decided_by(c, n, m, &mut run.random) };
        let (below, above) = (run.random.below(c.min(40)), run.random.below((all_outputs(m) - c).min(40) + 1));
        for i in [k, m] {
            asked.figures(run, i, (c, c));
            asked.figures(run, i, (c - below, c));
            asked.figures(run, i, (c, c + above));
            asked.figures(run, i, (c - below, c + above));
            if c > 1 {
                asked.figures(run, i, (c - below.max(1), c - 1));
            }
            if c < all_outputs(m) {
                asked.figures(run, i, (c + 1, c + above.max(1)));
            }
        }
    }
}

/// Long parts in which few combinations lie, or none; and both ends of all.
fn low_limits_of_many_outputs(run: &mut Run, calls: &Calls) {
    for (n, m) in [(1, 32), (3, 32), (8, 17), (8, 31), (8, 32)] {
        let asked = Asked { calls, n, m, rows: boxes::random_rows(n, m, &mut run.random) };
        let all = all_outputs(m);
        let half = 1 << (m - 1);
        for ends in [(1, all), (1, half), (half, all), (half + 1, all), (half - 1, half), (all, all), (all - 20, all), (1, 1), (1, 40)] {
            for i in [1, 2] {
                asked.figures(run, i, ends);
            }
        }
        asked.figures(run, m, (all - 50, all));
        asked.figures(run, m, (half - 50, half + 50));
    }
}

fn cuttings(run: &mut Run, calls: &Calls) {
    for round in 0..60 {
        let (n, m) = (run.random.between(1, 8), run.random.pick(&[1, 2, 4, 8, 10, 17, 32]));
        let (i, j) = (run.random.between(1, quick_limit(n, m)), run.random.between(1, n));
        let asked = Asked { calls, n, m, rows: boxes::of_kind(round, n, m, &mut run.random) };
        for figure in [Figure::Nonlinearity, Figure::Autocorrelation, Figure::Distance(j)] {
            asked.makes_the_whole(run, figure, i);
        }
    }
}

/// At first everything is wrong, then one argument after the other is put right: 1, 2, 3, 4, 6, 7; and
/// each end from both sides.
fn refusals(run: &mut Run, calls: &Calls) {
    for (n, m) in (1..=4).flat_map(|n| [1, 3, 16, 31].map(|m| (n, m))) {
        let all = all_outputs(m);
        let figures = [Figure::Nonlinearity, Figure::Autocorrelation, Figure::Distance(n)];
        for (right, figure) in (0..=7).flat_map(|right| figures.map(|figure| (right, figure))) {
            let mut rows = boxes::random_rows(n, m, &mut run.random);
            rows[0] = if right >= 4 { rows[0] } else { all + 1 };
            rows.truncate(if right >= 3 { 1 << n } else { (1 << n) - 1 });
            let asked = Asked { calls, n: if right >= 1 { n } else { 9 }, m: if right >= 2 { m } else { 33 }, rows };
            let (i, last) = (if right >= 5 { 1 } else { m + 1 }, if right >= 6 { all } else { all + 1 });
            asked.part(run, figure, i, (1, last), figure.figures() + 1 + usize::from(right < 7));
        }
        let asked = Asked { calls, n, m, rows: boxes::random_rows(n, m, &mut run.random) };
        for figure in figures {
            let far =
                [(0, 0), (0, 1), (2, 1), (all, all - 1), (1, all + 1), (all + 1, all + 1), (1, u32::MAX), (u32::MAX, 1), (65537, 65536)];
            for ends in far {
                asked.part(run, figure, 1, ends, figure.figures() + 1);
                asked.part(run, figure, 0, ends, figure.figures());
            }
            for len in 0..8 {
                asked.part(run, figure, 1, (1, 1), len);
                asked.part(run, figure, 1, (all, all), len);
            }
        }
        for j in [0, n + 1, u32::MAX] {
            asked.part(run, Figure::Distance(j), 1, (1, all), 4);
        }
    }
}

/// One part of a sum, compared.
pub fn sum(run: &mut Run, calls: &Calls, number: u32, four: &[Summand; MOST], i: u32, ends: Ends, figures_len: usize) -> Part {
    run.calling("sum_nonlinearity_between");
    let read = four.each_ref().map(|one| run.copy(&one.rows));
    let mut figures = run.lend(figures_len);
    let lent = std::array::from_fn(|k| (four[k].n, four[k].m, read[k].content()));
    let code = (calls.sum_nonlinearity)(number, lent, i, ends.0, ends.1, figures.part());
    let wanted = between::sum_nonlinearity(number, four, i, ends, figures_len).map(|part| written(&part, 3 + number as usize));
    let kept = read.each_ref().map(|one| one as &dyn Kept);
    told(run.judge(code, &kept, &figures, &wanted, || {
        format!("number = {number}, boxes = {four:?}, i = {i}, {ends:?}, figures_len = {figures_len}")
    }))
}

/// Cuttings of sums of one to four boxes, and parts around the combination that decides.
fn sums(run: &mut Run, calls: &Calls) {
    for round in 0..60 {
        let number = 1 + round % MOST;
        let m = run.random.pick(&[1, 3, 5, 8, 17, 32]);
        let k = run.random.between(1, m.min(3));
        let c = boxes::combination_with(m, k, m, &mut run.random);
        let mut one = || {
            let n = run.random.between(1, 8);
            Summand { n, m, rows: boxes::decided_by(c, n, m, &mut run.random) }
        };
        let read: Vec<Summand> = (0..number).map(|_| one()).collect();
        let four = four_of(&mut run.random, &read);
        let below = run.random.below(c.min(20));
        for ends in [(c, c), (c - below, c), (c - below, c.max(2) - 1)].into_iter().filter(|ends| ends.0 <= ends.1) {
            sum(run, calls, number as u32, &four, m, ends, 4 + number);
        }
        let i = run.random.between(1, quick_limit(8, m));
        let parts = cut(m, &mut run.random);
        let found: Vec<Part> = parts.iter().map(|&ends| sum(run, calls, number as u32, &four, i, ends, 4 + number)).collect();
        let (merged, mut whole) = (merged_in_any_order(run, calls, Better::Less, 3 + number, &found), vec![0; 3 + number]);
        let lent = four.each_ref().map(|one| (one.n, one.m, &one.rows[..]));
        let code = library::sum_nonlinearity(number as u32, lent, i, &mut whole);
        run.law("parts of a sum make the whole", code == 0 && merged.as_ref() == Some(&whole), || {
            format!("{parts:?}: {merged:?}, and whole {whole:?}, i = {i}, {read:?}")
        });
    }
}

/// 11, a box's own, 12, 6, 7.
fn refused_sums(run: &mut Run, calls: &Calls) {
    for (number, right) in (1..=MOST as u32).flat_map(|number| (0..=6).map(move |right| (number, right))) {
        let mut four: [Summand; MOST] = std::array::from_fn(|_| Summand { n: 2, m: 3, rows: boxes::random_rows(2, 3, &mut run.random) });
        let last = &mut four[number as usize - 1];
        if right < 2 {
            last.rows[3] = 8;
        }
        if right < 3 && number > 1 {
            *last = Summand { n: 2, m: 4, rows: last.rows.clone() };
        }
        let (i, end) = (if right >= 4 { 2 } else { 4 }, if right >= 5 { 7 } else { 8 });
        let len = 4 + number as usize + usize::from(right < 6);
        sum(run, calls, if right >= 1 { number } else { 5 }, &four, i, (1, end), len);
        for ends in [(0, 7), (5, 4), (1, u32::MAX), (7, 7), (5, 7), (1, 3)] {
            sum(run, calls, number, &four, 1, ends, 4 + number as usize);
        }
    }
}

const BOTH: [Better; 2] = [Better::Less, Better::Larger];

/// Figures that are near each other or far apart, combinations with as many ones or more, and flags 0,
/// behind which anything may stand.
fn mergings(run: &mut Run, calls: &Calls) {
    for (better, len) in BOTH.into_iter().flat_map(|better| (3..=9).map(move |len| (better, len))) {
        for _ in 0..60 {
            let mut part = || {
                let mut array: Vec<u32> = (0..len).map(|_| run.random.draw() as u32).collect();
                array[0] = run.random.pick(&[0, 1, 1, 1]);
                array[1] = run.random.pick(&[0, 1, 1, 2, u32::MAX - 1, u32::MAX]);
                array[2] = run.random.pick(&[1, 3, 4, 5, 6, 7, 8, 0x8000_0000, 0x7fff_ffff, u32::MAX]);
                array
            };
            let (x, y) = (part(), part());
            merge(run, calls, better, &x, &y, len);
        }
    }
}

/// 3, 3, 4, 4, 7: at first everything is wrong, then one after the other is put right; every length, and
/// each flag from both sides.
fn refused_mergings(run: &mut Run, calls: &Calls) {
    for (better, right) in BOTH.into_iter().flat_map(|better| (0..=5).map(move |right| (better, right))) {
        let flag = |is_right: bool| if is_right { 1 } else { 2 };
        let x = [flag(right >= 3), 9, 1, 0];
        let y = [flag(right >= 4), 9, 2, 0];
        let x = if right >= 1 { &x[..] } else { &x[..2] };
        let y = if right >= 2 { &y[..] } else { &y[..3] };
        merge(run, calls, better, x, y, if right >= 5 { 4 } else { 5 });
    }
    for (better, x, y) in BOTH.into_iter().flat_map(|better| (0..7).flat_map(move |x| (0..7).map(move |y| (better, x, y)))) {
        for merged_len in [x, y, 0] {
            let one: Vec<u32> = [1, 5, 3, 0, 0, 0, 0][..x].to_vec();
            merge(run, calls, better, &one, &[1, 5, 4, 0, 0, 0, 0][..y], merged_len);
        }
        for len in [0, x, x + 1, x + 2] {
            merge(run, calls, better, &vec![1; x + 1], &vec![1; x + 1], len);
        }
    }
    for (better, (x, y)) in BOTH.into_iter().flat_map(|better| flags().map(move |flags| (better, flags))) {
        merge(run, calls, better, &[x, 7, 3], &[y, 7, 4], 3);
        merge(run, calls, better, &[x, 7, 3], &[y, 7, 4], 4);
    }
}

/// Every pair of these flags.
fn flags() -> impl Iterator<Item = (u32, u32)> {
    const FLAGS: [u32; 6] = [0, 1, 2, 256, 65536, u32::MAX];
    FLAGS.into_iter().flat_map(|x| FLAGS.map(|y| (x, y)))
}

/// The model in the library's place.
#[cfg(test)]
pub const MODEL: Calls = tests::MODEL;

#[cfg(test)]
mod tests {
    use super::*;

    /// The model in the library's place.
    pub const MODEL: Calls = Calls {
        nonlinearity: |n, m, rows, i, first, last, figures| {
            give(between::nonlinearity(n, m, rows, i, (first, last), figures.len()), figures)
        },
        autocorrelation: |n, m, rows, i, first, last, figures| {
            give(between::autocorrelation(n, m, rows, i, (first, last), figures.len()), figures)
        },
        dynamic_distance: |n, m, rows, i, j, first, last, figures| {
            give(between::dynamic_distance(n, m, rows, (i, j), (first, last), figures.len()), figures)
        },
        sum_nonlinearity: |number, lent, i, first, last, figures| {
            let four = lent.map(|(n, m, rows)| Summand { n, m, rows: rows.to_vec() });
            give(between::sum_nonlinearity(number, &four, i, (first, last), figures.len()), figures)
        },
        merge_least: |x, y, merged| take(between::merged_arrays(Better::Less, x, y, merged.len()), merged),
        merge_largest: |x, y, merged| take(between::merged_arrays(Better::Larger, x, y, merged.len()), merged),
    };

    fn take(reply: Answer<Vec<u32>>, array: &mut [u32]) -> u32 {
        match reply {
            Ok(content) => {
                array.copy_from_slice(&content);
                0
            }
            Err(number) => number,
        }
    }

    fn give(reply: Answer<Part>, figures: &mut [u32]) -> u32 {
        let room = figures.len().max(1) - 1;
        take(reply.map(|part| written(&part, room)), figures)
    }

    fn differences(calls: &Calls) -> u64 {
        let mut run = Run::new("a test", 1);
        with(&mut run, calls);
        run.tally.differences
    }

    #[test]
    fn the_model_differs_nowhere_from_itself() {
        assert_eq!(differences(&MODEL), 0);
    }

    #[test]
    fn a_part_without_its_last_or_first_combination_is_noticed() {
        let nonlinearity: LimitedPart =
            |n, m, rows, i, first, last, figures| (MODEL.nonlinearity)(n, m, rows, i, first, last - u32::from(first < last), figures);
        assert!(differences(&Calls { nonlinearity, ..MODEL }) > 0);
        let autocorrelation: LimitedPart =
            |n, m, rows, i, first, last, figures| (MODEL.autocorrelation)(n, m, rows, i, first + u32::from(first < last), last, figures);
        assert!(differences(&Calls { autocorrelation, ..MODEL }) > 0);
        let sum_nonlinearity: SumPart = |number, lent, i, first, last, figures| {
            (MODEL.sum_nonlinearity)(number, lent, i, first, last - u32::from(first < last), figures)
        };
        assert!(differences(&Calls { sum_nonlinearity, ..MODEL }) > 0);
    }

    /// Of equal figures that of the smaller c, and not that of fewer outputs.
    #[test]
    fn another_order_of_combinations_is_noticed() {
        let autocorrelation: LimitedPart = |n, m, rows, i, first, last, figures| {
            let code = (MODEL.autocorrelation)(n, m, rows, i, first, last, figures);
            if code == 0 && figures[0] == 1 {
                let mut alone = [0; 4];
                for c in first..figures[2] {
                    (MODEL.autocorrelation)(n, m, rows, i, c, c, &mut alone);
                    if alone[..2] == figures[..2] {
                        figures.copy_from_slice(&alone);
                        break;
                    }
                }
            }
            code
        };
        let mut run = Run::new("a test", 1);
        every_part_of_few_outputs(&mut run, &Calls { autocorrelation, ..MODEL });
        assert!(run.tally.differences > 0);
    }

    #[test]
    fn another_limit_or_change_is_noticed() {
        let nonlinearity: LimitedPart = |n, m, rows, i, first, last, figures| {
            let i = if i >= 1 && i < m && m > 16 && last.wrapping_sub(first) < 100 { m } else { i };
            (MODEL.nonlinearity)(n, m, rows, i, first, last, figures)
        };
        assert!(differences(&Calls { nonlinearity, ..MODEL }) > 0);
        let dynamic_distance: DistancePart = |n, m, rows, i, j, first, last, figures| {
            let j = if j >= 1 && j < n { n } else { j };
            (MODEL.dynamic_distance)(n, m, rows, i, j, first, last, figures)
        };
        assert!(differences(&Calls { dynamic_distance, ..MODEL }) > 0);
    }

    /// The smaller c is preferred to fewer ones; the second part is dropped; nothing is not neutral.
    #[test]
    fn another_merging_is_noticed() {
        let differences = |calls: &Calls| {
            let mut run = Run::new("a test", 1);
            mergings(&mut run, calls);
            refused_mergings(&mut run, calls);
            run.tally.differences
        };
        assert_eq!(differences(&MODEL), 0);
        fn worse(x: &[u32], y: &[u32]) -> bool {
            x[0] == 1 && y[0] == 1 && x[1] == y[1] && x[2] > y[2]
        }
        let smaller_first: Merge = |x, y, merged| {
            let code = (MODEL.merge_least)(x, y, merged);
            if code == 0 && worse(x, y) {
                merged.copy_from_slice(y);
            }
            code
        };
        assert!(differences(&Calls { merge_least: smaller_first, ..MODEL }) > 0);
        let drops: Merge = |x, y, merged| (MODEL.merge_largest)(x, if y.len() == x.len() && y.first() == Some(&1) { x } else { y }, merged);
        assert!(differences(&Calls { merge_largest: drops, ..MODEL }) > 0);
        let nothing_wins: Merge = |x, y, merged| {
            let code = (MODEL.merge_largest)(x, y, merged);
            if code == 0 && y[0] == 0 {
                merged.copy_from_slice(y);
            }
            code
        };
        assert!(differences(&Calls { merge_largest: nothing_wins, ..MODEL }) > 0);
        let any_flag: Merge = |x, y, merged| match (MODEL.merge_least)(x, y, merged) {
            4 => (MODEL.merge_least)(x, x, merged),
            code => code,
        };
        assert!(differences(&Calls { merge_least: any_flag, ..MODEL }) > 0);
    }

    #[test]
    fn another_refusal_is_noticed() {
        let refuses_nothing: LimitedPart = |n, m, rows, i, first, last, figures| {
            let code = (MODEL.autocorrelation)(n, m, rows, i, first, last, figures);
            if code == 0 && figures[0] == 0 {
                6
            } else {
                code
            }
        };
        assert!(differences(&Calls { autocorrelation: refuses_nothing, ..MODEL }) > 0);
        let takes_any_order: LimitedPart =
            |n, m, rows, i, first, last, figures| (MODEL.nonlinearity)(n, m, rows, i, first.min(last), last.max(first), figures);
        assert!(differences(&Calls { nonlinearity: takes_any_order, ..MODEL }) > 0);
        let writes: LimitedPart = |n, m, rows, i, first, last, figures| {
            let code = (MODEL.nonlinearity)(n, m, rows, i, first, last, figures);
            if code == 6 {
                figures.fill(0);
            }
            code
        };
        assert!(differences(&Calls { nonlinearity: writes, ..MODEL }) > 0);
    }
}
