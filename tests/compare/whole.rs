//! The stored figures over all combinations (examples/NAME.whole): of each line the part that holds the
//! witness, which must give that line, and a part that the seed picks, both against the model. In the
//! gate one of the seeds is the day's date.
use crate::between::{Asked, Calls, Figure, LIBRARY};
use crate::calls::Run;
use crate::files::ROOT;
use crate::rounds::four_of;
use second_model::between::{merged, Better, Ends, Part};
use second_model::model::all_outputs;
use second_model::printed::box_named;
use second_model::published::Published;
use second_model::rounds::Summand;
use std::fs;
use std::path::Path;

/// The boxes that `cast-sum.whole` is the sum of.
const SUMMED: [&str; 4] = ["cast-s1", "cast-s2", "cast-s3", "cast-s4"];

/// What a line of such a file speaks of: a figure of the file's own box, or the sum.
#[derive(Clone, Copy, Debug, PartialEq)]
enum Asks {
    Of(Figure),
    Sum,
}

/// A line: what was asked, the limit, and the figure with its witness.
#[derive(Clone, Debug, PartialEq)]
struct Line {
    asks: Asks,
    i: u32,
    found: Vec<u32>,
}

/// The lines that come from a sweep in parts. Of the others, which the sheet has too, nothing is read.
fn line(text: &str) -> Option<Line> {
    let mut words = text.split(' ');
    let word = words.next()?;
    let numbers: Option<Vec<u32>> = words.map(|word| word.parse().ok()).collect();
    let numbers = numbers?;
    let behind = if word == "distance" { 2 } else { 1 };
    let (found, order) = numbers.split_at_checked(numbers.len().checked_sub(behind)?)?;
    let asks = match (word, found.len()) {
        ("nonlinearity", 4) => Asks::Of(Figure::Nonlinearity),
        ("autocorrelation", 3) => Asks::Of(Figure::Autocorrelation),
        ("distance", 3) => Asks::Of(Figure::Distance(order[1])),
        ("sum", 7) => Asks::Sum,
        _ => return None,
    };
    Some(Line { asks, i: order[0], found: found.to_vec() })
}

/// So many combinations have a part: of the nonlinearity, which is the quickest, all 2^20 that a part has
/// in the commands, of the others fewer.
fn size(asks: Asks) -> u32 {
    if asks == Asks::Of(Figure::Nonlinearity) {
        1 << 20
    } else {
        1 << 16
    }
}

/// The part with c in it, of those that begin at 1 and at the multiples of their size.
fn part_with(c: u32, m: u32, size: u32) -> Ends {
    let first = c - c % size;
    (first.max(1), first.saturating_add(size - 1).min(all_outputs(m)))
}

/// One part of a line, by library and model.
fn part(run: &mut Run, calls: &Calls, name: &str, line: &Line, ends: Ends) -> Part {
    match line.asks {
        Asks::Of(figure) => {
            let Published { n, m, rows, .. } = box_named(name);
            Asked { calls, n, m, rows }.part(run, figure, line.i, ends, 1 + figure.figures())
        }
        Asks::Sum => {
            let summand = |name: &&str| {
                let Published { n, m, rows, .. } = box_named(name);
                Summand { n, m, rows }
            };
            let read: Vec<Summand> = SUMMED.iter().map(summand).collect();
            let four = four_of(&mut run.random, &read);
            crate::between::sum(run, calls, 4, &four, line.i, ends, 8)
        }
    }
}

fn check(run: &mut Run, calls: &Calls, name: &str, line: &Line) {
    let held = part(run, calls, name, line, part_with(line.found[1], 32, size(line.asks)));
    run.law("stored figures over all combinations", held.as_ref() == Some(&line.found), || {
        format!("{name}: {line:?} is stored, and the part with its witness has {held:?}")
    });
    let c = run.random.between(1, all_outputs(32));
    let picked = part(run, calls, name, line, part_with(c, 32, size(line.asks)));
    let better = match line.asks {
        Asks::Of(figure) => figure.better(),
        Asks::Sum => Better::Less,
    };
    let stored = Ok(Some(line.found.clone()));
    run.law("no part has more than the stored figure", merged(better, &stored, &Ok(picked.clone())) == stored, || {
        format!("{name}: {line:?} is stored, and the part with {c} has {picked:?}")
    });
}

pub fn all(run: &mut Run) {
    let directory = Path::new(ROOT).join("examples");
    let names = fs::read_dir(directory).expect("the examples are there").map(|entry| entry.expect("it can be read").path());
    let mut stored: Vec<_> = names.filter(|path| path.extension().is_some_and(|end| end == "whole")).collect();
    stored.sort();
    for path in &stored {
        let name = path.file_stem().and_then(|stem| stem.to_str()).expect("it has a name");
        let text = fs::read_to_string(path).expect("it can be read");
        let lines: Vec<Line> = text.lines().filter_map(line).collect();
        run.law("whole files with lines", !lines.is_empty(), || format!("{name}: no line of it is one of a sweep"));
        lines.iter().for_each(|line| check(run, &LIBRARY, name, line));
    }
    println!("figures over all combinations: {} files are stored", stored.len());
}

#[cfg(test)]
mod tests {
    use super::*;
    use crate::between::MODEL;

    #[test]
    fn lines_are_read() {
        let asks = |text| line(text).map(|line| (line.asks, line.i, line.found));
        assert_eq!(asks("nonlinearity 74 9 5 1 32"), Some((Asks::Of(Figure::Nonlinearity), 32, vec![74, 9, 5, 1])));
        assert_eq!(asks("autocorrelation 96 9 5 32"), Some((Asks::Of(Figure::Autocorrelation), 32, vec![96, 9, 5])));
        assert_eq!(asks("distance 72 9 1 32 1"), Some((Asks::Of(Figure::Distance(1)), 32, vec![72, 9, 1])));
        assert_eq!(asks("sum 2132774912 9 1 2 3 4 0 32"), Some((Asks::Sum, 32, vec![2132774912, 9, 1, 2, 3, 4, 0])));
        for other in
            ["", "box 8 32", "xor 2 1 5", "bic none", "degree 4 9 32", "nonlinearity", "sum 1 2 3", "distance 4", "nonlinearity 1 2 3 x 5"]
        {
            assert_eq!(line(other), None, "{other}");
        }
    }

    #[test]
    fn parts_hold_their_combination() {
        assert_eq!([part_with(1, 32, 16), part_with(15, 32, 16), part_with(16, 32, 16)], [(1, 15), (1, 15), (16, 31)]);
        assert_eq!(part_with(u32::MAX, 32, 1 << 20), (0xfff0_0000, u32::MAX));
    }

    /// Another figure, or another witness than the first, is noticed.
    #[test]
    fn a_wrong_line_is_noticed() {
        let differences = |found: &[u32]| {
            let mut run = Run::new("a test", 1);
            let line = Line { asks: Asks::Of(Figure::Distance(1)), i: 2, found: found.to_vec() };
            check(&mut run, &MODEL, "cast-s1", &line);
            run.tally.differences
        };
        let mut run = Run::new("a test", 1);
        let asked = Line { asks: Asks::Of(Figure::Distance(1)), i: 2, found: Vec::new() };
        let found = part(&mut run, &MODEL, "cast-s1", &asked, (1, 65535)).expect("combinations of two outputs lie there");
        assert_eq!(differences(&found), 0);
        for wrong in [[found[0] + 1, found[1], found[2]], [found[0], found[1] + 1, found[2]], [found[0], found[1], found[2] ^ 3]] {
            assert_eq!(differences(&wrong), 1);
        }
    }
}
