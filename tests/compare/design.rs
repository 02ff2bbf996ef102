//! `second designs`: the library's calls on a design against the model, in long histories,
//! at each bound, and on designs of damaged and of random bytes.
use crate::calls::{Run, LIMITED_CALLS};
use crate::compare::usual_limits;
use crate::guarded::design::{self as library_design, Design, Snapshot, MOST_ROWS};
use crate::parts::Work;
use satmegwo::slices as library;
use second_model::boxes::{self, KINDS};
use second_model::design::{self, Operation, MARKS};
use second_model::model::all_outputs;
use second_model::random::Random;
use std::collections::BTreeMap;

/// How many operations the histories make.
const OPERATIONS: u64 = 40_000;

/// Operations in one history.
const LENGTH: u64 = 50;

pub const PARTS: &[(&str, Work)] = &[
    ("bounds", &bounds),
    ("beginning", &beginnings),
    ("histories", &histories),
    ("swaps alone", &swaps_alone),
    ("damaged designs", &damaged_designs),
    ("random bytes", &random_bytes),
];

fn histories(run: &mut Run) {
    (0..OPERATIONS.div_ceil(LENGTH)).for_each(|_| history(run));
}

// ---------------------------------------------------------------------------
// A design beside the model's. What stands afterwards is the library's.
// ---------------------------------------------------------------------------

struct Both {
    library: Design,
    model: design::Design,
}

/// Rows as the header has them in an array: the elements past them are 0.
fn array_of(rows: &[u32]) -> [u32; MOST_ROWS] {
    std::array::from_fn(|x| rows.get(x).copied().unwrap_or(0))
}

/// What the library's design must be, every field of it: a mark that is not set is all 0.
fn whole(model: &design::Design) -> Design {
    let mark = |k| model.kept(k).map_or(Snapshot { taken: 0, rows: [0; MOST_ROWS] }, |rows| Snapshot { taken: 1, rows: array_of(rows) });
    Design { n: model.n, m: model.m, rows: array_of(model.rows()), marks: std::array::from_fn(|i| mark(i as u32 + 1)) }
}

/// Begins both; refused, neither has a box.
fn begin(run: &mut Run, n: u32, m: u32, rows: &[u32]) -> Both {
    run.calling("design_begin");
    let read = run.copy(rows);
    let outcome = library_design::begin(n, m, read.content());
    let (model, wanted) = design::Design::begin(n, m, rows);
    let same = outcome.status == wanted.err().unwrap_or(0) && outcome.design == whole(&model);
    run.compared(wanted.is_err(), same && read.untouched(), || {
        format!("begin n = {n}, m = {m}, rows = {rows:?}: {}, the model says {wanted:?}", outcome.status)
    });
    Both { library: outcome.design, model }
}

impl Both {
    fn operate(&mut self, run: &mut Run, operation: Operation) {
        run.calling(name_of(operation));
        let before = self.library;
        let outcome = library_design::operate(&before, operation);
        let wanted = self.model.operate(operation);
        let same = match wanted {
            Ok(()) => outcome.status == 0 && outcome.design == whole(&self.model),
            Err(number) => outcome.status == number && outcome.design == before,
        };
        run.compared(wanted.is_err(), same, || format!("{operation:?}: {}, the model says {wanted:?} of {:?}", outcome.status, self.model));
        self.library = outcome.design;
    }

    fn read(&self, run: &mut Run, rows_len: usize, figures_len: usize) {
        run.calling("design_read");
        let (mut rows, mut figures) = (run.lend(rows_len), run.lend(figures_len));
        let code = library_design::read(&self.library, rows.part(), figures.part());
        let wanted = self.model.read(rows_len, figures_len);
        let same = match &wanted {
            Ok((widths, box_rows)) => code == 0 && figures.holds(widths) && rows.holds(box_rows),
            Err(number) => code == *number && figures.untouched() && rows.untouched(),
        };
        run.compared(wanted.is_err(), same, || format!("read {rows_len}, {figures_len}: {code}, the model says {wanted:?}"));
    }

    /// The rows as the library gives them.
    fn rows(&self) -> Vec<u32> {
        let (mut rows, mut figures) = (vec![0; 1 << self.model.n], [0; 2]);
        assert_eq!(library_design::read(&self.library, &mut rows, &mut figures), 0);
        rows
    }

    /// The library's figure, with its witness, over combinations of at most two outputs.
    fn figure(&self, run: &mut Run) -> Vec<u32> {
        let (rows, mut found) = (run.copy(&self.rows()), run.lend(4));
        let code = library::nonlinearity(self.model.n, self.model.m, rows.content(), self.model.m.min(2), found.part());
        assert!(code == 0 && rows.untouched(), "the nonlinearity of a design's box gives {code}");
        found.content().to_vec()
    }
}

fn name_of(operation: Operation) -> &'static str {
    match operation {
        Operation::Swap(..) => "design_swap",
        Operation::Add(..) => "design_add",
        Operation::Mark(_) => "design_mark",
        Operation::Return(_) => "design_return",
    }
}

/// A box of up to eight inputs, of any kind; narrow ones more often.
fn any_begun(run: &mut Run) -> Both {
    let n = if run.random.one_in(4) { run.random.between(1, 8) } else { run.random.between(1, 4) };
    let (m, kind) = (run.random.between(1, 32), run.random.below(KINDS));
    let rows = boxes::of_kind(kind, n, m, &mut run.random);
    begin(run, n, m, &rows)
}

// ---------------------------------------------------------------------------
// Histories
// ---------------------------------------------------------------------------

/// A number from low to high, and now and then one outside.
fn around(random: &mut Random, low: u32, high: u32) -> u32 {
    match random.below(12) {
        0 => random.pick(&[low.wrapping_sub(1), high + 1, high + 2, high + 256, high + 65536, 1 << 31, u32::MAX]),
        _ => random.between(low, high),
    }
}

/// Some marks are taken more often, so that they are set again and returned to.
fn any_mark(random: &mut Random) -> u32 {
    if random.one_in(3) {
        around(random, 1, MARKS)
    } else {
        random.pick(&[1, 2, 16])
    }
}

fn any_operation(random: &mut Random, n: u32, m: u32) -> Operation {
    let last = (1 << n) - 1;
    match random.below(5) {
        0 => Operation::Swap(around(random, 0, last), around(random, 0, last)),
        1 => Operation::Add(around(random, 1, m), around(random, 0, last), around(random, 0, 1)),
        2 => Operation::Mark(any_mark(random)),
        _ => Operation::Return(any_mark(random)),
    }
}

/// One history. Besides, the figure right after a return is the one the box had when that
/// mark was last set.
fn history(run: &mut Run) {
    let mut both = any_begun(run);
    let mut figures = BTreeMap::new();
    for _ in 0..LENGTH {
        let operation = any_operation(&mut run.random, both.model.n, both.model.m);
        let before = both.model.clone();
        both.operate(run, operation);
        match operation {
            Operation::Mark(k) if (1..=MARKS).contains(&k) => {
                figures.insert(k, both.figure(run));
            }
            Operation::Return(k) if (1..=MARKS).contains(&k) && before.kept(k).is_some() => {
                let found = both.figure(run);
                run.law("the figure after a return", figures.get(&k) == Some(&found), || {
                    format!("after {operation:?} the figure is {found:?}, at the mark {:?}", figures.get(&k))
                });
            }
            _ => {}
        }
        both.read(run, 1 << both.model.n, 2);
    }
    if run.random.one_in(8) {
        every_limited_figure(run, &both);
    }
}

/// The figures of a box that a history ends with.
fn every_limited_figure(run: &mut Run, both: &Both) {
    let (n, m, rows) = (both.model.n, both.model.m, both.rows());
    for i in usual_limits(run, n, m) {
        for call in &LIMITED_CALLS {
            run.limited_figures(call, n, m, &rows, i, call.figures);
        }
    }
}

fn times(rows: &[u32]) -> BTreeMap<u32, u32> {
    let mut counted = BTreeMap::new();
    for &row in rows {
        *counted.entry(row).or_insert(0) += 1;
    }
    counted
}

/// Between two moments with only swaps each output value is given by as many inputs as
/// before. Two swaps of the same inputs leave the box, and so does a swap of equal rows.
fn swaps_alone(run: &mut Run) {
    for _ in 0..400 {
        let mut both = any_begun(run);
        let counted = times(&both.rows());
        for _ in 0..run.random.between(0, 40) {
            let last = (1 << both.model.n) - 1;
            let swap = Operation::Swap(around(&mut run.random, 0, last), around(&mut run.random, 0, last));
            both.operate(run, swap);
        }
        run.law("values after swaps", times(&both.rows()) == counted, || {
            format!("after swaps the values are {:?}, not {counted:?}", times(&both.rows()))
        });
        let (rows, x) = (both.rows(), run.random.below(1 << both.model.n));
        let equal = rows.iter().position(|&row| row == rows[x as usize]).expect("it is its own equal") as u32;
        both.operate(run, Operation::Swap(x, equal));
        run.law("a swap of equal rows", both.rows() == rows, || format!("a swap of {x} with {equal} changed {rows:?}"));
    }
}

// ---------------------------------------------------------------------------
// Bounds
// ---------------------------------------------------------------------------

/// Each argument at its bounds from both sides, for all widths; the marks before and after
/// they are set; 6 comes before 17.
fn bounds(run: &mut Run) {
    for (n, m) in (1..=8).flat_map(|n| [1, 2, 7, 8, 31, 32].map(|m| (n, m))) {
        let rows = boxes::random_rows(n, m, &mut run.random);
        let mut both = begin(run, n, m, &rows);
        let size = 1 << n;
        let far = [size, size + 1, 256, 65536, 1 << 31, u32::MAX];
        for x in [0, 1, size - 1].into_iter().chain(far) {
            for y in [0, size - 1, size, u32::MAX, x] {
                both.operate(run, Operation::Swap(x, y));
            }
            both.operate(run, Operation::Add(1, x, 0));
            both.operate(run, Operation::Add(m, x, 1));
        }
        for j in [0, 1, m, m + 1, 32, 33, 256 + m, u32::MAX] {
            for b in [0, 1, 2, 256, u32::MAX] {
                both.operate(run, Operation::Add(j, size - 1, b));
            }
        }
        marks_at_their_bounds(run, &mut both);
        lengths(run, &both);
    }
}

fn marks_at_their_bounds(run: &mut Run, both: &mut Both) {
    let outside = [0, 17, 18, 256 + 1, 65536 + 1, u32::MAX];
    for k in (1..=MARKS).chain(outside) {
        both.operate(run, Operation::Return(k));
        both.operate(run, Operation::Mark(k));
        both.operate(run, Operation::Swap(0, 1));
        both.operate(run, Operation::Return(k));
        both.operate(run, Operation::Swap(0, 1));
    }
    for k in (1..=MARKS).rev() {
        both.operate(run, Operation::Return(k));
        both.operate(run, Operation::Return(k));
    }
}

fn lengths(run: &mut Run, both: &Both) {
    let size = 1 << both.model.n;
    for rows_len in [size, 0, 1, size - 1, size + 1, 2 * size, 256, 257] {
        for figures_len in [2, 0, 1, 3] {
            both.read(run, rows_len, figures_len);
        }
    }
}

/// Without a box every operation is refused by 6 and leaves the design so, and reading by 7.
fn without_a_box(run: &mut Run, both: &mut Both) {
    let operations = [
        Operation::Swap(0, 0),
        Operation::Swap(0, 1),
        Operation::Add(1, 0, 0),
        Operation::Add(0, 0, 0),
        Operation::Mark(1),
        Operation::Mark(16),
        Operation::Mark(17),
        Operation::Return(1),
        Operation::Return(16),
        Operation::Return(0),
    ];
    for operation in operations {
        both.operate(run, operation);
    }
    for (rows_len, figures_len) in [(0, 2), (1, 2), (2, 2), (256, 2), (1, 1), (1, 0)] {
        both.read(run, rows_len, figures_len);
    }
}

/// Refusals 1 to 4, from both sides and in their order.
fn beginnings(run: &mut Run) {
    for n in [0, 1, 2, 3, 8, 9, 10, 31, 32, 33, 256 + 2, u32::MAX] {
        for m in [0, 1, 2, 16, 31, 32, 33, 256 + 2, u32::MAX] {
            let size = 1usize << n.min(10);
            let right: Vec<u32> = (0..size).map(|_| run.random.draw() as u32 & all_outputs(m.min(32))).collect();
            let mut large = right.clone();
            large[size / 2] = all_outputs(m.min(32)).saturating_add(1);
            let longer = [&right[..], &[0]].concat();
            for rows in [&right[..], &right[..size - 1], &longer, &[], &large, &large[..size - 1]] {
                let mut both = begin(run, n, m, rows);
                if !both.model.has_box() {
                    without_a_box(run, &mut both);
                }
            }
        }
    }
}

// ---------------------------------------------------------------------------
// Designs that anything else made or changed. The answer is free: the calls end, write
// nothing outside, and do not depend on what lies around. A refused operation hands the
// design back unchanged, and a refused reading writes to no array.
// ---------------------------------------------------------------------------

fn every_call_ends(run: &mut Run, design: &Design) {
    for _ in 0..4 {
        let operation = any_operation(&mut run.random, design.n.clamp(1, 8), design.m.clamp(1, 32));
        let outcome = library_design::operate(design, operation);
        let again = library_design::operate(&Box::new(*design), operation);
        let kept = outcome.status == 0 || outcome.design == *design;
        run.count(outcome == again && kept, || format!("{operation:?} of a damaged design: {}, then {}", outcome.status, again.status));
    }
    let rows_len = run.random.pick(&[0, 1, 2, 16, 255, 256, 257, 1 << design.n.min(10)]);
    let (mut rows, mut figures) = (run.lend::<u32>(rows_len), run.lend::<u32>(2));
    let code = library_design::read(design, rows.part(), figures.part());
    let inside = rows.untouched_from(rows_len) && figures.untouched_from(2);
    let kept = code == 0 || rows.untouched() && figures.untouched();
    run.count(inside && kept, || format!("reading a damaged design: {code}, and it writes where it may not"));
}

/// One thing changed in a design that the calls made.
fn damaged_designs(run: &mut Run) {
    for _ in 0..4000 {
        let mut both = any_begun(run);
        for _ in 0..run.random.below(6) {
            let operation = any_operation(&mut run.random, both.model.n, both.model.m);
            both.operate(run, operation);
        }
        let (mut design, random) = (both.library, &mut run.random);
        let (place, mark) = (random.below(256) as usize, random.below(16) as usize);
        match random.below(5) {
            0 => design.n = random.pick(&[0, 1, 8, 9, 12, 13, 14, 19, 31, 32, 33, 64, u32::MAX]),
            1 => design.m = random.pick(&[0, 1, 32, 33, 64, u32::MAX]),
            2 => design.rows[place] = random.draw() as u32,
            3 => design.marks[mark].taken = random.pick(&[0, 1, 2, 256, u32::MAX]),
            _ => design.marks[mark].rows[place] = random.draw() as u32,
        }
        every_call_ends(run, &design);
    }
}

fn random_rows(random: &mut Random) -> [u32; MOST_ROWS] {
    std::array::from_fn(|_| random.draw() as u32)
}

fn random_bytes(run: &mut Run) {
    for _ in 0..4000 {
        let random = &mut run.random;
        let (n, m) = (random.draw() as u32, random.draw() as u32);
        let small = random.one_in(2);
        let design = Design {
            n: if small { n % 12 } else { n },
            m: if small { m % 40 } else { m },
            rows: random_rows(random),
            marks: std::array::from_fn(|_| Snapshot { taken: random.draw() as u32 % 3, rows: random_rows(random) }),
        };
        every_call_ends(run, &design);
    }
}

#[cfg(test)]
mod tests {
    use super::*;

    /// A design of two inputs with mark 3 set.
    fn both() -> Both {
        let mut run = Run::new("a test", 1);
        let mut both = any_begun(&mut run);
        while both.model.n != 2 {
            both = any_begun(&mut run);
        }
        both.operate(&mut run, Operation::Mark(3));
        both.operate(&mut run, Operation::Swap(0, 2));
        assert_eq!(run.tally.differences, 0);
        both
    }

    #[test]
    fn every_planted_difference_is_noticed() {
        let changes: [fn(&mut Design); 10] = [
            |design| design.n += 1,
            |design| design.m += 1,
            |design| design.rows[3] ^= 1,
            |design| design.rows[4] ^= 1,
            |design| design.rows[255] ^= 1,
            |design| design.marks[2].taken = 0,
            |design| design.marks[2].rows[0] ^= 1,
            |design| design.marks[2].rows[4] ^= 1,
            |design| design.marks[3].taken = 2,
            |design| design.marks[15].rows[255] ^= 1,
        ];
        for (number, change) in changes.iter().enumerate() {
            let mut both = both();
            assert!(both.library == whole(&both.model));
            change(&mut both.library);
            assert!(both.library != whole(&both.model), "change {number}");
        }
    }
}
