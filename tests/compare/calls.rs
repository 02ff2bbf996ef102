//! Every call made twice, once to the library and once to the model, and compared: the number
//! returned, what each array that was to be written holds afterwards, and that no array that was
//! only to be read has changed. The library gets a copy of what the model reads.
use crate::lent::{Kept, Lent, Pattern};
use crate::pages;
use satmegwo::slices as library;
use second_model::model::{self, Answer};
use second_model::random::Random;
use std::collections::BTreeMap;
use std::fmt::Debug;
use std::sync::atomic::{AtomicBool, Ordering};

/// How many comparisons of one call there were, by what the model says.
#[derive(Clone, Copy, Debug, Default, PartialEq)]
pub struct Compared {
    pub accepted: u64,
    pub refused: u64,
}

/// What was counted so far.
#[derive(Clone, Debug, Default)]
pub struct Tally {
    /// Comparisons with the model, by call.
    pub calls: BTreeMap<&'static str, Compared>,
    /// Comparisons of what several calls say, by law: each could fail, too.
    pub laws: BTreeMap<String, u64>,
    pub differences: u64,
}

impl Tally {
    pub fn comparisons(&self) -> u64 {
        let of_calls: u64 = self.calls.values().map(|one| one.accepted + one.refused).sum();
        of_calls + self.laws.values().sum::<u64>()
    }

    pub fn add(&mut self, other: &Tally) {
        for (&call, more) in &other.calls {
            let one = self.calls.entry(call).or_default();
            one.accepted += more.accepted;
            one.refused += more.refused;
        }
        for (law, more) in &other.laws {
            *self.laws.entry(law.clone()).or_default() += more;
        }
        self.differences += other.differences;
    }
}

/// So many differences of a part are printed with all their arguments.
const SHOWN: u64 = 5;

/// Whether the program ends with the first difference.
pub static ENDS_WITH_THE_FIRST: AtomicBool = AtomicBool::new(false);

/// One run of a part: its generator and what was counted so far.
pub struct Run {
    pub random: Random,
    /// A part is run COUNT times, in rounds from 0. What tries every case does it once.
    pub round: u64,
    /// Which quarter of the widths has its turn where not all are run: it changes with the seed.
    pub turn: u32,
    pub tally: Tally,
    part: String,
    call: &'static str,
}

type LibraryFigures = fn(u32, u32, &[u32], &mut [u32]) -> u32;
type ModelFigures = fn(u32, u32, &[u32], usize) -> Answer<Vec<u32>>;

/// A call that takes a box and gives nothing but figures.
pub struct FigureCall {
    pub name: &'static str,
    /// The right length of the lent array.
    pub figures: usize,
    library: LibraryFigures,
    model: ModelFigures,
}

pub const FIGURE_CALLS: [FigureCall; 3] = [
    FigureCall {
        name: "largest_cell",
        figures: 3,
        library: library::largest_cell,
        model: |n, m, rows, len| model::largest_cell(n, m, rows, len).map(Vec::from),
    },
    FigureCall {
        name: "complete",
        figures: 1,
        library: library::complete,
        model: |n, m, rows, len| model::complete(n, m, rows, len).map(Vec::from),
    },
    FigureCall {
        name: "bijective",
        figures: 1,
        library: library::bijective,
        model: |n, m, rows, len| model::bijective(n, m, rows, len).map(Vec::from),
    },
];

type LimitedLibraryFigures = fn(u32, u32, &[u32], u32, &mut [u32]) -> u32;
type LimitedModelFigures = fn(u32, u32, &[u32], u32, usize) -> Answer<Vec<u32>>;

/// A call that takes a box and a limit, and gives nothing but figures.
pub struct LimitedCall {
    pub name: &'static str,
    /// The right length of the lent array.
    pub figures: usize,
    library: LimitedLibraryFigures,
    model: LimitedModelFigures,
}

pub const NONLINEARITY: LimitedCall = LimitedCall {
    name: "nonlinearity",
    figures: 4,
    library: library::nonlinearity,
    model: |n, m, rows, i, len| model::nonlinearity(n, m, rows, i, len).map(Vec::from),
};

pub const AUTOCORRELATION: LimitedCall = LimitedCall {
    name: "autocorrelation",
    figures: 3,
    library: library::autocorrelation,
    model: |n, m, rows, i, len| model::autocorrelation(n, m, rows, i, len).map(Vec::from),
};

pub const DEGREE: LimitedCall = LimitedCall {
    name: "degree",
    figures: 2,
    library: library::degree,
    model: |n, m, rows, i, len| model::degree(n, m, rows, i, len).map(Vec::from),
};

pub const LIMITED_CALLS: [LimitedCall; 3] = [NONLINEARITY, AUTOCORRELATION, DEGREE];

impl Run {
    pub fn new(part: &str, seed: u64) -> Run {
        let turn = (seed % 4) as u32;
        Run { random: Random::of_part(seed, part), round: 0, turn, tally: Tally::default(), part: part.to_string(), call: "no call" }
    }

    /// Names the call whose comparison comes next.
    pub fn calling(&mut self, name: &'static str) {
        self.call = name;
        pages::calling(name);
    }

    /// An array to be written.
    pub fn lend<T: Pattern>(&mut self, length: usize) -> Lent<T> {
        Lent::new(length, &mut self.random)
    }

    /// An array to be read: a copy, so that the model reads what was there before the call.
    pub fn copy<T: Pattern>(&mut self, content: &[T]) -> Lent<T> {
        Lent::of(content, &mut self.random)
    }

    /// Counts a comparison of the call that was named with the model, which refuses it or not.
    pub fn compared(&mut self, refused: bool, same: bool, describe: impl FnOnce() -> String) {
        let one = self.tally.calls.entry(self.call).or_default();
        *(if refused { &mut one.refused } else { &mut one.accepted }) += 1;
        self.tell(same, describe);
    }

    /// Counts a comparison of what several calls say.
    pub fn law(&mut self, name: &str, same: bool, describe: impl FnOnce() -> String) {
        *self.tally.laws.entry(name.to_string()).or_default() += 1;
        self.tell(same, describe);
    }

    /// The same of a law that has no other name than the part's.
    pub fn count(&mut self, same: bool, describe: impl FnOnce() -> String) {
        self.law(&self.part.clone(), same, describe);
    }

    /// Prints a difference.
    fn tell(&mut self, same: bool, describe: impl FnOnce() -> String) {
        if !same {
            self.tally.differences += 1;
            if self.tally.differences <= SHOWN {
                println!("difference in '{}': {}", self.part, describe());
            }
            if ENDS_WITH_THE_FIRST.load(Ordering::Relaxed) {
                std::process::exit(1);
            }
        }
    }

    /// Judges a call that reads some arrays and writes one. What the library wrote is given back
    /// where it says that it did.
    pub fn judge<T: Pattern>(
        &mut self,
        code: u32,
        read: &[&dyn Kept],
        lent: &Lent<T>,
        wanted: &Answer<Vec<T>>,
        arguments: impl FnOnce() -> String,
    ) -> Option<Vec<T>> {
        let same = match wanted {
            Ok(content) => code == 0 && lent.holds(content),
            Err(number) => code == *number && lent.untouched(),
        };
        let kept = all_kept(read);
        let call = self.call;
        self.compared(wanted.is_err(), same && kept, || report(call, &arguments(), code, kept, lent.content(), wanted));
        (code == 0).then(|| lent.content().to_vec())
    }

    pub fn spectrum(&mut self, n: u32, table: &[u8], out_len: usize) {
        self.calling("spectrum");
        let (read, mut out) = (self.copy(table), self.lend(out_len));
        let code = library::spectrum(n, read.content(), out.part());
        let wanted = model::spectrum(n, table, out_len);
        self.judge(code, &[&read], &out, &wanted, || format!("n = {n}, table = {table:?}, out_len = {out_len}"));
    }

    pub fn inverse_spectrum(&mut self, n: u32, values: &[i32], table_len: usize) {
        self.calling("inverse_spectrum");
        let (read, mut table) = (self.copy(values), self.lend(table_len));
        let code = library::inverse_spectrum(n, read.content(), table.part());
        let wanted = model::inverse_spectrum(n, values, table_len);
        self.judge(code, &[&read], &table, &wanted, || format!("n = {n}, values = {values:?}, table_len = {table_len}"));
    }

    pub fn component_spectrum(&mut self, n: u32, m: u32, rows: &[u32], c: u32, out_len: usize) {
        self.calling("component_spectrum");
        let (read, mut out) = (self.copy(rows), self.lend(out_len));
        let code = library::component_spectrum(n, m, read.content(), c, out.part());
        let wanted = model::component_spectrum(n, m, rows, c, out_len);
        self.judge(code, &[&read], &out, &wanted, || format!("{}, c = {c}, out_len = {out_len}", shown(n, m, rows)));
    }

    pub fn figures(&mut self, call: &FigureCall, n: u32, m: u32, rows: &[u32], figures_len: usize) -> Option<Vec<u32>> {
        self.calling(call.name);
        let (read, mut figures) = (self.copy(rows), self.lend(figures_len));
        let code = (call.library)(n, m, read.content(), figures.part());
        let wanted = (call.model)(n, m, rows, figures_len);
        self.judge(code, &[&read], &figures, &wanted, || format!("{}, figures_len = {figures_len}", shown(n, m, rows)))
    }

    pub fn limited_figures(&mut self, call: &LimitedCall, n: u32, m: u32, rows: &[u32], i: u32, figures_len: usize) -> Option<Vec<u32>> {
        let wanted = (call.model)(n, m, rows, i, figures_len);
        self.limited_figures_known(call, n, m, rows, i, figures_len, wanted)
    }

    /// The same where the model's answer is known already.
    #[allow(clippy::too_many_arguments)]
    pub fn limited_figures_known(
        &mut self,
        call: &LimitedCall,
        n: u32,
        m: u32,
        rows: &[u32],
        i: u32,
        figures_len: usize,
        wanted: Answer<Vec<u32>>,
    ) -> Option<Vec<u32>> {
        self.calling(call.name);
        let (read, mut figures) = (self.copy(rows), self.lend(figures_len));
        let code = (call.library)(n, m, read.content(), i, figures.part());
        self.judge(code, &[&read], &figures, &wanted, || format!("{}, i = {i}, figures_len = {figures_len}", shown(n, m, rows)))
    }

    /// The arguments of the addition besides the box are given as (j, w, b).
    pub fn add_to_column(&mut self, n: u32, m: u32, rows: &[u32], (j, w, b): (u32, u32, u32), out_len: usize) -> Option<Vec<u32>> {
        self.calling("add_to_column");
        let (read, mut out) = (self.copy(rows), self.lend(out_len));
        let code = library::add_to_column(n, m, read.content(), j, w, b, out.part());
        let wanted = model::add_to_column(n, m, rows, j, w, b, out_len);
        self.judge(code, &[&read], &out, &wanted, || format!("{}, j = {j}, w = {w}, b = {b}, out_len = {out_len}", shown(n, m, rows)))
    }

    pub fn xor_row(&mut self, n: u32, m: u32, rows: &[u32], a: u32, counts_len: usize) {
        self.calling("xor_row");
        let (read, mut counts) = (self.copy(rows), self.lend(counts_len));
        let code = library::xor_row(n, m, read.content(), a, counts.part());
        let wanted = model::xor_row(n, m, rows, a, counts_len);
        self.judge(code, &[&read], &counts, &wanted, || format!("{}, a = {a}, counts_len = {counts_len}", shown(n, m, rows)));
    }

    pub fn largest_cells(&mut self, n: u32, m: u32, rows: &[u32], list_len: usize, figures_len: usize) {
        let wanted = model::largest_cells(n, m, rows, list_len, figures_len);
        self.largest_cells_known(n, m, rows, list_len, figures_len, wanted);
    }

    /// The same where the model's answer is known already. The list is compared entry by entry, in
    /// its order, and past the cells nothing may change.
    pub fn largest_cells_known(&mut self, n: u32, m: u32, rows: &[u32], list_len: usize, figures_len: usize, wanted: Answer<Vec<u64>>) {
        self.calling("largest_cells");
        let (read, mut list, mut figures) = (self.copy(rows), self.lend(list_len), self.lend(figures_len));
        let code = library::largest_cells(n, m, read.content(), list.part(), figures.part());
        let same = match &wanted {
            Ok(cells) => code == 0 && figures.holds(&[cells.len() as u32]) && holds_first(&list, cells),
            Err(number) => code == *number && list.untouched() && figures.untouched(),
        };
        let kept = read.untouched();
        self.compared(wanted.is_err(), same && kept, || {
            let arguments = format!("{}, list_len = {list_len}, figures_len = {figures_len}", shown(n, m, rows));
            report("largest_cells", &arguments, code, kept, (list.content(), figures.content()), &wanted)
        });
    }

    /// The lengths are those of the list and of the figures.
    pub fn nearest_pairs(&mut self, n: u32, m: u32, rows: &[u32], i: u32, lengths: (usize, usize)) {
        let wanted = model::nearest_pairs(n, m, rows, i, lengths.0, lengths.1);
        self.nearest_pairs_known(n, m, rows, i, lengths, wanted);
    }

    /// The same where the model's answer is known already. Past the pairs nothing may change.
    pub fn nearest_pairs_known(&mut self, n: u32, m: u32, rows: &[u32], i: u32, lengths: (usize, usize), wanted: Answer<Vec<u64>>) {
        self.calling("nearest_pairs");
        let (read, mut list, mut figures) = (self.copy(rows), self.lend(lengths.0), self.lend(lengths.1));
        let code = library::nearest_pairs(n, m, read.content(), i, list.part(), figures.part());
        let same = match &wanted {
            Ok(pairs) => code == 0 && figures.holds(&[pairs.len() as u64]) && holds_first(&list, pairs),
            Err(number) => code == *number && list.untouched() && figures.untouched(),
        };
        let kept = read.untouched();
        self.compared(wanted.is_err(), same && kept, || {
            let arguments = format!("{}, i = {i}, lengths {lengths:?}", shown(n, m, rows));
            report("nearest_pairs", &arguments, code, kept, (list.content(), figures.content()), &wanted)
        });
    }

    pub fn dynamic_distance(&mut self, n: u32, m: u32, rows: &[u32], order: (u32, u32), figures_len: usize) -> Option<Vec<u32>> {
        let wanted = model::dynamic_distance(n, m, rows, order.0, order.1, figures_len).map(Vec::from);
        self.dynamic_distance_known(n, m, rows, order, figures_len, wanted)
    }

    /// The same where the model's answer is known already.
    pub fn dynamic_distance_known(
        &mut self,
        n: u32,
        m: u32,
        rows: &[u32],
        (i, j): (u32, u32),
        figures_len: usize,
        wanted: Answer<Vec<u32>>,
    ) -> Option<Vec<u32>> {
        self.calling("dynamic_distance");
        let (read, mut figures) = (self.copy(rows), self.lend(figures_len));
        let code = library::dynamic_distance(n, m, read.content(), i, j, figures.part());
        self.judge(code, &[&read], &figures, &wanted, || format!("{}, i = {i}, j = {j}, figures_len = {figures_len}", shown(n, m, rows)))
    }

    pub fn normal_form(&mut self, n: u32, table: &[u8], out_len: usize) {
        self.calling("normal_form");
        let (read, mut out) = (self.copy(table), self.lend(out_len));
        let code = library::normal_form(n, read.content(), out.part());
        let wanted = model::normal_form(n, table, out_len);
        self.judge(code, &[&read], &out, &wanted, || format!("n = {n}, table = {table:?}, out_len = {out_len}"));
    }

    pub fn enlarge_column(&mut self, n: u32, table: &[u8], (k, a): (u32, u32), out_len: usize) {
        self.calling("enlarge_column");
        let (read, mut out) = (self.copy(table), self.lend(out_len));
        let code = library::enlarge_column(n, read.content(), k, a, out.part());
        let wanted = model::enlarge_column(n, table, k, a, out_len);
        self.judge(code, &[&read], &out, &wanted, || format!("n = {n}, table = {table:?}, k = {k}, a = {a}, out_len = {out_len}"));
    }

    pub fn enlarge_box(&mut self, n: u32, rows: &[u32], table: &[u8], k: u32, out_len: usize) {
        self.calling("enlarge_box");
        let (read_rows, read_table, mut out) = (self.copy(rows), self.copy(table), self.lend(out_len));
        let code = library::enlarge_box(n, read_rows.content(), read_table.content(), k, out.part());
        let wanted = model::enlarge_box(n, rows, table, k, out_len);
        self.judge(code, &[&read_rows, &read_table], &out, &wanted, || {
            format!("n = {n}, rows = {rows:?}, table = {table:?}, k = {k}, out_len = {out_len}")
        });
    }

    pub fn bent_function(&mut self, n: u32, permutation: &[u8], table: &[u8], out_len: usize) {
        self.calling("bent_function");
        let (read_permutation, read_table, mut out) = (self.copy(permutation), self.copy(table), self.lend(out_len));
        let code = library::bent_function(n, read_permutation.content(), read_table.content(), out.part());
        let wanted = model::bent_function(n, permutation, table, out_len);
        self.judge(code, &[&read_permutation, &read_table], &out, &wanted, || {
            format!("n = {n}, permutation = {permutation:?}, table = {table:?}, out_len = {out_len}")
        });
    }

    pub fn read_box(&mut self, file: &[u8], rows_len: usize, figures_len: usize) {
        self.calling("read_box");
        let (read, mut rows, mut figures) = (self.copy(file), self.lend(rows_len), self.lend(figures_len));
        let code = library::read_box(read.content(), rows.part(), figures.part());
        let wanted = model::read_box(file, rows_len, figures_len);
        let same = match &wanted {
            Ok(found) => code == 0 && rows.holds(&found.rows) && figures.holds(&[found.n, found.m]),
            Err(number) => code == *number && rows.untouched() && figures.untouched(),
        };
        let kept = read.untouched();
        self.compared(wanted.is_err(), same && kept, || {
            let arguments = format!("file = {file:?}, rows_len = {rows_len}, figures_len = {figures_len}");
            report("read_box", &arguments, code, kept, (rows.content(), figures.content()), &wanted)
        });
    }
}

fn all_kept(read: &[&dyn Kept]) -> bool {
    read.iter().all(|one| one.untouched())
}

/// The first entries of a list are these, and those past them stayed.
fn holds_first(list: &Lent<u64>, entries: &[u64]) -> bool {
    list.content()[..entries.len()] == *entries && list.untouched_from(entries.len())
}

fn shown(n: u32, m: u32, rows: &[u32]) -> String {
    format!("n = {n}, m = {m}, rows = {rows:?}")
}

fn report(call: &str, arguments: &str, code: u32, kept: bool, content: impl Debug, wanted: impl Debug) -> String {
    let read = if kept { "" } else { "writes to what it only reads, " };
    format!("{call} {arguments}: the library {read}returns {code} and leaves {content:?}; the model says {wanted:?}")
}

#[cfg(test)]
mod tests {
    use super::*;

    /// A call with one array to read and one to write; `meddle` is what the library does.
    fn judged(code: u32, wanted: Answer<Vec<u32>>, meddle: impl FnOnce(&mut Lent<u32>, &mut Lent<u32>)) -> Tally {
        let mut run = Run::new("a test", 1);
        let (mut read, mut lent) = (run.copy(&[1, 2, 3]), run.copy(&[7, 7]));
        meddle(&mut read, &mut lent);
        run.calling("a call");
        run.judge(code, &[&read], &lent, &wanted, String::new);
        run.tally
    }

    fn writes(content: [u32; 2]) -> impl FnOnce(&mut Lent<u32>, &mut Lent<u32>) {
        move |_, lent| lent.part().copy_from_slice(&content)
    }

    #[test]
    fn what_is_as_the_model_says_is_no_difference() {
        assert_eq!(judged(0, Ok(vec![4, 5]), writes([4, 5])).differences, 0);
        assert_eq!(judged(6, Err(6), |_, _| ()).differences, 0);
    }

    #[test]
    fn every_planted_difference_is_noticed() {
        assert_eq!(judged(0, Ok(vec![4, 5]), writes([4, 6])).differences, 1, "another content");
        assert_eq!(judged(0, Ok(vec![4, 5]), |_, _| ()).differences, 1, "nothing was written");
        assert_eq!(judged(6, Ok(vec![4, 5]), writes([4, 5])).differences, 1, "refused, not accepted");
        assert_eq!(judged(0, Err(6), |_, _| ()).differences, 1, "accepted, not refused");
        assert_eq!(judged(7, Err(6), |_, _| ()).differences, 1, "another number");
        assert_eq!(judged(6, Err(6), |_, lent| lent.part()[1] = 8).differences, 1, "refused and written");
        assert_eq!(judged(6, Err(6), |read, _| read.part()[0] = 0).differences, 1, "refused, and what is read was written");
        let reads_and_writes = |read: &mut Lent<u32>, lent: &mut Lent<u32>| {
            read.part()[2] = 0;
            lent.part().copy_from_slice(&[4, 5]);
        };
        assert_eq!(judged(0, Ok(vec![4, 5]), reads_and_writes).differences, 1, "accepted, and what is read was written");
    }

    #[test]
    fn accepted_and_refused_calls_are_counted_apart() {
        let mut tally = judged(0, Ok(vec![4, 5]), writes([4, 5]));
        tally.add(&judged(6, Err(6), |_, _| ()));
        tally.add(&judged(7, Err(6), |_, _| ()));
        assert_eq!(tally.calls["a call"], Compared { accepted: 1, refused: 2 });
        assert_eq!((tally.comparisons(), tally.differences), (3, 1));
    }

    #[test]
    fn a_broken_law_is_noticed() {
        let mut run = Run::new("a test", 1);
        run.law("a law", true, String::new);
        run.law("a law", false, String::new);
        run.count(false, String::new);
        assert_eq!((run.tally.laws["a law"], run.tally.laws["a test"], run.tally.differences), (2, 1, 2));
        assert_eq!(run.tally.comparisons(), 3);
    }

    #[test]
    fn entries_past_the_last_must_stay() {
        let list = |change: Option<usize>| {
            let mut lent = Lent::new(4, &mut Random::new(1));
            lent.part()[..2].copy_from_slice(&[10, 11]);
            if let Some(place) = change {
                lent.part()[place] ^= 1;
            }
            holds_first(&lent, &[10, 11])
        };
        assert!(list(None));
        assert!((0..4).all(|place| !list(Some(place))));
    }
}
