//! The call of document 02, section 10, against the model: all small boxes, all widths, whole
//! climbs, every refusal from both sides and in its order, and damaged arguments.
use crate::calls::{Run, NONLINEARITY};
use satmegwo::slices as library;
use second_model::boxes::{self, KINDS};
use second_model::model::{all_outputs, Answer};
use second_model::swaps::{self, MOST_OUTPUTS};

/// How many damaged argument sets there are.
const DAMAGED: u64 = 1000;

pub fn all(run: &mut Run) {
    if run.round == 0 {
        all_small_boxes(run);
    }
    all_widths(run);
    whole_figures(run);
    climbs(run);
    wrong_widths(run);
    wrong_lengths(run);
    largest_rows(run);
    checks_one_after_the_other(run);
    for _ in 0..DAMAGED {
        damaged(run);
    }
}

impl Run {
    fn raising_swap(&mut self, n: u32, m: u32, rows: &[u32], figures_len: usize) -> Option<Vec<u32>> {
        let wanted = swaps::raising_swap(n, m, rows, figures_len).map(Vec::from);
        self.raising_swap_known(n, m, rows, figures_len, wanted)
    }

    fn raising_swap_known(&mut self, n: u32, m: u32, rows: &[u32], figures_len: usize, wanted: Answer<Vec<u32>>) -> Option<Vec<u32>> {
        self.calling("raising_swap");
        let (read, mut figures) = (self.copy(rows), self.lend(figures_len));
        let code = library::raising_swap(n, m, read.content(), figures.part());
        self.judge(code, &[&read], &figures, &wanted, || format!("n = {n}, m = {m}, rows = {rows:?}, figures_len = {figures_len}"))
    }
}

/// Every box of these widths, by brute force.
fn all_small_boxes(run: &mut Run) {
    for (n, m) in [(1, 1), (1, 2), (1, 3), (1, 6), (2, 1), (2, 2), (2, 3), (3, 1), (3, 2)] {
        let bits = m << n;
        for number in 0..1u32 << bits {
            let rows: Vec<u32> = (0..1 << n).map(|x| number >> (m * x) & all_outputs(m)).collect();
            run.raising_swap(n, m, &rows, 4);
        }
    }
}

fn all_widths(run: &mut Run) {
    for (n, m) in (1..=8).flat_map(|n| (1..=MOST_OUTPUTS).map(move |m| (n, m))) {
        for kind in 0..KINDS {
            let rows = boxes::of_kind(kind, n, m, &mut run.random);
            run.raising_swap(n, m, &rows, 4);
        }
    }
}

/// Above five inputs the model does not count a swap to the end that one pair shows not to raise.
/// Here every swap's whole figure is counted.
fn whole_figures(run: &mut Run) {
    for (n, m) in [(6, 6), (8, 2)] {
        let rows = boxes::random_rows(n, m, &mut run.random);
        let wanted = swaps::raising_swap_by_definition(n, m, &rows);
        run.raising_swap_known(n, m, &rows, 4, Ok(wanted.to_vec()));
    }
}

/// From a random permutation, step by step, until no swap raises it any more. Each step's
/// figure is the nonlinearity that the library then says. A figure can rise so often only.
fn climbs(run: &mut Run) {
    for n in [3, 4, 5, 5, 6, 6, 7, 8] {
        let mut rows: Vec<u32> = boxes::random_permutation(n, &mut run.random).into_iter().map(u32::from).collect();
        for _ in 0..1 << n {
            let Some(step) = run.raising_swap(n, n, &rows, 4).filter(|step| step[0] == 1 && step[1].max(step[2]) < 1 << n) else {
                break;
            };
            rows.swap(step[1] as usize, step[2] as usize);
            let later = run.limited_figures(&NONLINEARITY, n, n, &rows, n, 4);
            run.law("the figure after a raising swap", later.as_ref().map(|found| found[0]) == Some(step[3]), || {
                format!("the step {step:?} leads to {rows:?} with {later:?}")
            });
        }
    }
}

/// 2^n where that is an array one might lend, else 4.
fn row_count(n: u32) -> usize {
    match n {
        0..=10 => 1 << n,
        _ => 4,
    }
}

fn wrong_widths(run: &mut Run) {
    let wide = [0, 1, 2, 3, 8, 9, 10, 31, 32, 33, 64, 256 + 3, 65536 + 3, u32::MAX];
    let outputs = [0, 1, 2, 7, 8, 9, 10, 16, 17, 31, 32, 33, 64, 256 + 3, 65536 + 3, u32::MAX];
    for (n, m) in wide.into_iter().flat_map(|n| outputs.map(|m| (n, m))) {
        let rows: Vec<u32> = (0..row_count(n)).map(|_| run.random.draw() as u32 & all_outputs(m.min(32))).collect();
        run.raising_swap(n, m, &rows, 4);
    }
}

fn wrong_lengths(run: &mut Run) {
    for (n, m) in (1..=8).flat_map(|n| [1, 2, 7, 8].map(|m| (n, m))) {
        let right = 1 << n;
        for length in [right - 1, right + 1, 0, right / 2, right * 2] {
            run.raising_swap(n, m, &vec![1; length], 4);
        }
        let rows = boxes::random_rows(n, m, &mut run.random);
        for length in [0, 1, 3, 5, 8] {
            run.raising_swap(n, m, &rows, length);
        }
    }
}

/// Row 2^m - 1 is taken and 2^m is not, wherever it stands.
fn largest_rows(run: &mut Run) {
    for (n, m) in (1..=5).flat_map(|n| (1..=MOST_OUTPUTS).map(move |m| (n, m))) {
        for place in [0, (1 << n) - 1, run.random.below(1 << n) as usize] {
            for row in [all_outputs(m), all_outputs(m) + 1, 1 << 31, u32::MAX] {
                let mut rows = boxes::random_rows(n, m, &mut run.random);
                rows[place] = row;
                run.raising_swap(n, m, &rows, 4);
            }
        }
    }
}

/// At first everything is wrong, then one argument after the other is put right, in the order
/// of the checks: 1, 2, 3, 4, 7, and nothing.
fn checks_one_after_the_other(run: &mut Run) {
    for right in 0..=5 {
        for (inputs, outputs) in [(1, 1), (1, 8), (2, 3), (3, 8), (5, 5)] {
            let n = if right >= 1 { inputs } else { 9 };
            let m = if right >= 2 { outputs } else { 9 };
            let short = usize::from(right < 3);
            let mut rows = boxes::random_rows(inputs, outputs, &mut run.random);
            if right < 4 {
                rows[0] = 1 << outputs;
            }
            let more = usize::from(right < 5);
            run.raising_swap(n, m, &rows[..rows.len() - short], 4 + more);
        }
    }
}

fn damaged(run: &mut Run) {
    let (right_n, right_m, kind) = (run.random.between(1, 4), run.random.between(1, 8), run.random.below(KINDS));
    let mut rows = boxes::of_kind(kind, right_n, right_m, &mut run.random);
    let other = |run: &mut Run, right: u32| match run.random.below(5) {
        0 => run.random.pick(&[0, right - 1, right + 1, 8, 9, 16, 32, 256 + right, u32::MAX]),
        _ => right,
    };
    let (n, m) = (other(run, right_n), other(run, right_m));
    if run.random.one_in(6) {
        rows.resize(run.random.below(40) as usize, 0);
    }
    if run.random.one_in(6) && !rows.is_empty() {
        let place = run.random.below(rows.len() as u32) as usize;
        rows[place] = all_outputs(right_m) + 1;
    }
    let figures = if run.random.one_in(6) { run.random.below(8) as usize } else { 4 };
    run.raising_swap(n, m, &rows, figures);
}
