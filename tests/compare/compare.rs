//! `second compare`: every call of the library against the model.
use crate::calls::{Run, AUTOCORRELATION, DEGREE, FIGURE_CALLS, LIMITED_CALLS, NONLINEARITY};
use crate::parts::Work;
use crate::{
    additions, between, bounds, damage, far, limits, maximal, meeting, nearest, nowhere, orders, packing, rounds, swaps, whole, written,
};
use second_model::boxes::{self, KINDS};
use second_model::combinations::quick_limit;
use second_model::model::{self, all_outputs};
use second_model::published::{self, Published};
use second_model::sheet;

pub const PARTS: &[(&str, Work)] = &[
    ("boxes of all widths", &boxes_of_all_widths),
    ("deciding outputs", &limits::deciding_outputs),
    ("limits of sums", &limits::of_sums),
    ("bounds", &bounds::all),
    ("order of checks", &orders::all),
    ("truth tables", &truth_tables),
    ("damaged arguments", &damage::all),
    ("lists of column additions", &lists_of_additions),
    ("sums of boxes", &rounds::all),
    ("inputs of sums", &rounds::every_number_of_inputs),
    ("parts of combinations", &between::all),
    ("figures over all combinations", &whole::all),
    ("packed columns", &packing::all),
    ("nearest pairs", &nearest::all),
    ("raising swaps", &swaps::all),
    ("shorter lists of additions", &additions::all),
    ("even and bent boxes", &maximal::all),
    ("boxes written, and sheets", &written::all),
    ("lengths above 2^32", &far::all),
    ("calls that meet", &meeting::all),
    ("arrays without an address", &nowhere::all),
    ("published boxes", &published_boxes),
];

/// The limits that a box of these widths is asked with: the sheet's, and a quick one.
pub fn usual_limits(run: &mut Run, n: u32, m: u32) -> [u32; 2] {
    let (inputs, outputs) = (n.clamp(1, 8), m.clamp(1, 32));
    [sheet::limit(outputs), run.random.between(1, quick_limit(inputs, outputs))]
}

/// Every call that takes a box, with arguments and lengths that fit, as far as n and m do.
pub fn every_box_call(run: &mut Run, n: u32, m: u32, rows: &[u32], limits: &[u32]) {
    run.check_box(n, m, rows);
    run.write_box(n, m, rows, 2 + 4 * rows.len());
    for call in &FIGURE_CALLS {
        run.figures(call, n, m, rows, call.figures);
    }
    for call in &LIMITED_CALLS {
        for &i in limits {
            run.limited_figures(call, n, m, rows, i, call.figures);
        }
    }
    nearest::lists(run, n, m, rows, limits[limits.len() - 1]);
    box_calls_with_parameters(run, n, m, rows);
}

fn box_calls_with_parameters(run: &mut Run, n: u32, m: u32, rows: &[u32]) {
    let (inputs, outputs) = (n.clamp(1, 10), m.clamp(1, 32));
    let c = run.random.between(1, all_outputs(outputs));
    run.component_spectrum(n, m, rows, c, 1 << inputs);
    let a = run.random.between(1, (1 << inputs) - 1);
    run.xor_row(n, m, rows, a, 1 << outputs.min(17));
    let addition = (run.random.between(1, outputs), run.random.below(1 << inputs), run.random.below(2));
    run.add_to_column(n, m, rows, addition, 1 << inputs);
    distances(run, n, m, rows);
    cell_lists(run, n, m, rows);
}

/// The orders of the sheet, one at random, and the highest that is quick.
fn distances(run: &mut Run, n: u32, m: u32, rows: &[u32]) {
    let (inputs, outputs) = (n.clamp(1, 8), m.clamp(1, 32));
    let most = quick_limit(inputs, outputs);
    let (i, j) = (run.random.between(1, most), run.random.between(1, inputs));
    for order in [(1, 1), (2, 1), (i, j), (most, inputs)] {
        run.dynamic_distance(n, m, rows, order, 3);
    }
}

/// The list of cells exactly long enough, one too short, longer, and empty.
fn cell_lists(run: &mut Run, n: u32, m: u32, rows: &[u32]) {
    let cells = model::largest_cells(n, m, rows, usize::MAX, 1);
    let number = cells.as_ref().map_or(1, |cells| cells.len());
    for list_len in [number, number - 1, number + 1, number + 100, 0] {
        let wanted = cells.clone().and_then(|cells| if list_len < number { Err(model::LIST_TOO_SHORT) } else { Ok(cells) });
        run.largest_cells_known(n, m, rows, list_len, 1, wanted);
    }
}

/// How many boxes of these widths are tried: fewer where a figure takes long.
fn boxes_at(n: u32, m: u32) -> u32 {
    match (n, m) {
        (8, 8 | 16 | 32) => 3,
        (_, 1..=16) if m + 2 * n <= 18 => KINDS,
        (_, 1..=16) if m + 2 * n <= 21 => 4,
        (1..=4, _) => 3,
        _ => 2,
    }
}

fn boxes_of_all_widths(run: &mut Run) {
    for (n, m) in (1..=8).flat_map(|n| (1..=32).map(move |m| (n, m))) {
        // Starting anywhere lets the few wide boxes be of other kinds at other seeds.
        let first = run.random.below(KINDS);
        for kind in 0..boxes_at(n, m) {
            let rows = boxes::of_kind(first + kind, n, m, &mut run.random);
            let limits = usual_limits(run, n, m);
            every_box_call(run, n, m, &rows, &limits);
            let file = model::file_of(n, m, &rows);
            run.read_box(&file, 1 << n, 2);
        }
    }
    highest_orders(run);
    cell_lists(run, 8, 8, &boxes::cubes());
}

/// The highest orders of the dynamic distance at the widest boxes take long, and are tried once.
fn highest_orders(run: &mut Run) {
    for (m, i) in [(16, 16), (32, 4)] {
        let rows = boxes::random_rows(8, m, &mut run.random);
        run.dynamic_distance(8, m, &rows, (i, 8), 3);
    }
}

/// The calls that take truth tables, with arguments that fit.
fn truth_tables(run: &mut Run) {
    for n in 1..=8 {
        for _ in 0..40 {
            let table = boxes::random_table(n, &mut run.random);
            run.spectrum(n, &table, 1 << n);
            run.normal_form(n, &table, 1 << n);
            let values = model::spectrum(n, &table, 1 << n).expect("nothing to refuse");
            run.inverse_spectrum(n, &values, 1 << n);
            enlargements(run, n, &table);
            bent_functions(run, n);
        }
    }
    if run.round == 0 {
        every_small_function(run);
    }
}

fn enlargements(run: &mut Run, n: u32, table: &[u8]) {
    for k in 1..=n {
        let a = run.random.below(2);
        run.enlarge_column(n, table, (k, a), 2 << n);
        let kind = run.random.below(KINDS);
        let rows = boxes::of_kind(kind, n, n, &mut run.random);
        run.enlarge_box(n, &rows, table, k, 2 << n);
    }
}

fn bent_functions(run: &mut Run, n: u32) {
    let permutation = boxes::random_permutation(n / 2, &mut run.random);
    let table = boxes::random_table(n / 2, &mut run.random);
    run.bent_function(n, &permutation, &table, 1 << n);
}

/// All 256 functions of three inputs, which a table may stand for, and all smaller ones.
fn every_small_function(run: &mut Run) {
    for n in 1..=3 {
        for number in 0..1u32 << (1 << n) {
            let table: Vec<u8> = (0..1 << n).map(|x| (number >> x) as u8 & 1).collect();
            run.spectrum(n, &table, 1 << n);
            run.normal_form(n, &table, 1 << n);
            let values = model::spectrum(n, &table, 1 << n).expect("nothing to refuse");
            run.inverse_spectrum(n, &values, 1 << n);
        }
    }
}

/// Adds affine functions to columns, some of them refused, and asks for the nonlinearity
/// again after each: its figure must stay what it was at first.
fn lists_of_additions(run: &mut Run) {
    for round in 0..90 {
        let most_outputs = run.random.pick(&[6, 6, 32]);
        let (n, m) = (run.random.between(1, 6), run.random.between(1, most_outputs));
        let i = run.random.between(1, quick_limit(n, m));
        let rows = boxes::of_kind(round, n, m, &mut run.random);
        list_of_additions(run, n, m, rows, i);
    }
}

fn list_of_additions(run: &mut Run, n: u32, m: u32, mut rows: Vec<u32>, i: u32) {
    let first = nonlinearity(run, n, m, &rows, i);
    for _ in 0..run.random.below(6) {
        // Column m + 1 and b = 2 are refused and must leave the rows that stand.
        let (j, w, b) = (run.random.between(1, m + 1), run.random.below(1 << n), run.random.below(3));
        if let Some(new_rows) = run.add_to_column(n, m, &rows, (j, w, b), 1 << n) {
            rows = new_rows;
        }
        let now = nonlinearity(run, n, m, &rows, i);
        run.law("the nonlinearity after additions", now.is_some() && now == first, || {
            format!("nonlinearity {first:?} is now {now:?} for n = {n}, m = {m}, i = {i}, rows = {rows:?}")
        });
    }
}

/// The library's figure, if it accepts the box.
fn nonlinearity(run: &mut Run, n: u32, m: u32, rows: &[u32], i: u32) -> Option<u32> {
    run.limited_figures(&NONLINEARITY, n, m, rows, i, 4).map(|figures| figures[0])
}

/// The library against what was published, where a published figure is at hand.
fn published_boxes(run: &mut Run) {
    let (mut known_figures, mut unknown) = (0, 0);
    for known in published::all() {
        let Published { n, m, ref rows, ref name, .. } = known;
        let i = sheet::limit(m);
        let measured = [
            (known.nonlinearity, run.limited_figures(&NONLINEARITY, n, m, rows, i, 4)),
            (known.xor, run.figures(&FIGURE_CALLS[0], n, m, rows, 3)),
            (known.autocorrelation, run.limited_figures(&AUTOCORRELATION, n, m, rows, i, 3)),
            (known.degree, run.limited_figures(&DEGREE, n, m, rows, i, 2)),
            (known.avalanche.then_some(0), run.dynamic_distance(n, m, rows, (1, 1), 3)),
            (Some(u32::from(known.bijective)), run.figures(&FIGURE_CALLS[2], n, m, rows, 1)),
        ];
        for (figure, found) in measured {
            let Some(figure) = figure else {
                unknown += 1;
                continue;
            };
            known_figures += 1;
            run.law("published figures", found.as_ref().is_some_and(|found| found[0] == figure), || {
                format!("{name}: {figure} was published, the library says {found:?}")
            });
        }
    }
    println!("published boxes: {known_figures} figures compared with published ones; of {unknown} more none is at hand");
}
