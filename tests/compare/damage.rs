//! Several faults at once, at random: they show in which order a call checks its arguments.
use crate::calls::{Run, FIGURE_CALLS, LIMITED_CALLS};
use second_model::boxes::{self, KINDS};
use second_model::combinations::quick_limit;
use second_model::model::{self, all_outputs};
use second_model::random::Random;

/// Each call gets so many argument sets.
const SETS: u64 = 1000;

pub fn all(run: &mut Run) {
    for _ in 0..SETS {
        box_calls(run);
        table_calls(run);
        enlargements(run);
        bent_form(run);
        file(run);
    }
}

/// Once in four times another width. A width one off may well be accepted.
fn width(random: &mut Random, right: u32, high: u32) -> u32 {
    if random.one_in(4) {
        random.pick(&[0, right - 1, right + 1, high, high + 1, high + 2, 16, 17, 256 + right, 65536 + right, u32::MAX])
    } else {
        right
    }
}

/// Once in six times another length.
fn length(random: &mut Random, right: usize) -> usize {
    if random.one_in(6) {
        random.pick(&[0, right.saturating_sub(1), right + 1, right / 2, right * 2, 1])
    } else {
        right
    }
}

/// Once in four times a number outside its range.
fn parameter(random: &mut Random, low: u32, high: u32) -> u32 {
    if random.one_in(4) {
        let outside = [low.wrapping_sub(1), high.wrapping_add(1), low + (1 << 16), high.wrapping_add(1 << 31), u32::MAX];
        random.pick(&outside)
    } else {
        random.between(low, high)
    }
}

/// A limit for a box whose widths may be damaged: once in four times outside its range, else
/// one that takes no long time.
fn limit(random: &mut Random, n: u32, m: u32) -> u32 {
    let (inputs, outputs) = (n.clamp(1, 8), m.clamp(1, 32));
    if random.one_in(4) {
        random.pick(&[0, outputs + 1, outputs + (1 << 16), outputs + (1 << 31), u32::MAX])
    } else {
        random.between(1, quick_limit(inputs, outputs))
    }
}

/// Once in six times one value is too large.
fn spoil<T: Copy>(random: &mut Random, values: &mut [T], bad: &[T]) {
    if random.one_in(6) && !values.is_empty() && !bad.is_empty() {
        let place = random.below(values.len() as u32) as usize;
        values[place] = random.pick(bad);
    }
}

/// 2^n for a width that could be meant, else a small length.
fn power(n: u32) -> usize {
    if n <= 9 {
        1 << n
    } else {
        2
    }
}

struct DamagedBox {
    n: u32,
    m: u32,
    rows: Vec<u32>,
}

fn damaged_box(random: &mut Random) -> DamagedBox {
    let most_outputs = random.pick(&[6, 6, 6, 32]);
    let (right_n, right_m) = (random.between(1, 5), random.between(1, most_outputs));
    let kind = random.below(KINDS);
    let mut rows = boxes::of_kind(kind, right_n, right_m, random);
    let (n, m) = (width(random, right_n, 8), width(random, right_m, 32));
    // Either the rows follow the damaged width, or they are left as they were.
    let fitting = if random.one_in(2) { power(n) } else { rows.len() };
    rows.resize(length(random, fitting), 0);
    let largest = all_outputs(right_m);
    let too_large = [largest.saturating_add(1), largest.saturating_add(2), u32::MAX];
    spoil(random, &mut rows, &too_large);
    DamagedBox { n, m, rows }
}

fn box_calls(run: &mut Run) {
    for call in &FIGURE_CALLS {
        let DamagedBox { n, m, rows } = damaged_box(&mut run.random);
        let figures_len = length(&mut run.random, call.figures);
        run.figures(call, n, m, &rows, figures_len);
    }
    for call in &LIMITED_CALLS {
        let DamagedBox { n, m, rows } = damaged_box(&mut run.random);
        let i = limit(&mut run.random, n, m);
        let figures_len = length(&mut run.random, call.figures);
        run.limited_figures(call, n, m, &rows, i, figures_len);
    }
    box_file(run);
    spectrum_of_combination(run);
    addition(run);
    row_of_xor_table(run);
    cell_list(run);
    pair_list(run);
    distance(run);
}

fn box_file(run: &mut Run) {
    let DamagedBox { n, m, rows } = damaged_box(&mut run.random);
    run.check_box(n, m, &rows);
    let file_len = length(&mut run.random, 2 + 4 * power(n));
    run.write_box(n, m, &rows, file_len);
}

fn spectrum_of_combination(run: &mut Run) {
    let DamagedBox { n, m, rows } = damaged_box(&mut run.random);
    let c = parameter(&mut run.random, 1, all_outputs(m.clamp(1, 32)));
    let out_len = length(&mut run.random, power(n));
    run.component_spectrum(n, m, &rows, c, out_len);
}

fn addition(run: &mut Run) {
    let DamagedBox { n, m, rows } = damaged_box(&mut run.random);
    let random = &mut run.random;
    let j = parameter(random, 1, m.clamp(1, 32));
    let w = parameter(random, 0, (1 << n.clamp(1, 8)) - 1);
    let b = parameter(random, 0, 1);
    let out_len = length(random, power(n));
    run.add_to_column(n, m, &rows, (j, w, b), out_len);
}

fn row_of_xor_table(run: &mut Run) {
    let DamagedBox { n, m, rows } = damaged_box(&mut run.random);
    let a = parameter(&mut run.random, 1, (1 << n.clamp(1, 8)) - 1);
    let counts_len = length(&mut run.random, 1 << m.clamp(1, 17));
    run.xor_row(n, m, &rows, a, counts_len);
}

fn cell_list(run: &mut Run) {
    let DamagedBox { n, m, rows } = damaged_box(&mut run.random);
    let number = model::largest_cells(n, m, &rows, usize::MAX, 1).map_or(5, |cells| cells.len());
    let list_len = length(&mut run.random, number);
    let figures_len = length(&mut run.random, 1);
    run.largest_cells(n, m, &rows, list_len, figures_len);
}

fn pair_list(run: &mut Run) {
    let DamagedBox { n, m, rows } = damaged_box(&mut run.random);
    let i = limit(&mut run.random, n, m);
    let number = model::nearest_pairs(n, m, &rows, i, usize::MAX, 1).map_or(5, |pairs| pairs.len());
    let list_len = length(&mut run.random, number);
    let figures_len = length(&mut run.random, 1);
    run.nearest_pairs(n, m, &rows, i, (list_len, figures_len));
}

fn distance(run: &mut Run) {
    let DamagedBox { n, m, rows } = damaged_box(&mut run.random);
    let i = limit(&mut run.random, n, m);
    let j = parameter(&mut run.random, 1, n.clamp(1, 8));
    let figures_len = length(&mut run.random, 3);
    run.dynamic_distance(n, m, &rows, (i, j), figures_len);
}

/// A width and a truth table that were damaged together.
fn damaged_table(random: &mut Random, most: u32) -> (u32, Vec<u8>) {
    let right = random.between(1, most.min(5));
    let mut table = boxes::random_table(right, random);
    let n = width(random, right, most);
    let fitting = if random.one_in(2) { power(n) } else { table.len() };
    table.resize(length(random, fitting), 1);
    spoil(random, &mut table, &[2, 3, 255]);
    (n, table)
}

fn table_calls(run: &mut Run) {
    let (n, table) = damaged_table(&mut run.random, 8);
    let out_len = length(&mut run.random, power(n));
    run.spectrum(n, &table, out_len);

    let (n, table) = damaged_table(&mut run.random, 8);
    let out_len = length(&mut run.random, power(n));
    run.normal_form(n, &table, out_len);

    let (n, values) = damaged_spectrum(&mut run.random);
    let table_len = length(&mut run.random, power(n));
    run.inverse_spectrum(n, &values, table_len);
}

fn damaged_spectrum(random: &mut Random) -> (u32, Vec<i32>) {
    let right = random.between(1, 5);
    let table = boxes::random_table(right, random);
    let mut values = model::spectrum(right, &table, 1 << right).expect("nothing to refuse");
    let n = width(random, right, 8);
    let fitting = if random.one_in(2) { power(n) } else { values.len() };
    values.resize(length(random, fitting), 0);
    spoil(random, &mut values, &[0, 1, -1, 2, -2, 1 << (right - 1), 1 << right, i32::MIN, i32::MAX]);
    (n, values)
}

fn enlargements(run: &mut Run) {
    let (n, table) = damaged_table(&mut run.random, 7);
    let k = parameter(&mut run.random, 1, n.clamp(1, 7));
    let a = parameter(&mut run.random, 0, 1);
    let out_len = length(&mut run.random, 2 * power(n));
    run.enlarge_column(n, &table, (k, a), out_len);

    let (n, table) = damaged_table(&mut run.random, 7);
    let random = &mut run.random;
    let right = n.clamp(1, 7);
    let kind = random.below(KINDS);
    let mut rows = boxes::of_kind(kind, right, right, random);
    rows.resize(length(random, power(n)), 0);
    spoil(random, &mut rows, &[1 << right, 65535, u32::MAX]);
    let k = parameter(random, 1, right);
    let out_len = length(random, 2 * power(n));
    run.enlarge_box(n, &rows, &table, k, out_len);
}

fn bent_form(run: &mut Run) {
    let random = &mut run.random;
    let h = random.between(1, 4);
    let mut permutation = boxes::random_permutation(h, random);
    let mut table = boxes::random_table(h, random);
    let n = width(random, 2 * h, 8);
    permutation.resize(length(random, 1 << h), 0);
    table.resize(length(random, 1 << h), 0);
    spoil(random, &mut permutation, &[0, 1, 1 << h, 255]);
    spoil(random, &mut table, &[2, 255]);
    let out_len = length(random, power(n));
    run.bent_function(n, &permutation, &table, out_len);
}

fn file(run: &mut Run) {
    let DamagedBox { n, m, rows } = damaged_box(&mut run.random);
    let random = &mut run.random;
    // A width above 255 has no byte of its own; its lowest byte is written.
    let whole = model::file_of(n, m, &rows);
    let mut file = whole.clone();
    file.resize(length(random, whole.len()), 0);
    let rows_len = length(random, rows.len());
    let figures_len = length(random, 2);
    run.read_box(&file, rows_len, figures_len);
}
