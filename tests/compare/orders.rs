//! The order of the checks: at first everything is wrong, then one argument after the other is put
//! right, in the order of the checks, so that every call gives one number after the other. Those of
//! sums, packed columns, raising swaps, catalogues, designs and servers stand with these calls.
use crate::calls::{Run, FIGURE_CALLS, LIMITED_CALLS};
use second_model::boxes;
use second_model::model::{self, all_outputs};

pub fn all(run: &mut Run) {
    for n in 1..=4 {
        for right in 0..=7 {
            tables(run, n, right);
            spectra_back(run, n, right);
            for m in [1, 3, 16, 31] {
                boxes_alone(run, n, m, right);
                boxes_with_limits(run, n, m, right);
                boxes_with_parameters(run, n, m, right);
                xor_rows(run, n, m, right);
            }
            enlarged_columns(run, n, right);
            enlarged_boxes(run, n, right);
            bent_forms(run, n, right);
            box_files(run, n, right);
        }
    }
}

/// The right number once so many arguments are right, else a wrong one.
fn or_wrong<T>(is_right: bool, right: T, wrong: T) -> T {
    if is_right {
        right
    } else {
        wrong
    }
}

/// Cut by one where a length is wrong.
fn of_length<T: Copy>(is_right: bool, values: &[T]) -> &[T] {
    or_wrong(is_right, values, &values[1..])
}

/// 1, 3, 4, 7.
fn tables(run: &mut Run, n: u32, right: u32) {
    let mut table = boxes::random_table(n, &mut run.random);
    let last = table.len() - 1;
    table[last] = or_wrong(right >= 3, table[last], 2);
    let (width, length) = (or_wrong(right >= 1, n, 9), (1 << n) + usize::from(right < 4));
    run.spectrum(width, of_length(right >= 2, &table), length);
    run.normal_form(width, of_length(right >= 2, &table), length);
}

/// 1, 3, 7, 8.
fn spectra_back(run: &mut Run, n: u32, right: u32) {
    let table = boxes::random_table(n, &mut run.random);
    let mut values = model::spectrum(n, &table, 1 << n).expect("nothing to refuse");
    values[1] += or_wrong(right >= 4, 0, 1);
    let (width, length) = (or_wrong(right >= 1, n, 0), (1 << n) + usize::from(right < 3));
    run.inverse_spectrum(width, of_length(right >= 2, &values), length);
}

/// The box of which 1, 2, 3 and 4 are wrong until they are put right.
fn box_with_faults(run: &mut Run, n: u32, m: u32, right: u32) -> (u32, u32, Vec<u32>) {
    let mut rows = boxes::random_rows(n, m, &mut run.random);
    let last = rows.len() - 1;
    rows[last] = or_wrong(right >= 4, rows[last], all_outputs(m) + 1);
    (or_wrong(right >= 1, n, 9), or_wrong(right >= 2, m, 33), of_length(right >= 3, &rows).to_vec())
}

/// 1, 2, 3, 4, 7, and for the list of cells 9.
fn boxes_alone(run: &mut Run, n: u32, m: u32, right: u32) {
    let (n, m, rows) = box_with_faults(run, n, m, right);
    for call in &FIGURE_CALLS {
        run.figures(call, n, m, &rows, call.figures + usize::from(right < 5));
    }
    run.largest_cells(n, m, &rows, or_wrong(right >= 6, 1 << 9, 0), 1 + usize::from(right < 5));
}

/// 1, 2, 3, 4, 6, 7, and for the list of nearest pairs 9.
fn boxes_with_limits(run: &mut Run, n: u32, m: u32, right: u32) {
    let (width, outputs, rows) = box_with_faults(run, n, m, right);
    let (i, more) = (or_wrong(right >= 5, 1, m + 1), usize::from(right < 6));
    for call in &LIMITED_CALLS {
        run.limited_figures(call, width, outputs, &rows, i, call.figures + more);
    }
    run.nearest_pairs(width, outputs, &rows, i, (or_wrong(right >= 7, 1 << 10, 0), 1 + more));
    for wrong in [(m + 1, 1), (1, n + 1), (0, 0)] {
        run.dynamic_distance(width, outputs, &rows, or_wrong(right >= 5, (1, n), wrong), 3 + more);
    }
}

/// 1, 2, 3, 4, 6, 7, where 2 is given from 17 outputs on.
fn xor_rows(run: &mut Run, n: u32, m: u32, right: u32) {
    let (width, _, rows) = box_with_faults(run, n, m, right);
    let a = or_wrong(right >= 5, (1 << n) - 1, 1 << n);
    run.xor_row(width, or_wrong(right >= 2, m, 17), &rows, a, (1 << m.min(17)) + usize::from(right < 6));
}

/// 1, 2, 3, 4, 6, 7. Of an addition each of the three numbers alone is wrong, and all of them.
fn boxes_with_parameters(run: &mut Run, n: u32, m: u32, right: u32) {
    let (width, outputs, rows) = box_with_faults(run, n, m, right);
    let length = (1 << n) + usize::from(right < 6);
    let c = or_wrong(right >= 5, all_outputs(m), 0);
    run.component_spectrum(width, outputs, &rows, c, length);
    let (j, w, b) = (run.random.between(1, m), run.random.below(1 << n), run.random.below(2));
    let additions = [(m + 1, w, b), (j, 1 << n, b), (j, w, 2), (0, 1 << n, 2)];
    for wrong in additions {
        run.add_to_column(width, outputs, &rows, or_wrong(right >= 5, (j, w, b), wrong), length);
    }
}

/// 1, 3, 4, 6, 7.
fn enlarged_columns(run: &mut Run, n: u32, right: u32) {
    let mut table = boxes::random_table(n, &mut run.random);
    table[0] = or_wrong(right >= 3, table[0], 2);
    let (width, length) = (or_wrong(right >= 1, n, 8), (2 << n) + usize::from(right < 5));
    for wrong in [(0, 0), (n + 1, 1), (1, 2), (0, 2)] {
        run.enlarge_column(width, of_length(right >= 2, &table), or_wrong(right >= 4, (n, 1), wrong), length);
    }
}

/// 1, 3, 4, 6, 7, where either array may be the one that is wrong, or both.
fn enlarged_boxes(run: &mut Run, n: u32, right: u32) {
    for which in 1..=3 {
        let (mut rows, mut table) = (boxes::random_rows(n, n, &mut run.random), boxes::random_table(n, &mut run.random));
        let wrong = |array: u32, from: u32| which & array != 0 && right < from;
        rows[0] = or_wrong(!wrong(1, 3), rows[0], 1 << n);
        table[0] = or_wrong(!wrong(2, 3), table[0], 2);
        let (width, k) = (or_wrong(right >= 1, n, 0), or_wrong(right >= 4, 1, n + 1));
        let length = (2 << n) + usize::from(right < 5);
        run.enlarge_box(width, of_length(!wrong(1, 2), &rows), of_length(!wrong(2, 2), &table), k, length);
    }
}

/// 1, 3, 4, 5, 7: a value of g is looked at before the permutation.
fn bent_forms(run: &mut Run, h: u32, right: u32) {
    for which in 1..=3 {
        let (mut permutation, mut table) = (boxes::random_permutation(h, &mut run.random), boxes::random_table(h, &mut run.random));
        let wrong = |array: u32, from: u32| which & array != 0 && right < from;
        table[0] = or_wrong(right >= 3, table[0], 2);
        permutation[0] = or_wrong(right >= 4, permutation[0], permutation[1]);
        let (width, length) = (or_wrong(right >= 1, 2 * h, 2 * h + 1), (1 << (2 * h)) + usize::from(right < 5));
        run.bent_function(width, of_length(!wrong(1, 2), &permutation), of_length(!wrong(2, 2), &table), length);
    }
}

/// 10 for a file of one byte, 1, 2, 10 for another length, 4, 7 for the rows, 7 for the figures.
fn box_files(run: &mut Run, n: u32, right: u32) {
    let mut rows = boxes::random_rows(n, 5, &mut run.random);
    rows[1] = or_wrong(right >= 5, rows[1], 32);
    let mut file = model::file_of(or_wrong(right >= 2, n, 9), or_wrong(right >= 3, 5, 33), &rows);
    file.truncate(or_wrong(right >= 1, file.len(), 1));
    file.truncate(or_wrong(right >= 4, file.len(), file.len() - usize::from(right >= 1)));
    for (rows_wrong, figures_wrong) in [(true, true), (false, true), (true, false), (false, false)] {
        let wrong = |it_is: bool| usize::from(it_is && right < 6);
        run.read_box(&file, (1 << n) + wrong(rows_wrong), 2 + wrong(figures_wrong));
    }
}
