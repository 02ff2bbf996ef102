//! Every refusal from both sides of its bound, one fault at a time.
use crate::calls::{Run, FIGURE_CALLS, LIMITED_CALLS};
use crate::compare::{every_box_call, usual_limits};
use second_model::boxes;
use second_model::combinations::quick_limit;
use second_model::model::{self, all_outputs};

pub fn all(run: &mut Run) {
    widths_of_boxes(run);
    widths_of_tables(run);
    largest_rows(run);
    lengths_read(run);
    truth_values(run);
    parameters_of_boxes(run);
    limits(run);
    parameters_of_enlargements(run);
    lengths_written(run);
    bent_forms(run);
    impossible_spectra(run);
    box_files(run);
}

/// Numbers just outside, at and just inside the ends of a range, and far away ones. A number
/// that is 2^16 or 2^31 too large shows a call that looks at its lower bits only.
fn around(low: u32, high: u32) -> Vec<u32> {
    let inside = [low, low + 1, high - (high - low).min(1), high];
    let near = [low.wrapping_sub(1), high.wrapping_add(1)];
    let far = [low + (1 << 8), low + (1 << 16), high.wrapping_add(1 << 31), u32::MAX];
    [&inside[..], &near[..], &far[..]].concat()
}

/// Lengths around the right one, which is at least 1.
fn lengths_around(right: usize) -> [usize; 6] {
    [right, right - 1, right + 1, 0, right / 2, right * 2]
}

/// 2^n where that is an array one might lend, else 4.
fn power(n: u32) -> usize {
    if n <= 10 {
        1 << n
    } else {
        4
    }
}

fn widths_of_boxes(run: &mut Run) {
    let wide = [0, 1, 2, 8, 9, 31, 32, 33, 64, 256 + 3, 65536 + 3, u32::MAX];
    let outputs = [0, 1, 2, 16, 17, 18, 31, 32, 33, 34, 64, 256 + 3, 65536 + 3, u32::MAX];
    for n in wide {
        for m in outputs {
            let rows: Vec<u32> = (0..power(n)).map(|_| run.random.draw() as u32 & all_outputs(m.min(32))).collect();
            let limits = usual_limits(run, n, m);
            every_box_call(run, n, m, &rows, &limits);
        }
    }
}

fn widths_of_tables(run: &mut Run) {
    for n in [0, 1, 2, 3, 6, 7, 8, 9, 10, 31, 32, 33, 64, 256 + 3, 65536 + 3, u32::MAX] {
        let table: Vec<u8> = (0..power(n)).map(|_| run.random.below(2) as u8).collect();
        run.spectrum(n, &table, power(n));
        run.normal_form(n, &table, power(n));
        run.inverse_spectrum(n, &vec![0; power(n)], power(n));
        run.enlarge_column(n, &table, (1, 1), 2 * power(n));
        let rows: Vec<u32> = table.iter().map(|&v| u32::from(v)).collect();
        run.enlarge_box(n, &rows, &table, 1, 2 * power(n));
    }
}

/// Row 2^m - 1 is taken and 2^m is not, wherever it stands. With 32 outputs every row is taken.
fn largest_rows(run: &mut Run) {
    for m in 1..=32 {
        for place in [0, 1, 6, 7] {
            let largest = all_outputs(m);
            for row in [largest, largest.saturating_add(1), largest.saturating_add(2), 1 << 31, u32::MAX] {
                let mut rows = boxes::random_rows(3, m, &mut run.random);
                rows[place] = row;
                every_box_call(run, 3, m, &rows, &[1]);
                let file = model::file_of(3, m, &rows);
                run.read_box(&file, 8, 2);
            }
        }
    }
    largest_rows_to_enlarge(run);
}

fn largest_rows_to_enlarge(run: &mut Run) {
    for n in 1..=7u32 {
        for place in [0, (1 << n) - 1] {
            for row in [(1 << n) - 1, 1 << n, 1 << 16, u32::MAX] {
                let mut rows = boxes::random_rows(n, n, &mut run.random);
                rows[place] = row;
                run.enlarge_box(n, &rows, &vec![0; 1 << n], 1, 2 << n);
            }
        }
    }
}

fn lengths_read(run: &mut Run) {
    for n in 1..=8u32 {
        for length in lengths_around(1 << n) {
            every_box_call(run, n, 2, &vec![1; length], &[1, 2]);
            let table = vec![1; length];
            run.spectrum(n, &table, 1 << n);
            run.normal_form(n, &table, 1 << n);
            run.inverse_spectrum(n, &vec![0; length], 1 << n);
            run.enlarge_column(n, &table, (1, 0), 2 << n);
            run.enlarge_box(n, &vec![0; length], &vec![0; 1 << n], 1, 2 << n);
            run.enlarge_box(n, &vec![0; 1 << n], &table, 1, 2 << n);
        }
    }
}

fn truth_values(run: &mut Run) {
    for n in 1..=8u32 {
        for place in [0, (1 << n) - 1, run.random.below(1 << n) as usize] {
            for value in [0, 1, 2, 3, 128, 255] {
                let mut table = boxes::random_table(n, &mut run.random);
                table[place] = value;
                run.spectrum(n, &table, 1 << n);
                run.normal_form(n, &table, 1 << n);
                run.enlarge_column(n, &table, (1, 1), 2 << n);
                run.enlarge_box(n, &vec![0; 1 << n], &table, 1, 2 << n);
            }
        }
    }
}

fn parameters_of_boxes(run: &mut Run) {
    for (n, m) in [(1, 1), (2, 3), (3, 16), (4, 1), (5, 8), (8, 8), (1, 32), (3, 17), (4, 31), (8, 32)] {
        let rows = boxes::random_rows(n, m, &mut run.random);
        for c in around(1, all_outputs(m)) {
            run.component_spectrum(n, m, &rows, c, 1 << n);
        }
        for a in around(1, (1 << n) - 1) {
            run.xor_row(n, m, &rows, a, 1 << m.min(17));
        }
        for i in outside_limits(m) {
            run.dynamic_distance(n, m, &rows, (i, 1), 3);
        }
        for j in around(1, n) {
            run.dynamic_distance(n, m, &rows, (1, j), 3);
        }
        parameters_of_additions(run, n, m, &rows);
    }
}

/// Limits that no box with m outputs has.
fn outside_limits(m: u32) -> [u32; 7] {
    [0, m + 1, m + 2, 1 + (1 << 8), 1 + (1 << 16), m + (1 << 31), u32::MAX]
}

/// With many outputs the higher limits take too long to be run. Where the figures' array has a
/// wrong length nothing needs to be run, and 7 is told at once at every limit.
fn limits(run: &mut Run) {
    for m in 1..=32 {
        let rows = boxes::random_rows(2, m, &mut run.random);
        for call in &LIMITED_CALLS {
            for i in outside_limits(m) {
                run.limited_figures(call, 2, m, &rows, i, call.figures);
                run.limited_figures(call, 2, m, &rows, i, call.figures + 1);
            }
            for i in 1..=quick_limit(2, m) {
                run.limited_figures(call, 2, m, &rows, i, call.figures);
            }
            for i in 1..=m {
                run.limited_figures(call, 2, m, &rows, i, call.figures + 1);
            }
        }
        for i in 1..=m {
            run.dynamic_distance(2, m, &rows, (i, 1), 4);
        }
    }
}

fn parameters_of_additions(run: &mut Run, n: u32, m: u32, rows: &[u32]) {
    for j in around(1, m) {
        run.add_to_column(n, m, rows, (j, 1, 1), 1 << n);
    }
    for w in around(0, (1 << n) - 1) {
        run.add_to_column(n, m, rows, (1, w, 0), 1 << n);
    }
    for b in around(0, 1) {
        run.add_to_column(n, m, rows, (m, 1, b), 1 << n);
    }
}

fn parameters_of_enlargements(run: &mut Run) {
    for n in 1..=7 {
        let table = boxes::random_table(n, &mut run.random);
        let rows = boxes::of_kind(5, n, n, &mut run.random);
        for k in around(1, n) {
            run.enlarge_column(n, &table, (k, 1), 2 << n);
            run.enlarge_box(n, &rows, &table, k, 2 << n);
        }
        for a in around(0, 1) {
            run.enlarge_column(n, &table, (n, a), 2 << n);
        }
    }
}

fn lengths_written(run: &mut Run) {
    for (n, m) in [(1, 1), (2, 2), (3, 5), (6, 4), (7, 3)] {
        let rows = boxes::random_rows(n, m, &mut run.random);
        for call in &FIGURE_CALLS {
            for length in lengths_around(call.figures) {
                run.figures(call, n, m, &rows, length);
            }
        }
        for call in &LIMITED_CALLS {
            for length in lengths_around(call.figures) {
                run.limited_figures(call, n, m, &rows, m, length);
            }
        }
        for length in lengths_around(3) {
            run.dynamic_distance(n, m, &rows, (1, 1), length);
        }
        for length in lengths_around(1) {
            run.largest_cells(n, m, &rows, 9000, length);
            run.largest_cells(n, m, &rows, 0, length);
            run.nearest_pairs(n, m, &rows, m, (9000, length));
            run.nearest_pairs(n, m, &rows, m, (0, length));
        }
        for length in lengths_around(1 << n) {
            run.component_spectrum(n, m, &rows, 1, length);
            run.add_to_column(n, m, &rows, (1, 0, 0), length);
        }
        for length in lengths_around(1 << m) {
            run.xor_row(n, m, &rows, 1, length);
        }
        lengths_written_from_tables(run, n);
    }
}

fn lengths_written_from_tables(run: &mut Run, n: u32) {
    let table = boxes::random_table(n, &mut run.random);
    let rows = boxes::of_kind(5, n, n, &mut run.random);
    let values = model::spectrum(n, &table, 1 << n).expect("nothing to refuse");
    for length in lengths_around(1 << n) {
        run.spectrum(n, &table, length);
        run.normal_form(n, &table, length);
        run.inverse_spectrum(n, &values, length);
        run.inverse_spectrum(n, &vec![0; 1 << n], length);
    }
    for length in lengths_around(2 << n) {
        run.enlarge_column(n, &table, (1, 1), length);
        run.enlarge_box(n, &rows, &table, 1, length);
    }
}

fn bent_forms(run: &mut Run) {
    for n in [0, 1, 2, 3, 4, 5, 6, 7, 8, 9, 10, 16, 32, 64, 256 + 2, 65536 + 4, u32::MAX, u32::MAX - 1] {
        let h = (n / 2).min(5);
        let permutation = boxes::random_permutation(h, &mut run.random);
        let table = boxes::random_table(h, &mut run.random);
        for length in lengths_around(power(n)) {
            run.bent_function(n, &permutation, &table, length);
        }
        for length in lengths_around(1 << h) {
            run.bent_function(n, &vec![0; length], &table, power(n));
            run.bent_function(n, &permutation, &vec![0; length], power(n));
        }
        damaged_permutations(run, n, &permutation, &table);
    }
}

/// One entry twice, one too large, a bad value of g alone and together with the others.
fn damaged_permutations(run: &mut Run, n: u32, permutation: &[u8], table: &[u8]) {
    let last = permutation.len() - 1;
    let mut bad_table = table.to_vec();
    bad_table[last] = 2;
    for place in [0, last] {
        for entry in [permutation[last - place], permutation.len() as u8, 0, 1, 128, 255] {
            let mut damaged = permutation.to_vec();
            damaged[place] = entry;
            run.bent_function(n, &damaged, table, power(n));
            run.bent_function(n, &damaged, &bad_table, power(n));
            run.bent_function(n, &damaged, table, power(n) + 1);
        }
    }
}

/// Spectra of functions with one or a few values changed. Adding 2^31 to two values changes
/// no sum of 32 bits that wraps around, and must not pass.
fn impossible_spectra(run: &mut Run) {
    for n in 1..=8u32 {
        let size = 1usize << n;
        for round in 0..8 {
            let table = boxes::random_table(n, &mut run.random);
            let right = model::spectrum(n, &table, size).expect("nothing to refuse");
            let place = run.random.below(size as u32) as usize;
            let other = place ^ 1;
            let mut variants = [0, 1 << (n - 1), 1 << n, i32::MIN, i32::MAX].map(|value| vec![value; size]).to_vec();
            variants.push(right.iter().map(|v| -v).collect());
            variants.push(right.iter().map(|v| v * 2).collect());
            variants.push(right.iter().map(|v| v.wrapping_add(i32::MIN)).collect());
            variants.push(right.iter().map(|v| v.wrapping_add(1 << (32 - n).min(30))).collect());
            variants.push(right.iter().rev().copied().collect());
            for change in [1, -1, 2, -2, 4, 1 << (n - 1), 1 << n, i32::MIN, 1 << 16, 1 << (30 - round)] {
                let mut values = right.clone();
                values[place] = values[place].wrapping_add(change);
                variants.push(values.clone());
                values[other] = values[other].wrapping_add(change);
                variants.push(values.clone());
                values[other] = right[other].wrapping_sub(change);
                variants.push(values);
            }
            for values in variants {
                run.inverse_spectrum(n, &values, size);
            }
        }
    }
}

fn box_files(run: &mut Run) {
    run.read_box(&[], 2, 2);
    for n in [0, 1, 2, 3, 7, 8, 9, 10, 128, 255u8] {
        run.read_box(&[n], 2, 2);
        for m in [0, 1, 2, 15, 16, 17, 31, 32, 33, 34, 128, 255u8] {
            let largest = all_outputs(u32::from(m).min(32));
            let rows: Vec<u32> = (0..power(u32::from(n))).map(|_| run.random.draw() as u32 & largest).collect();
            let file = model::file_of(u32::from(n), u32::from(m), &rows);
            files_of_other_lengths(run, &file, rows.len());
            for rows_len in lengths_around(rows.len()) {
                run.read_box(&file, rows_len, 2);
            }
            for figures_len in lengths_around(2) {
                run.read_box(&file, rows.len(), figures_len);
            }
        }
    }
}

/// Among them the length that two bytes for each row would give.
fn files_of_other_lengths(run: &mut Run, file: &[u8], rows_len: usize) {
    let right = file.len();
    for length in [2, 3, 2 + (right - 2) / 2, right - 4, right - 2, right - 1] {
        run.read_box(&file[..length], rows_len, 2);
    }
    for more in [1, 2, 4, right, 100_000] {
        let mut longer = file.to_vec();
        longer.resize(right + more, 0);
        run.read_box(&longer, rows_len, 2);
    }
}
