//! Lengths that are 2^32 too large, or more: a call that looks at their lowest 32 bits alone would
//! take them for right. Such an array is not there, and a refused call must not look for it: what
//! is lent is the right array, with a page behind it that cannot be touched.
use crate::calls::Run;
use crate::lent::{Lent, Pattern};
use satmegwo::{raw, slices};
use second_model::boxes;
use second_model::model;

/// What is added to a length.
const TOO_MUCH: [usize; 3] = [1 << 32, 1 << 33, (1 << 40) + (1 << 32)];

pub fn all(run: &mut Run) {
    for more in TOO_MUCH {
        tables(run, more);
        boxes_with_figures(run, more);
        boxes_with_arrays(run, more);
        boxes_made_from_boxes(run, more);
        files_and_catalogues(run, more);
        boxes_written_and_sheets(run, more);
        packed_columns(run, more);
        sums(run, more);
        parts(run, more);
        designs_and_servers(run, more);
        long_lists(run, more);
    }
}

/// The call is refused by the number, and none of these arrays is written to.
macro_rules! refused {
    ($run:expr, $name:literal, $number:literal, $call:expr, $($array:ident),+) => {
        $run.calling($name);
        let code = unsafe { $call };
        let untouched = [$($array.untouched()),+].iter().all(|&one| one);
        $run.compared(true, code == $number && untouched, || {
            format!("{}: {code} in place of {}, untouched {untouched}", stringify!($call), $number)
        });
    };
}
pub(crate) use refused;

/// The address of an array that is lent.
pub fn at<T: Pattern>(lent: &mut Lent<T>) -> *mut T {
    lent.part().as_mut_ptr()
}

pub fn random_box(run: &mut Run, n: u32, m: u32) -> Lent<u32> {
    let rows = boxes::random_rows(n, m, &mut run.random);
    run.copy(&rows)
}

pub fn random_table(run: &mut Run, n: u32) -> Lent<u8> {
    let table = boxes::random_table(n, &mut run.random);
    run.copy(&table)
}

fn tables(run: &mut Run, more: usize) {
    let (mut table, mut values, mut out) = (random_table(run, 3), run.lend::<i32>(8), run.lend::<u8>(8));
    let (t, v, o) = (at(&mut table), at(&mut values), at(&mut out));
    refused!(run, "spectrum", 3, raw::satmegwo_spectrum(3, t, 8 + more, v, 8), table, values);
    refused!(run, "spectrum", 7, raw::satmegwo_spectrum(3, t, 8, v, 8 + more), table, values);
    refused!(run, "normal_form", 3, raw::satmegwo_normal_form(3, t, 8 + more, o, 8), table, out);
    refused!(run, "normal_form", 7, raw::satmegwo_normal_form(3, t, 8, o, 8 + more), table, out);
    refused!(run, "inverse_spectrum", 3, raw::satmegwo_inverse_spectrum(3, v, 8 + more, o, 8), values, out);
    refused!(run, "inverse_spectrum", 7, raw::satmegwo_inverse_spectrum(3, v, 8, o, 8 + more), values, out);
}

fn boxes_with_figures(run: &mut Run, more: usize) {
    let (mut rows, mut four) = (random_box(run, 3, 5), run.lend::<u32>(4));
    let (mut three, mut two, mut one) = (run.lend::<u32>(3), run.lend::<u32>(2), run.lend::<u32>(1));
    let (r, f4, f3, f2, f1) = (at(&mut rows), at(&mut four), at(&mut three), at(&mut two), at(&mut one));
    refused!(run, "nonlinearity", 3, raw::satmegwo_nonlinearity(3, 5, r, 8 + more, 5, f4, 4), rows, four);
    refused!(run, "nonlinearity", 7, raw::satmegwo_nonlinearity(3, 5, r, 8, 5, f4, 4 + more), rows, four);
    refused!(run, "raising_swap", 3, raw::satmegwo_raising_swap(3, 5, r, 8 + more, f4, 4), rows, four);
    refused!(run, "raising_swap", 7, raw::satmegwo_raising_swap(3, 5, r, 8, f4, 4 + more), rows, four);
    refused!(run, "autocorrelation", 3, raw::satmegwo_autocorrelation(3, 5, r, 8 + more, 5, f3, 3), rows, three);
    refused!(run, "autocorrelation", 7, raw::satmegwo_autocorrelation(3, 5, r, 8, 5, f3, 3 + more), rows, three);
    refused!(run, "dynamic_distance", 3, raw::satmegwo_dynamic_distance(3, 5, r, 8 + more, 5, 3, f3, 3), rows, three);
    refused!(run, "dynamic_distance", 7, raw::satmegwo_dynamic_distance(3, 5, r, 8, 5, 3, f3, 3 + more), rows, three);
    refused!(run, "largest_cell", 3, raw::satmegwo_largest_cell(3, 5, r, 8 + more, f3, 3), rows, three);
    refused!(run, "largest_cell", 7, raw::satmegwo_largest_cell(3, 5, r, 8, f3, 3 + more), rows, three);
    refused!(run, "degree", 3, raw::satmegwo_degree(3, 5, r, 8 + more, 5, f2, 2), rows, two);
    refused!(run, "degree", 7, raw::satmegwo_degree(3, 5, r, 8, 5, f2, 2 + more), rows, two);
    refused!(run, "complete", 3, raw::satmegwo_complete(3, 5, r, 8 + more, f1, 1), rows, one);
    refused!(run, "complete", 7, raw::satmegwo_complete(3, 5, r, 8, f1, 1 + more), rows, one);
    refused!(run, "bijective", 3, raw::satmegwo_bijective(3, 5, r, 8 + more, f1, 1), rows, one);
    refused!(run, "bijective", 7, raw::satmegwo_bijective(3, 5, r, 8, f1, 1 + more), rows, one);
}

fn boxes_with_arrays(run: &mut Run, more: usize) {
    let (mut rows, mut values, mut out) = (random_box(run, 3, 5), run.lend::<i32>(8), run.lend::<u32>(8));
    let (mut counts, mut list, mut one) = (run.lend::<u16>(32), run.lend::<u64>(40), run.lend::<u32>(1));
    let mut long = run.lend::<u64>(1);
    let (r, v, o, c, l, f) = (at(&mut rows), at(&mut values), at(&mut out), at(&mut counts), at(&mut list), at(&mut one));
    let g = at(&mut long);
    refused!(run, "component_spectrum", 3, raw::satmegwo_component_spectrum(3, 5, r, 8 + more, 9, v, 8), rows, values);
    refused!(run, "component_spectrum", 7, raw::satmegwo_component_spectrum(3, 5, r, 8, 9, v, 8 + more), rows, values);
    refused!(run, "add_to_column", 3, raw::satmegwo_add_to_column(3, 5, r, 8 + more, 2, 1, 1, o, 8), rows, out);
    refused!(run, "add_to_column", 7, raw::satmegwo_add_to_column(3, 5, r, 8, 2, 1, 1, o, 8 + more), rows, out);
    refused!(run, "xor_row", 3, raw::satmegwo_xor_row(3, 5, r, 8 + more, 1, c, 32), rows, counts);
    refused!(run, "xor_row", 7, raw::satmegwo_xor_row(3, 5, r, 8, 1, c, 32 + more), rows, counts);
    refused!(run, "largest_cells", 3, raw::satmegwo_largest_cells(3, 5, r, 8 + more, l, 40, f, 1), rows, list, one);
    refused!(run, "largest_cells", 7, raw::satmegwo_largest_cells(3, 5, r, 8, l, 40, f, 1 + more), rows, list, one);
    refused!(run, "nearest_pairs", 3, raw::satmegwo_nearest_pairs(3, 5, r, 8 + more, 5, l, 40, g, 1), rows, list, long);
    refused!(run, "nearest_pairs", 7, raw::satmegwo_nearest_pairs(3, 5, r, 8, 5, l, 40, g, 1 + more), rows, list, long);
}

fn boxes_made_from_boxes(run: &mut Run, more: usize) {
    let (mut table, mut rows) = (random_table(run, 3), random_box(run, 3, 3));
    let (mut column, mut wide) = (run.lend::<u8>(16), run.lend::<u32>(16));
    let (t, r, c, w) = (at(&mut table), at(&mut rows), at(&mut column), at(&mut wide));
    refused!(run, "enlarge_column", 3, raw::satmegwo_enlarge_column(3, t, 8 + more, 1, 1, c, 16), table, column);
    refused!(run, "enlarge_column", 7, raw::satmegwo_enlarge_column(3, t, 8, 1, 1, c, 16 + more), table, column);
    refused!(run, "enlarge_box", 3, raw::satmegwo_enlarge_box(3, r, 8 + more, t, 8, 1, w, 16), rows, table, wide);
    refused!(run, "enlarge_box", 3, raw::satmegwo_enlarge_box(3, r, 8, t, 8 + more, 1, w, 16), rows, table, wide);
    refused!(run, "enlarge_box", 7, raw::satmegwo_enlarge_box(3, r, 8, t, 8, 1, w, 16 + more), rows, table, wide);
    let permutation = boxes::random_permutation(2, &mut run.random);
    let (mut permutation, mut half) = (run.copy(&permutation), random_table(run, 2));
    let (p, h) = (at(&mut permutation), at(&mut half));
    refused!(run, "bent_function", 3, raw::satmegwo_bent_function(4, p, 4 + more, h, 4, c, 16), permutation, half, column);
    refused!(run, "bent_function", 3, raw::satmegwo_bent_function(4, p, 4, h, 4 + more, c, 16), permutation, half, column);
    refused!(run, "bent_function", 7, raw::satmegwo_bent_function(4, p, 4, h, 4, c, 16 + more), permutation, half, column);
}

fn files_and_catalogues(run: &mut Run, more: usize) {
    let file = model::file_of(1, 2, &[3, 1]);
    let (mut file, mut empty) = (run.copy(&file), run.copy(&[0u8; 300]));
    let (mut rows, mut two, mut one) = (run.lend::<u32>(2), run.lend::<u32>(2), run.lend::<u32>(1));
    let (f, b, r, f2, f1) = (at(&mut file), at(&mut empty), at(&mut rows), at(&mut two), at(&mut one));
    refused!(run, "read_box", 10, raw::satmegwo_read_box(f, 10 + more, r, 2, f2, 2), file, rows, two);
    refused!(run, "read_box", 7, raw::satmegwo_read_box(f, 10, r, 2 + more, f2, 2), file, rows, two);
    refused!(run, "read_box", 7, raw::satmegwo_read_box(f, 10, r, 2, f2, 2 + more), file, rows, two);
    refused!(run, "check_catalogue", 13, raw::satmegwo_check_catalogue(b, 300 + more, f1, 1), empty, one);
    refused!(run, "check_catalogue", 7, raw::satmegwo_check_catalogue(b, 300, f1, 1 + more), empty, one);
    refused!(run, "add_record", 13, raw::satmegwo_add_record(b, 300 + more, f, 10, f1, 1), empty, file, one);
    refused!(run, "add_record", 10, raw::satmegwo_add_record(b, 300, f, 10 + more, f1, 1), empty, file, one);
    refused!(run, "add_record", 7, raw::satmegwo_add_record(b, 300, f, 10, f1, 1 + more), empty, file, one);
    refused!(run, "remove_record", 13, raw::satmegwo_remove_record(b, 300 + more, 0), empty);
    refused!(run, "fetch_record", 13, raw::satmegwo_fetch_record(b, 300 + more, 0, f2, 2), empty, two);
    refused!(run, "compact_catalogue", 13, raw::satmegwo_compact_catalogue(b, 300 + more), empty);
}

/// A box file that is too long has a sheet, which says so.
fn boxes_written_and_sheets(run: &mut Run, more: usize) {
    let (mut rows, mut file) = (run.copy(&[3, 1]), run.copy(&model::file_of(1, 2, &[3, 1])));
    let (mut text, mut one) = (run.lend::<u8>(332), run.lend::<u32>(1));
    let (r, f, t, f1) = (at(&mut rows), at(&mut file), at(&mut text), at(&mut one));
    refused!(run, "check_box", 3, raw::satmegwo_check_box(1, 2, r, 2 + more), rows);
    refused!(run, "write_box", 3, raw::satmegwo_write_box(1, 2, r, 2 + more, f, 10), rows, file);
    refused!(run, "write_box", 7, raw::satmegwo_write_box(1, 2, r, 2, f, 10 + more), rows, file);
    refused!(run, "sheet", 7, raw::satmegwo_sheet(f, 10, t, 332 + more, f1, 1), file, text, one);
    refused!(run, "sheet", 7, raw::satmegwo_sheet(f, 10, t, 332, f1, 1 + more), file, text, one);
    run.calling("sheet");
    let code = unsafe { raw::satmegwo_sheet(f, 10 + more, t, 332, f1, 1) };
    let said = text.content().starts_with(b"refused 10\n") && text.untouched_from(11) && one.holds(&[11]);
    run.compared(false, code == 0 && said && file.untouched(), || format!("the sheet of a file too long by {more}: {code}"));
}

fn packed_columns(run: &mut Run, more: usize) {
    let (mut rows, mut packed) = (random_box(run, 3, 5), run.lend::<u8>(5));
    let (r, p) = (at(&mut rows), at(&mut packed));
    refused!(run, "pack_columns", 3, raw::satmegwo_pack_columns(3, 5, r, 8 + more, p, 5), rows, packed);
    refused!(run, "pack_columns", 7, raw::satmegwo_pack_columns(3, 5, r, 8, p, 5 + more), rows, packed);
    refused!(run, "unpack_columns", 3, raw::satmegwo_unpack_columns(3, 5, p, 5 + more, r, 8), rows, packed);
    refused!(run, "unpack_columns", 7, raw::satmegwo_unpack_columns(3, 5, p, 5, r, 8 + more), rows, packed);
}

/// Each of the four boxes in turn, and the figures.
fn sums(run: &mut Run, more: usize) {
    let (mut rows, mut figures) = (random_box(run, 2, 3), run.lend::<u32>(7));
    let (r, f) = (at(&mut rows), at(&mut figures));
    for place in 0..4 {
        let length = |k: usize| if k == place { 4 + more } else { 4 };
        refused!(
            run,
            "sum_nonlinearity",
            3,
            raw::satmegwo_sum_nonlinearity(4, 2, 3, r, length(0), 2, 3, r, length(1), 2, 3, r, length(2), 2, 3, r, length(3), 1, f, 7),
            rows,
            figures
        );
    }
    refused!(
        run,
        "sum_nonlinearity",
        7,
        raw::satmegwo_sum_nonlinearity(4, 2, 3, r, 4, 2, 3, r, 4, 2, 3, r, 4, 2, 3, r, 4, 1, f, 7 + more),
        rows,
        figures
    );
}

fn parts(run: &mut Run, more: usize) {
    let (mut rows, mut five, mut four) = (random_box(run, 3, 5), run.lend::<u32>(5), run.lend::<u32>(4));
    let (r, f5, f4) = (at(&mut rows), at(&mut five), at(&mut four));
    refused!(run, "nonlinearity_between", 3, raw::satmegwo_nonlinearity_between(3, 5, r, 8 + more, 5, 1, 31, f5, 5), rows, five);
    refused!(run, "nonlinearity_between", 7, raw::satmegwo_nonlinearity_between(3, 5, r, 8, 5, 1, 31, f5, 5 + more), rows, five);
    refused!(run, "autocorrelation_between", 3, raw::satmegwo_autocorrelation_between(3, 5, r, 8 + more, 5, 1, 31, f4, 4), rows, four);
    refused!(run, "autocorrelation_between", 7, raw::satmegwo_autocorrelation_between(3, 5, r, 8, 5, 1, 31, f4, 4 + more), rows, four);
    refused!(run, "dynamic_distance_between", 3, raw::satmegwo_dynamic_distance_between(3, 5, r, 8 + more, 5, 3, 1, 31, f4, 4), rows, four);
    refused!(run, "dynamic_distance_between", 7, raw::satmegwo_dynamic_distance_between(3, 5, r, 8, 5, 3, 1, 31, f4, 4 + more), rows, four);
    let (mut narrow, mut eight) = (random_box(run, 2, 3), run.lend::<u32>(8));
    let (b, f8) = (at(&mut narrow), at(&mut eight));
    for place in 0..5 {
        let length = |k: usize| if k == place { 4 + more } else { 4 };
        let part_len = if place == 4 { 8 + more } else { 8 };
        let [l1, l2, l3, l4] = [0, 1, 2, 3].map(length);
        run.calling("sum_nonlinearity_between");
        let code =
            unsafe { raw::satmegwo_sum_nonlinearity_between(4, 2, 3, b, l1, 2, 3, b, l2, 2, 3, b, l3, 2, 3, b, l4, 1, 1, 7, f8, part_len) };
        let same = code == if place == 4 { 7 } else { 3 } && narrow.untouched() && eight.untouched();
        run.compared(true, same, || format!("sum_nonlinearity_between with array {place} too long by {more}: {code}"));
    }
    let (mut x, mut y, mut merged) = (run.copy(&[1u32, 5, 1]), run.copy(&[1u32, 5, 2]), run.lend::<u32>(3));
    let (p, q, o) = (at(&mut x), at(&mut y), at(&mut merged));
    refused!(run, "merge_least", 3, raw::satmegwo_merge_least(p, 3 + more, q, 3, o, 3), x, y, merged);
    refused!(run, "merge_least", 3, raw::satmegwo_merge_least(p, 3, q, 3 + more, o, 3), x, y, merged);
    refused!(run, "merge_least", 7, raw::satmegwo_merge_least(p, 3, q, 3, o, 3 + more), x, y, merged);
    refused!(run, "merge_largest", 3, raw::satmegwo_merge_largest(p, 3 + more, q, 3, o, 3), x, y, merged);
    refused!(run, "merge_largest", 3, raw::satmegwo_merge_largest(p, 3, q, 3 + more, o, 3), x, y, merged);
    refused!(run, "merge_largest", 7, raw::satmegwo_merge_largest(p, 3, q, 3, o, 3 + more), x, y, merged);
}

fn designs_and_servers(run: &mut Run, more: usize) {
    let (mut rows, mut widths, mut five) = (random_box(run, 2, 3), run.lend::<u32>(2), run.lend::<u32>(5));
    let (r, w, f) = (at(&mut rows), at(&mut widths), at(&mut five));
    let begun = slices::design::begin(2, 3, rows.content()).design;
    let served = slices::server::put(slices::server::begin(), 1, 2, 3, rows.content()).server;
    refused!(run, "design_begin", 3, raw::satmegwo_design_begin(2, 3, r, 4 + more).status, rows);
    refused!(run, "design_read", 7, raw::satmegwo_design_read(begun, r, 4 + more, w, 2), rows, widths);
    refused!(run, "design_read", 7, raw::satmegwo_design_read(begun, r, 4, w, 2 + more), rows, widths);
    refused!(run, "server_put", 3, raw::satmegwo_server_put(served, 2, 2, 3, r, 4 + more).status, rows);
    refused!(run, "server_ask", 7, raw::satmegwo_server_ask(served, 1, f, 5 + more), five);
}

/// A list may be longer than there are cells, or pairs, by any number: only so many are written.
fn long_lists(run: &mut Run, more: usize) {
    let rows = boxes::random_rows(3, 5, &mut run.random);
    let cells = model::largest_cells(3, 5, &rows, usize::MAX, 1).expect("nothing to refuse");
    let (mut read, mut list, mut one) = (run.copy(&rows), run.lend::<u64>(cells.len()), run.lend::<u32>(1));
    run.calling("largest_cells");
    let (r, l, f) = (at(&mut read), at(&mut list), at(&mut one));
    let code = unsafe { raw::satmegwo_largest_cells(3, 5, r, 8, l, more, f, 1) };
    let same = code == 0 && read.untouched() && list.holds(&cells) && one.holds(&[cells.len() as u32]);
    run.compared(false, same, || format!("largest_cells with a list of {more}: {code}, {:?} of {rows:?}", list.content()));
    let pairs = model::nearest_pairs(3, 5, &rows, 5, usize::MAX, 1).expect("nothing to refuse");
    let (mut list, mut long) = (run.lend::<u64>(pairs.len()), run.lend::<u64>(1));
    run.calling("nearest_pairs");
    let (l, g) = (at(&mut list), at(&mut long));
    let code = unsafe { raw::satmegwo_nearest_pairs(3, 5, r, 8, 5, l, more, g, 1) };
    let same = code == 0 && read.untouched() && list.holds(&pairs) && long.holds(&[pairs.len() as u64]);
    run.compared(false, same, || format!("nearest_pairs with a list of {more}: {code}, {:?} of {rows:?}", list.content()));
}
