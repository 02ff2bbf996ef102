//! Arrays of no elements that have no address: the null pointer and the length 0. Each array of each
//! call in turn; the call looks at the length, and is refused by it.
use crate::calls::Run;
use crate::far::{at, random_box, random_table, refused};
use satmegwo::{raw, slices};
use second_model::model;
use second_model::rounds::{self, Summand};
use std::ptr::{null, null_mut};

pub fn all(run: &mut Run) {
    tables(run);
    figures_of_boxes(run);
    arrays_of_boxes(run);
    boxes_made_from_boxes(run);
    files(run);
    catalogues(run);
    sums(run);
    parts(run);
    designs_and_servers(run);
}

fn tables(run: &mut Run) {
    let (mut table, mut values, mut out) = (random_table(run, 3), run.lend::<i32>(8), run.lend::<u8>(8));
    let (t, v, o) = (at(&mut table), at(&mut values), at(&mut out));
    refused!(run, "spectrum", 3, raw::satmegwo_spectrum(3, null(), 0, v, 8), values);
    refused!(run, "spectrum", 7, raw::satmegwo_spectrum(3, t, 8, null_mut(), 0), table);
    refused!(run, "inverse_spectrum", 3, raw::satmegwo_inverse_spectrum(3, null(), 0, o, 8), out);
    refused!(run, "inverse_spectrum", 7, raw::satmegwo_inverse_spectrum(3, v, 8, null_mut(), 0), values);
    refused!(run, "normal_form", 3, raw::satmegwo_normal_form(3, null(), 0, o, 8), out);
    refused!(run, "normal_form", 7, raw::satmegwo_normal_form(3, t, 8, null_mut(), 0), table);
}

fn figures_of_boxes(run: &mut Run) {
    let (mut rows, mut four) = (random_box(run, 3, 5), run.lend::<u32>(4));
    let (mut three, mut two, mut one) = (run.lend::<u32>(3), run.lend::<u32>(2), run.lend::<u32>(1));
    let (r, f4, f3, f2, f1) = (at(&mut rows), at(&mut four), at(&mut three), at(&mut two), at(&mut one));
    refused!(run, "nonlinearity", 3, raw::satmegwo_nonlinearity(3, 5, null(), 0, 5, f4, 4), four);
    refused!(run, "nonlinearity", 7, raw::satmegwo_nonlinearity(3, 5, r, 8, 5, null_mut(), 0), rows);
    refused!(run, "raising_swap", 3, raw::satmegwo_raising_swap(3, 5, null(), 0, f4, 4), four);
    refused!(run, "raising_swap", 7, raw::satmegwo_raising_swap(3, 5, r, 8, null_mut(), 0), rows);
    refused!(run, "autocorrelation", 3, raw::satmegwo_autocorrelation(3, 5, null(), 0, 5, f3, 3), three);
    refused!(run, "autocorrelation", 7, raw::satmegwo_autocorrelation(3, 5, r, 8, 5, null_mut(), 0), rows);
    refused!(run, "dynamic_distance", 3, raw::satmegwo_dynamic_distance(3, 5, null(), 0, 5, 3, f3, 3), three);
    refused!(run, "dynamic_distance", 7, raw::satmegwo_dynamic_distance(3, 5, r, 8, 5, 3, null_mut(), 0), rows);
    refused!(run, "largest_cell", 3, raw::satmegwo_largest_cell(3, 5, null(), 0, f3, 3), three);
    refused!(run, "largest_cell", 7, raw::satmegwo_largest_cell(3, 5, r, 8, null_mut(), 0), rows);
    refused!(run, "degree", 3, raw::satmegwo_degree(3, 5, null(), 0, 5, f2, 2), two);
    refused!(run, "degree", 7, raw::satmegwo_degree(3, 5, r, 8, 5, null_mut(), 0), rows);
    refused!(run, "complete", 3, raw::satmegwo_complete(3, 5, null(), 0, f1, 1), one);
    refused!(run, "complete", 7, raw::satmegwo_complete(3, 5, r, 8, null_mut(), 0), rows);
    refused!(run, "bijective", 3, raw::satmegwo_bijective(3, 5, null(), 0, f1, 1), one);
    refused!(run, "bijective", 7, raw::satmegwo_bijective(3, 5, r, 8, null_mut(), 0), rows);
}

fn arrays_of_boxes(run: &mut Run) {
    let (mut rows, mut values, mut out) = (random_box(run, 3, 5), run.lend::<i32>(8), run.lend::<u32>(8));
    let (mut counts, mut list, mut one) = (run.lend::<u16>(32), run.lend::<u64>(40), run.lend::<u32>(1));
    let (mut packed, mut number) = (run.lend::<u8>(5), run.lend::<u64>(1));
    let (r, v, o, c, l, f) = (at(&mut rows), at(&mut values), at(&mut out), at(&mut counts), at(&mut list), at(&mut one));
    let (p, k) = (at(&mut packed), at(&mut number));
    refused!(run, "component_spectrum", 3, raw::satmegwo_component_spectrum(3, 5, null(), 0, 9, v, 8), values);
    refused!(run, "component_spectrum", 7, raw::satmegwo_component_spectrum(3, 5, r, 8, 9, null_mut(), 0), rows);
    refused!(run, "add_to_column", 3, raw::satmegwo_add_to_column(3, 5, null(), 0, 2, 1, 1, o, 8), out);
    refused!(run, "add_to_column", 7, raw::satmegwo_add_to_column(3, 5, r, 8, 2, 1, 1, null_mut(), 0), rows);
    refused!(run, "xor_row", 3, raw::satmegwo_xor_row(3, 5, null(), 0, 1, c, 32), counts);
    refused!(run, "xor_row", 7, raw::satmegwo_xor_row(3, 5, r, 8, 1, null_mut(), 0), rows);
    refused!(run, "largest_cells", 3, raw::satmegwo_largest_cells(3, 5, null(), 0, l, 40, f, 1), list, one);
    refused!(run, "largest_cells", 7, raw::satmegwo_largest_cells(3, 5, r, 8, l, 40, null_mut(), 0), rows, list);
    refused!(run, "largest_cells", 9, raw::satmegwo_largest_cells(3, 5, r, 8, null_mut(), 0, f, 1), rows, one);
    refused!(run, "nearest_pairs", 3, raw::satmegwo_nearest_pairs(3, 5, null(), 0, 5, l, 40, k, 1), list, number);
    refused!(run, "nearest_pairs", 7, raw::satmegwo_nearest_pairs(3, 5, r, 8, 5, l, 40, null_mut(), 0), rows, list);
    refused!(run, "nearest_pairs", 9, raw::satmegwo_nearest_pairs(3, 5, r, 8, 5, null_mut(), 0, k, 1), rows, number);
    refused!(run, "pack_columns", 3, raw::satmegwo_pack_columns(3, 5, null(), 0, p, 5), packed);
    refused!(run, "pack_columns", 7, raw::satmegwo_pack_columns(3, 5, r, 8, null_mut(), 0), rows);
    refused!(run, "unpack_columns", 3, raw::satmegwo_unpack_columns(3, 5, null(), 0, r, 8), rows);
    refused!(run, "unpack_columns", 7, raw::satmegwo_unpack_columns(3, 5, p, 5, null_mut(), 0), packed);
}

fn boxes_made_from_boxes(run: &mut Run) {
    let (mut table, mut rows) = (random_table(run, 3), random_box(run, 3, 3));
    let (mut column, mut wide) = (run.lend::<u8>(16), run.lend::<u32>(16));
    let (t, r, c, w) = (at(&mut table), at(&mut rows), at(&mut column), at(&mut wide));
    refused!(run, "enlarge_column", 3, raw::satmegwo_enlarge_column(3, null(), 0, 1, 1, c, 16), column);
    refused!(run, "enlarge_column", 7, raw::satmegwo_enlarge_column(3, t, 8, 1, 1, null_mut(), 0), table);
    refused!(run, "enlarge_box", 3, raw::satmegwo_enlarge_box(3, null(), 0, t, 8, 1, w, 16), table, wide);
    refused!(run, "enlarge_box", 3, raw::satmegwo_enlarge_box(3, r, 8, null(), 0, 1, w, 16), rows, wide);
    refused!(run, "enlarge_box", 7, raw::satmegwo_enlarge_box(3, r, 8, t, 8, 1, null_mut(), 0), rows, table);
    let (mut permutation, mut half) = (run.copy(&[2u8, 0, 3, 1]), random_table(run, 2));
    let (p, h) = (at(&mut permutation), at(&mut half));
    refused!(run, "bent_function", 3, raw::satmegwo_bent_function(4, null(), 0, h, 4, c, 16), half, column);
    refused!(run, "bent_function", 3, raw::satmegwo_bent_function(4, p, 4, null(), 0, c, 16), permutation, column);
    refused!(run, "bent_function", 7, raw::satmegwo_bent_function(4, p, 4, h, 4, null_mut(), 0), permutation, half);
}

fn files(run: &mut Run) {
    let (mut file, mut rows) = (run.copy(&model::file_of(1, 2, &[3, 1])), run.copy(&[3, 1]));
    let (mut two, mut one, mut text) = (run.lend::<u32>(2), run.lend::<u32>(1), run.lend::<u8>(332));
    let (f, r, f2, f1, t) = (at(&mut file), at(&mut rows), at(&mut two), at(&mut one), at(&mut text));
    refused!(run, "check_box", 3, raw::satmegwo_check_box(1, 2, null(), 0), rows);
    refused!(run, "write_box", 3, raw::satmegwo_write_box(1, 2, null(), 0, f, 10), file);
    refused!(run, "write_box", 7, raw::satmegwo_write_box(1, 2, r, 2, null_mut(), 0), rows);
    refused!(run, "read_box", 10, raw::satmegwo_read_box(null(), 0, r, 2, f2, 2), rows, two);
    refused!(run, "read_box", 7, raw::satmegwo_read_box(f, 10, null_mut(), 0, f2, 2), file, two);
    refused!(run, "read_box", 7, raw::satmegwo_read_box(f, 10, r, 2, null_mut(), 0), file, rows);
    refused!(run, "sheet", 7, raw::satmegwo_sheet(f, 10, null_mut(), 0, f1, 1), file, one);
    refused!(run, "sheet", 7, raw::satmegwo_sheet(f, 10, t, 332, null_mut(), 0), file, text);
    // A file of no bytes is no box file, and its sheet says so.
    run.calling("sheet");
    let code = unsafe { raw::satmegwo_sheet(null(), 0, t, 332, f1, 1) };
    let same = code == 0 && one.holds(&[11]) && text.content().starts_with(b"refused 10\n") && text.untouched_from(11);
    run.compared(false, same, || format!("the sheet of nothing: {code}, {:?}", text.content()));
}

fn catalogues(run: &mut Run) {
    let (mut empty, mut file) = (run.copy(&[0u8; 300]), run.copy(&model::file_of(1, 2, &[3, 1])));
    let (mut one, mut two) = (run.lend::<u32>(1), run.lend::<u32>(2));
    let (b, f, f1, f2) = (at(&mut empty), at(&mut file), at(&mut one), at(&mut two));
    refused!(run, "check_catalogue", 13, raw::satmegwo_check_catalogue(null(), 0, f1, 1), one);
    refused!(run, "check_catalogue", 7, raw::satmegwo_check_catalogue(b, 300, null_mut(), 0), empty);
    refused!(run, "add_record", 13, raw::satmegwo_add_record(null_mut(), 0, f, 10, f1, 1), file, one);
    refused!(run, "add_record", 10, raw::satmegwo_add_record(b, 300, null(), 0, f1, 1), empty, one);
    refused!(run, "add_record", 7, raw::satmegwo_add_record(b, 300, f, 10, null_mut(), 0), empty, file);
    refused!(run, "remove_record", 13, raw::satmegwo_remove_record(null_mut(), 0, 0), empty);
    refused!(run, "fetch_record", 13, raw::satmegwo_fetch_record(null(), 0, 0, f2, 2), two);
    refused!(run, "compact_catalogue", 13, raw::satmegwo_compact_catalogue(null_mut(), 0), empty);
}

/// Boxes past the number given are not read, and lent by nobody; those up to it are refused by 3.
fn sums(run: &mut Run) {
    let (mut rows, mut figures) = (random_box(run, 2, 3), run.lend::<u32>(7));
    let (r, f, none) = (at(&mut rows), at(&mut figures), null());
    for place in 0..4 {
        let lent = |k: usize| if k == place { (none, 0) } else { (r.cast_const(), 4) };
        let [(r1, l1), (r2, l2), (r3, l3), (r4, l4)] = [0, 1, 2, 3].map(lent);
        refused!(
            run,
            "sum_nonlinearity",
            3,
            raw::satmegwo_sum_nonlinearity(4, 2, 3, r1, l1, 2, 3, r2, l2, 2, 3, r3, l3, 2, 3, r4, l4, 1, f, 7),
            rows,
            figures
        );
    }
    run.calling("sum_nonlinearity");
    let mut figures = run.lend(5);
    let f = at(&mut figures);
    let code = unsafe { raw::satmegwo_sum_nonlinearity(2, 2, 3, r, 4, 2, 3, r, 4, 0, 0, none, 0, 0, 0, none, 0, 3, f, 5) };
    let one = Summand { n: 2, m: 3, rows: rows.content().to_vec() };
    let nothing = Summand { n: 0, m: 0, rows: Vec::new() };
    let wanted = rounds::sum_nonlinearity(2, &[one.clone(), one, nothing.clone(), nothing], 3, 5);
    run.judge(code, &[&rows], &figures, &wanted, || "a sum of two boxes and nothing".to_string());
}

fn parts(run: &mut Run) {
    let (mut rows, mut five, mut four) = (random_box(run, 3, 5), run.lend::<u32>(5), run.lend::<u32>(4));
    let (r, f5, f4) = (at(&mut rows), at(&mut five), at(&mut four));
    refused!(run, "nonlinearity_between", 3, raw::satmegwo_nonlinearity_between(3, 5, null(), 0, 5, 1, 31, f5, 5), five);
    refused!(run, "nonlinearity_between", 7, raw::satmegwo_nonlinearity_between(3, 5, r, 8, 5, 1, 31, null_mut(), 0), rows);
    refused!(run, "autocorrelation_between", 3, raw::satmegwo_autocorrelation_between(3, 5, null(), 0, 5, 1, 31, f4, 4), four);
    refused!(run, "autocorrelation_between", 7, raw::satmegwo_autocorrelation_between(3, 5, r, 8, 5, 1, 31, null_mut(), 0), rows);
    refused!(run, "dynamic_distance_between", 3, raw::satmegwo_dynamic_distance_between(3, 5, null(), 0, 5, 3, 1, 31, f4, 4), four);
    refused!(run, "dynamic_distance_between", 7, raw::satmegwo_dynamic_distance_between(3, 5, r, 8, 5, 3, 1, 31, null_mut(), 0), rows);
    let (mut narrow, mut eight) = (random_box(run, 2, 3), run.lend::<u32>(8));
    let (b, f8) = (at(&mut narrow), at(&mut eight));
    for place in 0..5 {
        let lent = |k: usize| if k == place { (null(), 0) } else { (b.cast_const(), 4) };
        let [(r1, l1), (r2, l2), (r3, l3), (r4, l4)] = [0, 1, 2, 3].map(lent);
        let (f, len) = if place == 4 { (null_mut(), 0) } else { (f8, 8) };
        run.calling("sum_nonlinearity_between");
        let code =
            unsafe { raw::satmegwo_sum_nonlinearity_between(4, 2, 3, r1, l1, 2, 3, r2, l2, 2, 3, r3, l3, 2, 3, r4, l4, 1, 1, 7, f, len) };
        let same = code == if place == 4 { 7 } else { 3 } && narrow.untouched() && eight.untouched();
        run.compared(true, same, || format!("sum_nonlinearity_between without array {place}: {code}"));
    }
    let (mut x, mut y, mut merged) = (run.copy(&[1u32, 5, 1]), run.copy(&[1u32, 5, 2]), run.lend::<u32>(3));
    let (p, q, o) = (at(&mut x), at(&mut y), at(&mut merged));
    refused!(run, "merge_least", 3, raw::satmegwo_merge_least(null(), 0, q, 3, o, 3), y, merged);
    refused!(run, "merge_least", 3, raw::satmegwo_merge_least(p, 3, null(), 0, o, 3), x, merged);
    refused!(run, "merge_least", 3, raw::satmegwo_merge_least(null(), 0, null(), 0, null_mut(), 0), x);
    refused!(run, "merge_least", 7, raw::satmegwo_merge_least(p, 3, q, 3, null_mut(), 0), x, y);
    refused!(run, "merge_largest", 3, raw::satmegwo_merge_largest(null(), 0, q, 3, o, 3), y, merged);
    refused!(run, "merge_largest", 3, raw::satmegwo_merge_largest(p, 3, null(), 0, o, 3), x, merged);
    refused!(run, "merge_largest", 3, raw::satmegwo_merge_largest(null(), 0, null(), 0, null_mut(), 0), x);
    refused!(run, "merge_largest", 7, raw::satmegwo_merge_largest(p, 3, q, 3, null_mut(), 0), x, y);
}

fn designs_and_servers(run: &mut Run) {
    let (mut rows, mut widths) = (random_box(run, 2, 3), run.lend::<u32>(2));
    let (r, w) = (at(&mut rows), at(&mut widths));
    let begun = slices::design::begin(2, 3, rows.content()).design;
    let served = slices::server::put(slices::server::begin(), 1, 2, 3, rows.content()).server;
    refused!(run, "design_begin", 3, raw::satmegwo_design_begin(2, 3, null(), 0).status, rows);
    refused!(run, "design_read", 7, raw::satmegwo_design_read(begun, null_mut(), 0, w, 2), widths);
    refused!(run, "design_read", 7, raw::satmegwo_design_read(begun, r, 4, null_mut(), 0), rows);
    refused!(run, "server_put", 3, raw::satmegwo_server_put(served, 2, 2, 3, null(), 0).status, rows);
    refused!(run, "server_ask", 7, raw::satmegwo_server_ask(served, 1, null_mut(), 0), rows);
}
