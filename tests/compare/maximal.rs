//! Document 02, section 13: the library's dynamic distance of order (i, n) against its
//! nonlinearity within i. Both are compared with what is counted, figure and witness; that the two
//! sides are the same of what is counted is a unit test of the model.
use crate::calls::{Run, NONLINEARITY};
use second_model::boxes::{self, KINDS};
use second_model::combinations::quick_limit;
use second_model::maximal::{bent_box, changes_evenly, meets_the_bound};

pub fn all(run: &mut Run) {
    if run.round == 0 {
        all_boxes_of_two_inputs(run);
    }
    for h in 1..=4 {
        for _ in 0..6 {
            bent_and_near(run, h);
        }
    }
    boxes_of_all_inputs(run);
}

/// The distance is 0 exactly if the bound is met, and exactly if all combinations within the
/// limit change evenly.
fn both_sides(run: &mut Run, n: u32, m: u32, rows: &[u32], i: u32) {
    let change = run.dynamic_distance(n, m, rows, (i, n), 3);
    let pair = run.limited_figures(&NONLINEARITY, n, m, rows, i, 4);
    let even = changes_evenly(n, m, rows, i);
    let sides = (change.as_ref().map(|found| found[0] == 0), pair.as_ref().map(|found| meets_the_bound(n, found[0])));
    run.law("even change and bent combinations", sides == (Some(even), Some(even)), || {
        format!("{n} by {m}, i = {i}: distance {change:?}, nonlinearity {pair:?}, evenly {even}, of {rows:?}")
    });
}

/// All of up to three outputs at each limit, and of four outputs at the highest.
fn all_boxes_of_two_inputs(run: &mut Run) {
    for m in 1..=4 {
        for number in 0..1u32 << (4 * m) {
            let rows: Vec<u32> = (0..4).map(|x| number >> (m * x) & ((1 << m) - 1)).collect();
            for i in if m < 4 { 1..=m } else { 4..=4 } {
                both_sides(run, 2, m, &rows, i);
            }
        }
    }
}

/// A box of 2h inputs whose combinations are all bent, at each limit; one bit away from it; and
/// with one column more, which is bent itself: within the limit 1 it stays even.
fn bent_and_near(run: &mut Run, h: u32) {
    let n = 2 * h;
    let permutation = boxes::random_permutation(h, &mut run.random);
    let g = boxes::random_rows(h, h, &mut run.random);
    let rows = bent_box(h, &permutation, &g);
    let mut near = rows.clone();
    near[run.random.below(1 << n) as usize] ^= 1 << run.random.below(h);
    for i in 1..=h {
        both_sides(run, n, h, &rows, i);
        both_sides(run, n, h, &near, i);
    }
    let twice: Vec<u32> = rows.iter().map(|row| row | (row & 1) << h).collect();
    for i in 1..=h + 1 {
        both_sides(run, n, h + 1, &twice, i);
    }
}

/// Boxes of every kind and width; with an odd number of inputs neither side occurs.
fn boxes_of_all_inputs(run: &mut Run) {
    for (n, m) in (1..=8).flat_map(|n| [1, 2, 3, 5, 9, 32].map(|m| (n, m))) {
        for kind in 0..KINDS {
            let rows = boxes::of_kind(kind, n, m, &mut run.random);
            let i = run.random.between(1, quick_limit(n, m).min(3));
            both_sides(run, n, m, &rows, i);
        }
    }
}
