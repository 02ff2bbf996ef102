//! All nearest pairs: at every limit of boxes of few outputs, at low limits of wide boxes, on boxes of
//! every kind, with lists of every length that matters.
use crate::calls::{Run, NONLINEARITY};
use second_model::boxes::{self, KINDS};
use second_model::model;

/// Every limit of boxes of up to 6 outputs, one of which a combination of as many outputs as the limit
/// is affine; then low limits of boxes above 16 outputs.
pub fn all(run: &mut Run) {
    for (n, m) in (1..=8).flat_map(|n| (1..=6).map(move |m| (n, m))) {
        for i in 1..=m {
            let affine = boxes::affine_from(i, n, m, &mut run.random);
            let kind = run.random.below(KINDS);
            let other = boxes::of_kind(kind, n, m, &mut run.random);
            for rows in [affine, other] {
                lists(run, n, m, &rows, i);
                begins_with_the_witness(run, n, m, &rows, i);
            }
        }
    }
    for (n, m, i) in [(8, 17, 2), (8, 32, 2), (5, 24, 3), (3, 32, 3), (1, 31, 2), (2, 17, 17)] {
        let kind = run.random.below(KINDS);
        let rows = boxes::of_kind(kind, n, m, &mut run.random);
        lists(run, n, m, &rows, i);
        begins_with_the_witness(run, n, m, &rows, i);
    }
    lists(run, 8, 8, &boxes::cubes(), 8);
}

/// The list exactly long enough, one too short, longer, and empty.
pub fn lists(run: &mut Run, n: u32, m: u32, rows: &[u32], i: u32) {
    let pairs = model::nearest_pairs(n, m, rows, i, usize::MAX, 1);
    let number = pairs.as_ref().map_or(1, |pairs| pairs.len());
    for list_len in [number, number - 1, number + 1, number + 100, 0] {
        let wanted = pairs.clone().and_then(|pairs| if list_len < number { Err(model::LIST_TOO_SHORT) } else { Ok(pairs) });
        run.nearest_pairs_known(n, m, rows, i, (list_len, 1), wanted);
    }
}

/// The first of the pairs is the one that the nonlinearity call names.
fn begins_with_the_witness(run: &mut Run, n: u32, m: u32, rows: &[u32], i: u32) {
    let first = model::nearest_pairs(n, m, rows, i, usize::MAX, 1).map(|pairs| pairs[0]);
    let witness = run.limited_figures(&NONLINEARITY, n, m, rows, i, 4).map(|figures| model::coded_pair(figures[1], figures[2], figures[3]));
    run.law("the list of pairs begins with the witness", witness.is_some() && witness == first.ok(), || {
        format!("{witness:?}, and the list begins with {first:?}, n = {n}, m = {m}, i = {i}, rows = {rows:?}")
    });
}
