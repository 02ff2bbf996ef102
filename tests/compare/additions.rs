//! Document 02, section 12: lists of column additions, made by the library's calls, against
//! the same lists made shorter, and what no list changes.
use crate::calls::{Run, AUTOCORRELATION, NONLINEARITY};
use second_model::additions::{self, Addition};
use second_model::boxes;
use second_model::combinations::quick_limit;

/// How many lists there are.
const LISTS: u32 = 1000;

pub fn all(run: &mut Run) {
    for round in 0..LISTS {
        let (most_inputs, most_outputs) = run.random.pick(&[(3, 3), (6, 6), (5, 32), (8, 8)]);
        let (n, m) = (run.random.between(1, most_inputs), run.random.between(1, most_outputs));
        let rows = boxes::of_kind(round, n, m, &mut run.random);
        let list: Vec<Addition> = (0..run.random.below(3 * m.min(8))).map(|_| any_addition(run, n, m)).collect();
        shorter_list(run, n, m, &rows, &list);
        two_in_one_column(run, n, m, &rows);
        exchanged(run, n, m, &rows, &list);
        kept_figures(run, n, m, &rows, &list);
    }
}

/// Mostly one that is accepted; each argument is now and then outside its range.
fn any_addition(run: &mut Run, n: u32, m: u32) -> Addition {
    let right = Addition { column: run.random.between(1, m), mask: run.random.below(1 << n), constant: run.random.below(2), lent: 1 << n };
    match run.random.below(16) {
        0 => Addition { column: run.random.pick(&[0, m + 1, u32::MAX]), ..right },
        1 => Addition { mask: run.random.pick(&[1 << n, u32::MAX]), ..right },
        2 => Addition { constant: run.random.pick(&[2, u32::MAX]), ..right },
        3 => Addition { lent: run.random.pick(&[0, (1 << n) - 1, (1 << n) + 1]), ..right },
        _ => right,
    }
}

/// The rows that stand after the library's calls, each of which is compared with the model's.
fn after(run: &mut Run, n: u32, m: u32, rows: &[u32], list: &[Addition]) -> Vec<u32> {
    let mut standing = rows.to_vec();
    for a in list {
        if let Some(new_rows) = run.add_to_column(n, m, &standing, (a.column, a.mask, a.constant), a.lent) {
            standing = new_rows;
        }
    }
    standing
}

/// The short list leaves the same rows, and these are what the model leaves.
fn shorter_list(run: &mut Run, n: u32, m: u32, rows: &[u32], list: &[Addition]) {
    let short = additions::shortened(n, m, rows, list);
    let wanted = additions::standing_after(n, m, rows, list);
    let left = (after(run, n, m, rows, list), after(run, n, m, rows, &short));
    run.law("a list made shorter", left == (wanted.clone(), wanted), || {
        format!("{n} by {m}: {rows:?} after {list:?}, and after {short:?}: {left:?}")
    });
}

/// Two accepted additions to one column equal one, and one that is made twice restores the box.
fn two_in_one_column(run: &mut Run, n: u32, m: u32, rows: &[u32]) {
    let column = run.random.between(1, m);
    let mut accepted = || Addition { column, mask: run.random.below(1 << n), constant: run.random.below(2), lent: 1 << n };
    let (a, b) = (accepted(), accepted());
    let left = (after(run, n, m, rows, &[a, b]), after(run, n, m, rows, &[a.and(b)]));
    run.law("two additions as one", left.0 == left.1, || {
        format!("{n} by {m}: {rows:?} after {a:?} and {b:?}, and after both as one: {left:?}")
    });
    let back = after(run, n, m, rows, &[a, a]);
    run.law("an addition made twice", back == rows, || format!("{n} by {m}: {rows:?} after {a:?} made twice: {back:?}"));
}

/// A list in any other order leaves the same rows.
fn exchanged(run: &mut Run, n: u32, m: u32, rows: &[u32], list: &[Addition]) {
    let mut other = list.to_vec();
    run.random.shuffle(&mut other);
    let left = (after(run, n, m, rows, list), after(run, n, m, rows, &other));
    run.law("additions exchanged", left.0 == left.1, || format!("{n} by {m}: {rows:?} after {list:?}, and after {other:?}: {left:?}"));
}

/// Autocorrelation and dynamic distance are the same, figure and witness, and of the
/// nonlinearity the figure. All of them must be there.
fn kept_figures(run: &mut Run, n: u32, m: u32, rows: &[u32], list: &[Addition]) {
    let (i, j) = (run.random.between(1, quick_limit(n, m)), run.random.between(1, n));
    let later = after(run, n, m, rows, list);
    let mut figures = |rows: &[u32]| {
        let largest = run.limited_figures(&AUTOCORRELATION, n, m, rows, i, 3)?;
        let distance = run.dynamic_distance(n, m, rows, (i, j), 3)?;
        let least = run.limited_figures(&NONLINEARITY, n, m, rows, i, 4)?;
        Some((largest, distance, least[0]))
    };
    let (before, now) = (figures(rows), figures(&later));
    run.law("figures that no list changes", before.is_some() && before == now, || {
        format!("{n} by {m}, i = {i}, j = {j}: {before:?} of {rows:?} became {now:?} after {list:?}")
    });
}
