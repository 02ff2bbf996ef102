//! The figures of random boxes of a few sizes, and of boxes that are chosen for a figure.
use crate::calls::{library_nonlinearity, Job, AUTOCORRELATION, CELL, DEGREE, DEGREE_SOLVED, DISTANCE};
use crate::calls::{NONLINEARITY, NONLINEARITY_16, NONLINEARITY_PART, SHEET, SUM};
use crate::rows::{Other, Row, Rows};
use crate::table::Bar;
use second_model::boxes::{affine_columns, random_rows};
use second_model::random::Random;

/// Sizes of random boxes, and how many boxes make a round.
const SIZES: [(u32, u32, usize); 4] = [(6, 4, 200), (8, 8, 10), (8, 16, 1), (8, 32, 1)];

/// How many boxes make a round where they are small.
const SMALL: usize = 10;

pub fn measure(rows: &Rows, random: &mut Random) -> Result<(), String> {
    for (n, m, boxes) in SIZES {
        of_random_boxes(&random_boxes(n, m, boxes, random), rows)?;
    }
    for n in [3, 4] {
        rows.measure(&AUTOCORRELATION.row("autocorrelation", &random_boxes(n, 8, SMALL, random)))?;
    }
    distances(rows, random)?;
    degrees_of_chosen_boxes(rows, random)?;
    sums_of_boxes(rows, random)?;
    cells_in_turn(rows, random)
}

fn random_boxes(n: u32, m: u32, boxes: usize, random: &mut Random) -> Vec<Job> {
    (0..boxes).map(|_| Job::new(n, m, random_rows(n, m, random))).collect()
}

fn of_random_boxes(jobs: &[Job], rows: &Rows) -> Result<(), String> {
    let bar = (jobs[0].n == 8).then_some(Bar::Peer(1.1));
    rows.measure(&Row { bar, ..NONLINEARITY.row("nonlinearity", jobs) })?;
    let plain = Other { name: "nonlinearity", call: &library_nonlinearity, same: true };
    rows.measure(&Row { other: Some(plain), ..NONLINEARITY_PART.row("nonlinearity, as one part", jobs) })?;
    rows.measure(&NONLINEARITY_16.row("nonlinearity, second in 16 bits", jobs))?;
    let bar = (jobs[0].n == 8).then_some(Bar::Peer(1.15));
    rows.measure(&Row { bar, ..CELL.row("XOR cell", jobs) })?;
    rows.measure(&AUTOCORRELATION.row("autocorrelation", jobs))?;
    for (i, j) in [(1, 1), (2, 1), (jobs[0].i, jobs[0].j)] {
        of_order(i, j, jobs, rows)?;
    }
    rows.measure(&DEGREE.row("degree", jobs))?;
    rows.measure(&SHEET.row("whole sheet", jobs))
}

/// The dynamic distance of order (i, j).
fn of_order(i: u32, j: u32, jobs: &[Job], rows: &Rows) -> Result<(), String> {
    let jobs: Vec<Job> = jobs.iter().map(|job| job.of_order(i, j)).collect();
    rows.measure(&DISTANCE.row(&format!("distance ({i},{j})"), &jobs))
}

/// Over all combinations of 8 by 8 boxes, with more and more changes; all changes stand above.
fn distances(rows: &Rows, random: &mut Random) -> Result<(), String> {
    let jobs = random_boxes(8, 8, 1, random);
    (1..8).try_for_each(|j| of_order(8, j, &jobs, rows))
}

/// The XOR cell of so many boxes that a processor cannot learn the course of any: where it is asked of one
/// box again and again, branches are guessed right that take time on a box that comes for the first time.
fn cells_in_turn(rows: &Rows, random: &mut Random) -> Result<(), String> {
    for (n, m, _) in SIZES {
        rows.measure(&CELL.row("XOR cell, 500 boxes in turn", &random_boxes(n, m, 500, random)))?;
    }
    Ok(())
}

/// The degree of 8 by 16 boxes. A random box has a high coefficient in nearly every combination; of an
/// affine box none has any; and where a single row is not 0 every word of the normal form is that row,
/// which half of all combinations find even.
fn degrees_of_chosen_boxes(rows: &Rows, random: &mut Random) -> Result<(), String> {
    let boxes = [
        ("random", random_rows(8, 16, random)),
        ("affine", affine_columns(8, 16, random)),
        ("one-row", (0..256).map(|x| if x == 0 { 65535 } else { 0 }).collect()),
    ];
    for (kind, chosen) in boxes {
        let jobs = [Job::new(8, 16, chosen)];
        rows.measure(&DEGREE.row_to_nonlinearity(&format!("degree, {kind} box"), &jobs))?;
        if kind == "random" {
            rows.measure(&DEGREE_SOLVED.row("degree, random box, peer solves", &jobs))?;
        }
    }
    Ok(())
}

/// Four random boxes added together, held against the nonlinearity of one of them: wide ones, and all
/// input widths at few outputs, where a sum should take less the fewer inputs there are.
fn sums_of_boxes(rows: &Rows, random: &mut Random) -> Result<(), String> {
    let wide = [(8, 16), (8, 32)].map(|(n, m)| (n, m, 1, Some(Bar::Peer(1.0))));
    let narrow = (1..=8).map(|n| (n, 6, SMALL, None));
    for (n, m, sums, bar) in wide.into_iter().chain(narrow) {
        let four = |_| (0..4).flat_map(|_| random_rows(n, m, random)).collect();
        let jobs: Vec<Job> = (0..sums).map(four).map(|rows| Job::new(n, m, rows)).collect();
        rows.measure(&Row { bar, ..SUM.row_to_nonlinearity("sum of four boxes", &jobs) })?;
    }
    Ok(())
}
