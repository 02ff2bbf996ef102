//! The calls that give figures of a box: from the library, the second program and the C peers.
use crate::peers;
use crate::rows::{Other, Row};
use satmegwo::slices as library;
use second_model::published;
use second_model::rounds::{self, Summand};
use second_model::sheet::limit;
use second_model::swaps::raising_swap_quickly;
use second_model::{fast, fast_cells};

/// A box, or four of them with their rows one after the other, and the order of a distance. The limit
/// of the other figures is i too.
#[derive(Clone)]
pub struct Job {
    pub n: u32,
    pub m: u32,
    pub rows: Vec<u32>,
    pub i: u32,
    pub j: u32,
}

impl Job {
    /// With the sheet's limit, and every change.
    pub fn new(n: u32, m: u32, rows: Vec<u32>) -> Job {
        Job { n, m, rows, i: limit(m), j: n }
    }

    pub fn of_order(&self, i: u32, j: u32) -> Job {
        Job { i, j, ..self.clone() }
    }
}

/// The rows of the AES box.
pub fn aes() -> Vec<u32> {
    published::all().into_iter().find(|known| known.name == "aes").expect("it is among them").rows
}

/// As many figures as a sheet has; a call with fewer leaves the others as they are.
pub type Figures = [u32; 20];
pub type Call = fn(&Job, &mut Figures);

/// One call, from each of the three.
#[derive(Clone, Copy)]
pub struct Measure {
    pub library: Call,
    pub second: Call,
    pub peer: Call,
}

impl Measure {
    /// A row of boxes of one size.
    pub fn row<'a>(&'a self, name: &str, jobs: &'a [Job]) -> Row<'a, Job, Figures> {
        Row {
            size: format!("{}x{}", jobs[0].n, jobs[0].m),
            name: name.to_string(),
            inputs: jobs,
            lent: [0; 20],
            fresh: false,
            library: &self.library,
            second: Some(&self.second),
            peer: Some(&self.peer),
            other: None,
            bar: None,
        }
    }

    /// The same, held against one nonlinearity call too.
    pub fn row_to_nonlinearity<'a>(&'a self, name: &str, jobs: &'a [Job]) -> Row<'a, Job, Figures> {
        let other = Other { name: "nonlinearity", call: &library_nonlinearity, same: false };
        Row { other: Some(other), ..self.row(name, jobs) }
    }
}

pub const NONLINEARITY: Measure = Measure { library: library_nonlinearity, second: second_nonlinearity, peer: peer_nonlinearity };
pub const NONLINEARITY_PART: Measure = Measure { library: library_part, ..NONLINEARITY };
pub const NONLINEARITY_16: Measure = Measure { second: second_nonlinearity_16, ..NONLINEARITY };
pub const CELL: Measure = Measure { library: library_cell, second: second_cell, peer: peer_cell };
pub const AUTOCORRELATION: Measure =
    Measure { library: library_autocorrelation, second: second_autocorrelation, peer: peer_autocorrelation };
pub const DISTANCE: Measure = Measure { library: library_distance, second: second_distance, peer: peer_distance };
pub const DEGREE: Measure = Measure { library: library_degree, second: second_degree, peer: peer_degree };
pub const DEGREE_SOLVED: Measure = Measure { peer: peer_degree_by_equations, ..DEGREE };
pub const SHEET: Measure = Measure { library: library_sheet, second: second_sheet, peer: peer_sheet };
pub const SUM: Measure = Measure { library: library_sum, second: second_sum, peer: peer_sum };
pub const SWAP: Measure = Measure { library: library_swap, second: second_swap, peer: peer_swap };

// The library's side. A refusal would spoil the figures, and the boxes give no cause.

fn accepted(refusal: u32) {
    assert_eq!(refusal, 0, "the library refused a sound box");
}

pub fn library_nonlinearity(job: &Job, figures: &mut Figures) {
    accepted(library::nonlinearity(job.n, job.m, first_box(job), job.i, &mut figures[..4]));
}

/// The nonlinearity as one part, from combination 1 to 2^m - 1.
fn library_part(job: &Job, figures: &mut Figures) {
    let mut part = [0; 5];
    accepted(library::nonlinearity_between(job.n, job.m, first_box(job), job.i, 1, u32::MAX >> (32 - job.m), &mut part));
    assert_eq!(part[0], 1, "there are combinations within every limit");
    figures[..4].copy_from_slice(&part[1..]);
}

fn library_cell(job: &Job, figures: &mut Figures) {
    accepted(library::largest_cell(job.n, job.m, &job.rows, &mut figures[..3]));
}

fn library_autocorrelation(job: &Job, figures: &mut Figures) {
    accepted(library::autocorrelation(job.n, job.m, &job.rows, job.i, &mut figures[..3]));
}

fn library_distance(job: &Job, figures: &mut Figures) {
    accepted(library::dynamic_distance(job.n, job.m, &job.rows, job.i, job.j, &mut figures[..3]));
}

fn library_degree(job: &Job, figures: &mut Figures) {
    accepted(library::degree(job.n, job.m, &job.rows, job.i, &mut figures[..2]));
}

/// All figures of the sheet, in its order; m is above 1 here, so that both distances exist.
fn library_sheet(job: &Job, figures: &mut Figures) {
    let Job { n, m, i, .. } = *job;
    accepted(library::nonlinearity(n, m, &job.rows, i, &mut figures[..4]));
    accepted(library::largest_cell(n, m, &job.rows, &mut figures[4..7]));
    accepted(library::autocorrelation(n, m, &job.rows, i, &mut figures[7..10]));
    accepted(library::dynamic_distance(n, m, &job.rows, 1, 1, &mut figures[10..13]));
    accepted(library::dynamic_distance(n, m, &job.rows, 2, 1, &mut figures[13..16]));
    accepted(library::degree(n, m, &job.rows, i, &mut figures[16..18]));
    accepted(library::complete(n, m, &job.rows, &mut figures[18..19]));
    accepted(library::bijective(n, m, &job.rows, &mut figures[19..]));
}

/// The first of four boxes, or the only one.
fn first_box(job: &Job) -> &[u32] {
    &job.rows[..1 << job.n]
}

fn library_sum(job: &Job, figures: &mut Figures) {
    let one = |k: usize| (job.n, job.m, &job.rows[k << job.n..(k + 1) << job.n]);
    accepted(library::sum_nonlinearity(4, [one(0), one(1), one(2), one(3)], job.i, &mut figures[..7]));
}

pub fn library_swap(job: &Job, figures: &mut Figures) {
    accepted(library::raising_swap(job.n, job.m, &job.rows, &mut figures[..4]));
}

// The second program's side.

fn second_nonlinearity(job: &Job, figures: &mut Figures) {
    figures[..4].copy_from_slice(&fast::nonlinearity(job.n, job.m, &job.rows, job.i));
}

fn second_nonlinearity_16(job: &Job, figures: &mut Figures) {
    figures[..4].copy_from_slice(&fast::nonlinearity_16(job.n, job.m, &job.rows, job.i));
}

fn second_cell(job: &Job, figures: &mut Figures) {
    figures[..3].copy_from_slice(&fast_cells::largest_cell(job.m, &job.rows));
}

fn second_autocorrelation(job: &Job, figures: &mut Figures) {
    figures[..3].copy_from_slice(&fast::autocorrelation(job.n, job.m, &job.rows, job.i));
}

fn second_distance(job: &Job, figures: &mut Figures) {
    figures[..3].copy_from_slice(&fast::dynamic_distance(job.n, job.m, &job.rows, job.i, job.j));
}

fn second_degree(job: &Job, figures: &mut Figures) {
    figures[..2].copy_from_slice(&fast::degree(job.n, job.m, &job.rows, job.i));
}

fn second_sheet(job: &Job, figures: &mut Figures) {
    let Job { n, m, i, .. } = *job;
    figures[..4].copy_from_slice(&fast::nonlinearity(n, m, &job.rows, i));
    figures[4..7].copy_from_slice(&fast_cells::largest_cell(m, &job.rows));
    figures[7..10].copy_from_slice(&fast::autocorrelation(n, m, &job.rows, i));
    figures[10..13].copy_from_slice(&fast::dynamic_distance(n, m, &job.rows, 1, 1));
    figures[13..16].copy_from_slice(&fast::dynamic_distance(n, m, &job.rows, 2, 1));
    figures[16..18].copy_from_slice(&fast::degree(n, m, &job.rows, i));
    figures[18] = u32::from(fast::complete(n, m, &job.rows));
    figures[19] = u32::from(fast::bijective(n, m, &job.rows));
}

fn second_sum(job: &Job, figures: &mut Figures) {
    let one = |rows: &[u32]| Summand { n: job.n, m: job.m, rows: rows.to_vec() };
    let boxes: Vec<Summand> = job.rows.chunks_exact(1 << job.n).map(one).collect();
    figures[..7].copy_from_slice(&rounds::by_products(&boxes, job.i));
}

fn second_swap(job: &Job, figures: &mut Figures) {
    figures[..4].copy_from_slice(&raising_swap_quickly(job.n, job.m, &job.rows));
}

// The C peers' side.

fn peer_nonlinearity(job: &Job, figures: &mut Figures) {
    peers::nonlinearity(job.n, job.m, &job.rows, job.i, &mut figures[..4]);
}

fn peer_cell(job: &Job, figures: &mut Figures) {
    peers::largest_cell(job.n, job.m, &job.rows, &mut figures[..3]);
}

fn peer_autocorrelation(job: &Job, figures: &mut Figures) {
    peers::autocorrelation(job.n, job.m, &job.rows, job.i, &mut figures[..3]);
}

fn peer_distance(job: &Job, figures: &mut Figures) {
    peers::distance(job.n, job.m, &job.rows, job.i, job.j, &mut figures[..3]);
}

fn peer_degree(job: &Job, figures: &mut Figures) {
    peers::degree(job.n, job.m, &job.rows, job.i, &mut figures[..2]);
}

/// For boxes whose limit is m alone.
fn peer_degree_by_equations(job: &Job, figures: &mut Figures) {
    peers::degree_by_equations(job.n, job.m, &job.rows, &mut figures[..2]);
}

fn peer_sheet(job: &Job, figures: &mut Figures) {
    let Job { n, m, i, .. } = *job;
    peers::nonlinearity(n, m, &job.rows, i, &mut figures[..4]);
    peers::largest_cell(n, m, &job.rows, &mut figures[4..7]);
    peers::autocorrelation(n, m, &job.rows, i, &mut figures[7..10]);
    peers::distance(n, m, &job.rows, 1, 1, &mut figures[10..13]);
    peers::distance(n, m, &job.rows, 2, 1, &mut figures[13..16]);
    peers::degree(n, m, &job.rows, i, &mut figures[16..18]);
    figures[18] = peers::complete(n, m, &job.rows);
    figures[19] = peers::bijective(n, m, &job.rows);
}

fn peer_sum(job: &Job, figures: &mut Figures) {
    peers::sum_of_four(job.n, job.m, &job.rows, job.i, &mut figures[..7]);
}

fn peer_swap(job: &Job, figures: &mut Figures) {
    peers::raising_swap(job.n, job.m, &job.rows, &mut figures[..4]);
}
