//! The list of all largest cells of the XOR table, on boxes that are chosen for it, and the list of all
//! nearest pairs, held against one nonlinearity call.
use crate::calls::{aes, Job};
use crate::peers::{self, MOST_CELLS};
use crate::rows::{Other, Row, Rows};
use satmegwo::slices as library;
use second_model::boxes::{cubes, random_rows};
use second_model::random::Random;
use second_model::{counted, fast_cells};

/// A list that is lent: the first entries are what a call says, and what is past them is not
/// compared.
#[derive(Clone)]
struct Listed {
    number: usize,
    cells: Vec<u64>,
}

impl PartialEq for Listed {
    fn eq(&self, other: &Listed) -> bool {
        self.cells[..self.number] == other.cells[..other.number]
    }
}

/// AES has 1,275 nearest pairs; the wide boxes have far fewer.
const MOST_PAIRS: usize = 4096;

/// One cell in each row of the XOR table (AES, the identity, a constant); as many as a row can
/// have, one for each pair of inputs (the cube, and nearly always a random box of 32 outputs);
/// and a few in some rows.
pub fn measure(rows: &Rows, random: &mut Random) -> Result<(), String> {
    let boxes = [
        ("AES", 8, aes()),
        ("identity", 8, (0..256).collect()),
        ("constant", 8, vec![99; 256]),
        ("cube", 8, cubes()),
        ("random", 16, random_rows(8, 16, random)),
        ("random", 32, random_rows(8, 32, random)),
    ];
    for (kind, m, chosen) in boxes {
        rows.measure(&Row {
            size: format!("8x{m}"),
            name: format!("list of cells, {kind}"),
            inputs: &[Job::new(8, m, chosen)],
            lent: Listed { number: 0, cells: vec![0; MOST_CELLS] },
            fresh: false,
            library: &by_library,
            second: Some(&by_second),
            peer: Some(&by_peer),
            other: None,
            bar: None,
        })?;
    }
    measure_pairs(rows, random)
}

/// A box of which many combinations reach the figure (AES), and wide ones of which few do.
fn measure_pairs(rows: &Rows, random: &mut Random) -> Result<(), String> {
    for (kind, m, chosen) in [("AES", 8, aes()), ("random", 16, random_rows(8, 16, random)), ("random", 32, random_rows(8, 32, random))] {
        rows.measure(&Row {
            size: format!("8x{m}"),
            name: format!("list of nearest pairs, {kind}"),
            inputs: &[Job::new(8, m, chosen)],
            lent: Listed { number: 0, cells: vec![0; MOST_PAIRS] },
            fresh: false,
            library: &pairs_by_library,
            second: Some(&pairs_by_second),
            peer: None,
            other: Some(Other { name: "nonlinearity", call: &nonlinearity_alone, same: false }),
            bar: None,
        })?;
    }
    Ok(())
}

fn pairs_by_library(job: &Job, listed: &mut Listed) {
    let mut number = [0];
    let code = library::nearest_pairs(job.n, job.m, &job.rows, job.i, &mut listed.cells, &mut number);
    assert_eq!(code, 0, "the library refused a sound box");
    listed.number = number[0] as usize;
}

/// The second program counts every pair, and makes a list of its own.
fn pairs_by_second(job: &Job, listed: &mut Listed) {
    listed.cells = counted::nearest_pairs(job.n, job.m, &job.rows, job.i);
    listed.number = listed.cells.len();
}

fn nonlinearity_alone(job: &Job, listed: &mut Listed) {
    let mut figures = [0; 4];
    assert_eq!(library::nonlinearity(job.n, job.m, &job.rows, job.i, &mut figures), 0, "the library refused a sound box");
    listed.number = figures[0] as usize;
}

fn by_library(job: &Job, listed: &mut Listed) {
    let mut number = [0];
    assert_eq!(library::largest_cells(job.n, job.m, &job.rows, &mut listed.cells, &mut number), 0, "the library refused a sound box");
    listed.number = number[0] as usize;
}

/// The second program makes a list of its own.
fn by_second(job: &Job, listed: &mut Listed) {
    listed.cells = fast_cells::largest_cells(job.m, &job.rows);
    listed.number = listed.cells.len();
}

fn by_peer(job: &Job, listed: &mut Listed) {
    listed.number = peers::largest_cells(job.n, job.m, &job.rows, &mut listed.cells) as usize;
}
