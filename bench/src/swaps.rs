//! The raising swap, held against one nonlinearity call of the same box too. Of AES no swap raises it, so
//! that each of the 32,640 is turned down; of a random permutation some swap does, and once it has been
//! climbed until none does, again each is turned down. Then small random boxes, of which there are few
//! swaps to try.
use crate::calls::{aes, library_swap, Job, SWAP};
use crate::rows::{Row, Rows};
use crate::table::Bar;
use second_model::boxes::{random_permutation, random_rows};
use second_model::random::Random;

/// How many small boxes make a round.
const SMALL: usize = 10;

/// How many permutations make a round. How soon a raising swap of one is found is chance: it takes a
/// library without nearest pairs 0.25 ms or 14.
const PERMUTATIONS: usize = 5;

pub fn measure(rows: &Rows, random: &mut Random) -> Result<(), String> {
    let permutations: Vec<Job> = (0..PERMUTATIONS).map(|_| permutation(random)).collect();
    let climbed = permutations.iter().cloned().map(climbed).collect();
    let boxes = [
        ("AES", vec![Job::new(8, 8, aes())], Some(Bar::Peer(4.0))),
        ("random permutation", permutations, None),
        ("climbed permutation", climbed, Some(Bar::Peer(8.0))),
    ];
    for (kind, jobs, bar) in boxes {
        rows.measure(&Row { bar, ..SWAP.row_to_nonlinearity(&format!("raising swap, {kind}"), &jobs) })?;
    }
    for (n, m) in [(4, 6), (5, 7)] {
        let jobs: Vec<Job> = (0..SMALL).map(|_| Job::new(n, m, random_rows(n, m, random))).collect();
        rows.measure(&SWAP.row_to_nonlinearity("raising swap, random box", &jobs))?;
    }
    Ok(())
}

fn permutation(random: &mut Random) -> Job {
    Job::new(8, 8, random_permutation(8, random).into_iter().map(u32::from).collect())
}

/// The box after as many raising swaps as there are.
fn climbed(mut job: Job) -> Job {
    loop {
        let mut figures = [0; 20];
        library_swap(&job, &mut figures);
        let [raises, low, high, ..] = figures;
        if raises == 0 {
            return job;
        }
        job.rows.swap(low as usize, high as usize);
    }
}
