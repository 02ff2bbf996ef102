//! The evaluation server: a box that is run to the end step by step, held against the library's own plain
//! call; and the same box on all eight places, held against one place. The second program has no server
//! to measure: beside one box stands its plain sweep, and beside eight nothing.
use crate::calls::{library_nonlinearity, Figures, Job, NONLINEARITY};
use crate::peers;
use crate::rows::{Other, Row, Rows};
use crate::table::Bar;
use satmegwo::slices::server;
use second_model::boxes::random_rows;
use second_model::random::Random;

pub fn measure(rows: &Rows, random: &mut Random) -> Result<(), String> {
    for (m, boxes) in [(8, 10), (16, 1)] {
        let jobs: Vec<Job> = (0..boxes).map(|_| Job::new(8, m, random_rows(8, m, random))).collect();
        let row = |name, library, peer, other| Row { library, peer: Some(peer), other: Some(other), ..NONLINEARITY.row(name, &jobs) };
        let plain = Other { name: "nonlinearity", call: &library_nonlinearity, same: true };
        let one = Other { name: "one box", call: &alone, same: true };
        rows.measure(&Row { bar: Some(Bar::Peer(3.2)), ..row("server, one box", &alone, &peer_alone, plain) })?;
        rows.measure(&Row { second: None, ..row("server, eight boxes", &among_eight, &peer_among_eight, one) })?;
    }
    Ok(())
}

/// The figures of the box on place 1, the steps being made by one call.
fn alone(job: &Job, figures: &mut Figures) {
    on_places(1, job, figures);
}

/// The same with the box on every place.
fn among_eight(job: &Job, figures: &mut Figures) {
    on_places(8, job, figures);
}

fn on_places(places: u32, job: &Job, figures: &mut Figures) {
    let mut held = server::begin();
    for place in 1..=places {
        let put = server::put(held, place, job.n, job.m, &job.rows);
        assert_eq!(put.status, 0);
        held = put.server;
    }
    let mut found = [0; 5];
    assert_eq!(server::ask(server::run(held, u32::MAX), 1, &mut found), 0);
    finished(found, figures);
}

fn peer_alone(job: &Job, figures: &mut Figures) {
    peer_on_places(1, job, figures);
}

fn peer_among_eight(job: &Job, figures: &mut Figures) {
    peer_on_places(8, job, figures);
}

fn peer_on_places(places: u32, job: &Job, figures: &mut Figures) {
    let mut held = peers::server_begin();
    for place in 1..=places {
        peers::server_put(&mut held, place, job.n, job.m, &job.rows);
    }
    peers::server_run(&mut held, u32::MAX);
    let mut found = [0; 5];
    peers::server_ask(&held, 1, &mut found);
    finished(found, figures);
}

/// The four figures of a finished box.
fn finished(found: [u32; 5], figures: &mut Figures) {
    assert_eq!(found[0], 1, "the box is unfinished");
    figures[..4].copy_from_slice(&found[1..]);
}
