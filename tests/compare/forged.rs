//! Servers of random bytes, some with places that look sound: what every call makes of them.
//! A refused call changes nothing, a step serves only what has a box's widths, and a run ends.
use crate::calls::Run;
use crate::guarded::server::{self as library, found_on, untouched_box, with_found, Place, Server, EMPTY};
use crate::lent::Lent;
use crate::server::{any_box, any_place, figures_of};
use second_model::model::{all_outputs, check_box_up_to, refuse_when, Answer};
use second_model::random::Random;
use second_model::server::{NO_PLACE, PLACES, PLACE_STATE};

/// How many servers of random bytes there are, and one in how many of them is run to the end.
const FORGED: u64 = 3_000;
const RUN_TO_THE_END: u32 = 150;

/// The most combinations that eight boxes have.
const MOST_STEPS: u32 = 8 * 65_535;

pub fn damaged_servers(run: &mut Run) {
    for _ in 0..FORGED {
        let mut server = forged(&mut run.random);
        for _ in 0..8 {
            server = call(run, server);
        }
        if run.random.one_in(RUN_TO_THE_END) {
            run_to_the_end(run, server);
        }
    }
}

fn forged(random: &mut Random) -> Server {
    let mut server = library::begin();
    for held in &mut server.places {
        let word = |random: &mut Random| random.draw() as u32;
        held.rows.iter_mut().for_each(|row| *row = word(random));
        *held = with_found(*held, std::array::from_fn(|_| word(random)));
        (held.taken, held.n, held.m, held.examined) = (word(random), word(random), word(random), word(random));
        if !random.one_in(3) {
            (held.taken, held.n, held.m) = (random.pick(&[0, 1, 1, 1, 2]), random.below(11), random.below(34));
            held.examined = random.pick(&[0, 1, 6, 65_534, 65_535, 65_536, u32::MAX]);
        }
        if random.one_in(2) {
            held.rows.iter_mut().for_each(|row| *row &= 0xff);
        }
    }
    let any = random.draw() as u32;
    server.last = random.pick(&[0, 1, 8, 9, 1000, u32::MAX, any]);
    server
}

fn call(run: &mut Run, server: Server) -> Server {
    let place = any_place(&mut run.random);
    match run.random.below(5) {
        0 => put(run, server, place),
        1 => withdraw(run, server, place),
        2 => step(run, server),
        3 => steps(run, server),
        _ => ask(run, server, place),
    }
}

fn check_place(server: &Server, place: u32, taken: bool) -> Answer<()> {
    refuse_when(!(1..=PLACES).contains(&place), NO_PLACE)?;
    refuse_when((server.places[place as usize - 1].taken == 1) != taken, PLACE_STATE)
}

/// The server with another place, or as it was and the number of the refusal.
fn outcome(server: &Server, place: u32, held: Place, checked: Answer<()>) -> (Server, u32) {
    let mut left = *server;
    match checked {
        Ok(()) => left.places[place as usize - 1] = held,
        Err(number) => return (left, number),
    }
    (left, 0)
}

fn compare(run: &mut Run, call: &'static str, given: library::Outcome, wanted: (Server, u32)) -> Server {
    run.calling(call);
    let same = (given.server, given.status) == wanted;
    run.compared(wanted.1 != 0, same, || format!("{call} on a forged server: {}, wanted {}", given.status, wanted.1));
    given.server
}

fn put(run: &mut Run, server: Server, place: u32) -> Server {
    let (n, m, rows) = any_box(&mut run.random);
    let checked = check_place(&server, place, false).and_then(|()| check_box_up_to(16, n, m, &rows));
    let held = if checked.is_ok() { untouched_box(n, m, &rows) } else { EMPTY };
    let read = run.copy(&rows);
    let given = library::put(server, place, n, m, read.content());
    run.law("the rows of a box are only read", read.untouched(), || "putting on a forged server writes to the rows".to_string());
    compare(run, "server_put", given, outcome(&server, place, held, checked))
}

fn withdraw(run: &mut Run, server: Server, place: u32) -> Server {
    let checked = check_place(&server, place, true);
    compare(run, "server_withdraw", library::withdraw(server, place), outcome(&server, place, EMPTY, checked))
}

/// Whether a step may serve a place: widths of a box that may stand there, and a combination left.
fn unfinished(held: &Place) -> bool {
    held.taken == 1 && (1..=8).contains(&held.n) && (1..=16).contains(&held.m) && held.examined < all_outputs(held.m)
}

/// The place that a step serves.
fn served(server: &Server) -> Option<u32> {
    let after = |k: u64| ((u64::from(server.last) + k) % 8) as u32 + 1;
    (0..8).map(after).find(|&place| unfinished(&server.places[place as usize - 1]))
}

/// A step changes the place last served and, of the place served, the number examined and the
/// pair; what is no box keeps its pair.
fn step(run: &mut Run, server: Server) -> Server {
    let given = library::step(server);
    let mut wanted = server;
    if let Some(place) = served(&server) {
        let held = &mut wanted.places[place as usize - 1];
        held.examined += 1;
        let rows = &held.rows[..1 << held.n];
        if rows.iter().all(|&row| row <= all_outputs(held.m)) {
            *held = with_found(*held, found_on(&given.places[place as usize - 1]));
        }
        wanted.last = place;
    }
    run.calling("server_step");
    run.compared(false, given == wanted, || format!("a step on a forged server serves {:?}", served(&server)));
    given
}

/// A run is so many steps.
fn steps(run: &mut Run, server: Server) -> Server {
    let budget = run.random.below(50);
    let given = library::run(server, budget);
    let wanted = (0..budget).fold(server, |server, _| library::step(server));
    run.calling("server_run");
    run.compared(false, given == wanted, || format!("{budget} steps on a forged server"));
    given
}

fn ask(run: &mut Run, server: Server, place: u32) -> Server {
    run.calling("server_ask");
    let mut figures: Lent<u32> = run.lend(5);
    let status = library::ask(server, place, figures.part());
    let checked = check_place(&server, place, true);
    let same = match checked {
        Err(number) => status == number && figures.untouched(),
        Ok(()) => {
            let held = &server.places[place as usize - 1];
            status == 0 && figures.holds(&figures_of((!unfinished(held)).then_some(found_on(held))))
        }
    };
    run.compared(checked.is_err(), same, || format!("asking a forged server: {status}, {:?}", figures.content()));
    server
}

/// After 8 × 65,535 steps none is unfinished, so that further ones change nothing.
fn run_to_the_end(run: &mut Run, server: Server) {
    let ended = library::run(server, MOST_STEPS);
    let more = library::run(ended, u32::MAX);
    run.law("a run on a forged server ends", served(&ended).is_none() && more == ended, || "a forged server is never done".to_string());
}
