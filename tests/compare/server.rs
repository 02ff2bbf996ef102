//! `second server`: every call on the evaluation server against the model, in long histories
//! over all places, and on servers of random bytes.
use crate::calls::{Run, NONLINEARITY};
use crate::forged::damaged_servers;
use crate::guarded::server::{self as library, untouched_box, with_found, Place, EMPTY};
use crate::lent::Lent;
use crate::parts::Work;
use second_model::boxes::{self, KINDS};
use second_model::model::{all_outputs, Answer};
use second_model::random::Random;
use second_model::server::{Found, Server, PLACES};

/// How many calls the histories make.
const CALLS: u64 = 100_000;

pub const PARTS: &[(&str, Work)] = &[
    ("histories", &histories),
    ("order of checks", &order_of_checks),
    ("time limits", &time_limits),
    ("widest boxes", &widest_boxes),
    ("damaged servers", &damaged_servers),
];

// ---------------------------------------------------------------------------
// A server of the library beside the model's.
// ---------------------------------------------------------------------------

struct Pair {
    library: library::Server,
    model: Server,
}

/// Whether a place of the library's server holds what the model's does, and nothing more: an
/// empty one zeros, and a box of which no combination was examined a count that no pair has.
fn same_place(held: &Place, model: &Server, place: u32) -> bool {
    let wanted = model.on(place).map_or(EMPTY, |analysis| {
        let found = analysis.least().unwrap_or([(1 << analysis.n) + 1, 0, 0, 0]);
        let put = untouched_box(analysis.n, analysis.m, &analysis.rows);
        with_found(Place { examined: analysis.examined(), ..put }, found)
    });
    *held == wanted
}

impl Pair {
    fn new() -> Pair {
        Pair { library: library::begin(), model: Server::default() }
    }

    fn same(&self) -> bool {
        let places = (1..=PLACES).all(|place| same_place(&self.library.places[place as usize - 1], &self.model, place));
        places && self.library.last == self.model.last
    }

    /// A call that may be refused: its number, the server afterwards, and unchanged if refused. What
    /// it reads must be kept.
    fn change(&mut self, run: &mut Run, what: &str, place: u32, given: library::Outcome, wanted: Answer<()>, kept: bool) {
        let unchanged = given.server == self.library;
        self.library = given.server;
        let same = given.status == wanted.err().unwrap_or(0) && (wanted.is_ok() || unchanged) && self.same();
        run.compared(wanted.is_err(), same && kept, || {
            format!("{what} at place {place}: {}; the model says {wanted:?}; what is read is kept: {kept}", given.status)
        });
    }

    fn put(&mut self, run: &mut Run, place: u32, n: u32, m: u32, rows: &[u32]) {
        run.calling("server_put");
        let read = run.copy(rows);
        let given = library::put(self.library, place, n, m, read.content());
        let wanted = self.model.put(place, n, m, rows);
        self.change(run, &format!("put {n} by {m}, {rows:?}"), place, given, wanted, read.untouched());
    }

    fn withdraw(&mut self, run: &mut Run, place: u32) {
        run.calling("server_withdraw");
        let given = library::withdraw(self.library, place);
        let wanted = self.model.withdraw(place);
        self.change(run, "withdraw", place, given, wanted, true);
    }

    fn step(&mut self, run: &mut Run) {
        run.calling("server_step");
        self.library = library::step(self.library);
        self.model.step();
        run.compared(false, self.same(), || format!("a step serves {}; the model's {}", self.library.last, self.model.last));
    }

    fn run(&mut self, run: &mut Run, budget: u32) {
        run.calling("server_run");
        self.library = library::run(self.library, budget);
        for _ in 0..budget {
            if self.model.next().is_none() {
                break;
            }
            self.model.step();
        }
        run.compared(false, self.same(), || {
            format!("{budget} steps end at place {}; the model's at {}", self.library.last, self.model.last)
        });
    }

    fn ask(&self, run: &mut Run, place: u32, figures_len: usize) {
        run.calling("server_ask");
        let mut figures: Lent<u32> = Lent::new(figures_len, &mut run.random);
        let status = library::ask(self.library, place, figures.part());
        let wanted = self.model.ask(place);
        let same = match wanted {
            Err(number) => status == number && figures.untouched(),
            Ok(_) if figures_len != 5 => status == 7 && figures.untouched(),
            Ok(found) => status == 0 && figures.holds(&figures_of(found)),
        };
        run.compared(wanted.is_err() || figures_len != 5, same, || {
            format!("ask {place}: {status}, {:?}; the model says {wanted:?}", figures.content())
        });
    }
}

/// 1 and the result, or five zeros while there is none.
pub fn figures_of(found: Option<Found>) -> [u32; 5] {
    found.map_or([0; 5], |[count, c, w, b]| [1, count, c, w, b])
}

// ---------------------------------------------------------------------------
// Arguments.
// ---------------------------------------------------------------------------

pub fn any_place(random: &mut Random) -> u32 {
    if random.one_in(25) {
        // 257 and the like are places within their lowest 8 or 16 bits.
        random.pick(&[0, 9, 10, 16, 256, 257, 256 + 8, 65536 + 1, 65536 + 4, (1 << 31) + 1, 1 << 31, u32::MAX])
    } else {
        random.between(1, PLACES)
    }
}

/// Widths of boxes that are soon finished, and now and then of one that is not.
fn widths(random: &mut Random) -> (u32, u32) {
    match random.below(40) {
        0 => (8, random.between(1, 6)),
        1 => (random.between(1, 3), 16),
        2 => (random.between(1, 8), random.between(1, 9)),
        _ => (random.between(1, 4), random.between(1, 5)),
    }
}

/// A box, or now and then something that is none.
pub fn any_box(random: &mut Random) -> (u32, u32, Vec<u32>) {
    let (mut n, mut m) = widths(random);
    let kind = random.below(KINDS);
    let mut rows = boxes::of_kind(kind, n, m, random);
    match random.below(40) {
        0 => n = random.pick(&[0, 9, 32, u32::MAX, 256 + n, 65536 + n, (1 << 31) + n]),
        1 => m = random.pick(&[0, 17, 32, 33, u32::MAX, 256 + m, 65536 + m, (1 << 31) + m]),
        2 => rows.truncate(random.pick(&[0, rows.len() / 2, rows.len() - 1])),
        3 => rows.resize(random.pick(&[rows.len() + 1, 2 * rows.len()]), 0),
        4 => rows[random.below(1 << n) as usize] = random.pick(&[all_outputs(m) + 1, u32::MAX]),
        _ => {}
    }
    (n, m, rows)
}

// ---------------------------------------------------------------------------
// The parts.
// ---------------------------------------------------------------------------

fn histories(run: &mut Run) {
    let mut made = 0;
    while made < CALLS {
        let mut pair = Pair::new();
        // Some servers get crowded, and some are mostly empty.
        let crowd = run.random.between(1, 6);
        for _ in 0..1000.min(CALLS - made) {
            call(run, &mut pair, crowd);
            made += 1;
        }
        // Nearly every box is finished in the end.
        pair.run(run, 2000);
        (1..=PLACES).for_each(|place| pair.ask(run, place, 5));
    }
}

fn call(run: &mut Run, pair: &mut Pair, crowd: u32) {
    let place = any_place(&mut run.random);
    match run.random.below(20) {
        kind if kind < crowd => {
            let (n, m, rows) = any_box(&mut run.random);
            pair.put(run, place, n, m, &rows);
        }
        6 | 7 => pair.withdraw(run, place),
        8..=10 => {
            let budget = random_budget(&mut run.random);
            pair.run(run, budget);
        }
        11..=14 => pair.step(run),
        _ => {
            let figures_len = if run.random.one_in(20) { run.random.pick(&[0, 4, 6]) } else { 5 };
            pair.ask(run, place, figures_len);
        }
    }
}

fn random_budget(random: &mut Random) -> u32 {
    let usual = random.below(60);
    random.pick(&[0, 1, 2, 7, 8, 9, usual, usual, usual, 200])
}

/// At first everything is wrong, then one argument after the other is put right, in the order of
/// the checks: 18, 19, 1, 2, 3, 4, and nothing.
fn order_of_checks(run: &mut Run) {
    for (right, m) in (0..=6).flat_map(|right| [1, 4, 16].map(|m| (right, m))) {
        let mut pair = Pair::new();
        pair.put(run, 3, 1, 1, &[0, 1]);
        pair.step(run);
        let (place, free) = (if right >= 1 { 3 } else { 256 + 3 }, right >= 2);
        let mut rows = boxes::random_rows(3, m, &mut run.random);
        rows[7] = if right >= 6 { rows[7] } else { 1 << m };
        let read = if right >= 5 { &rows[..] } else { &rows[..7] };
        let (n, m) = (if right >= 3 { 3 } else { 9 }, if right >= 4 { m } else { 17 });
        pair.put(run, if free { 2 } else { place }, n, m, read);
        let figures_len = if right >= 3 { 5 } else { 4 };
        pair.ask(run, if free { 3 } else { place + 1 }, figures_len);
        pair.withdraw(run, if free { 3 } else { place + 1 });
    }
}

/// A box on any place, put while others are being examined, is unfinished until its last
/// combination and finished within 8 × (2^m − 1) steps, whatever the other places do.
fn time_limits(run: &mut Run) {
    for round in 0..60 {
        let mut pair = Pair::new();
        for _ in 0..40 {
            call(run, &mut pair, 6);
        }
        let place = round % PLACES + 1;
        if pair.model.on(place).is_some() {
            pair.withdraw(run, place);
        }
        let (n, m) = (run.random.between(1, 4), run.random.between(1, 6));
        let rows = boxes::random_rows(n, m, &mut run.random);
        pair.put(run, place, n, m, &rows);
        for _ in 0..8 * all_outputs(m) {
            pair.step(run);
            pair.ask(run, place, 5);
            let other = any_place(&mut run.random);
            if other != place && run.random.one_in(4) {
                pair.withdraw(run, other);
                let (n, m, rows) = any_box(&mut run.random);
                pair.put(run, other, n, m, &rows);
            }
        }
        let mut figures = [0; 5];
        let status = library::ask(pair.library, place, &mut figures);
        run.law("finished in time", (status, figures[0]) == (0, 1), || {
            format!("{n} by {m} on place {place} is unfinished after 8 times {} steps: {status}, {figures:?}", all_outputs(m))
        });
    }
}

/// Boxes of sixteen outputs run to the end: the figure of the plain call, and unfinished with
/// one combination left.
fn widest_boxes(run: &mut Run) {
    for (n, m) in [(1, 16), (4, 16), (8, 16), (8, 8), (3, 1)] {
        let kind = run.random.below(KINDS);
        let rows = boxes::of_kind(kind, n, m, &mut run.random);
        let Some(wanted) = run.limited_figures(&NONLINEARITY, n, m, &rows, m, 4) else {
            continue;
        };
        let put = library::put(library::begin(), 4, n, m, &rows).server;
        let mut figures = [9; 5];
        let early = library::run(put, all_outputs(m) - 1);
        let status = library::ask(early, 4, &mut figures);
        run.law("unfinished until the last step", status == 0 && figures == [0; 5], || {
            format!("{n} by {m} with one combination left: {status}, {figures:?}")
        });
        let status = library::ask(library::run(early, u32::MAX), 4, &mut figures);
        run.law("the figure of the plain call", status == 0 && figures[0] == 1 && figures[1..] == wanted, || {
            format!("{n} by {m}: {status}, {figures:?}; the plain call says {wanted:?}")
        });
    }
}

#[cfg(test)]
mod tests {
    use super::*;

    /// A server with a box on place 2, of which three combinations were examined, and one on
    /// place 5, of which none was.
    fn pair() -> Pair {
        let mut run = Run::new("a test", 1);
        let mut pair = Pair::new();
        pair.put(&mut run, 2, 3, 3, &[3, 1, 4, 0, 2, 5, 6, 7]);
        (0..3).for_each(|_| pair.step(&mut run));
        pair.put(&mut run, 5, 2, 4, &[1, 15, 0, 9]);
        assert_eq!(run.tally.differences, 0);
        pair
    }

    /// Each field of a place that is empty, begun or under way, and of the server.
    #[test]
    fn every_planted_difference_is_noticed() {
        let changes: [fn(&mut Place); 11] = [
            |held| held.taken ^= 1,
            |held| held.taken ^= 2,
            |held| held.n += 1,
            |held| held.m ^= 1,
            |held| held.rows[1] ^= 1,
            |held| held.rows[255] ^= 1,
            |held| held.examined += 1,
            |held| held.count += 1,
            |held| held.c += 1,
            |held| held.w += 1,
            |held| held.b += 1,
        ];
        for place in [1, 2, 5, 8] {
            for (number, change) in changes.iter().enumerate() {
                let mut pair = pair();
                assert!(pair.same());
                change(&mut pair.library.places[place - 1]);
                assert!(!pair.same(), "change {number} of place {place}");
            }
        }
        let mut pair = pair();
        pair.library.last += 1;
        assert!(!pair.same());
    }

    /// A box that stays after it was withdrawn, and a refused call that changes something.
    #[test]
    fn a_withdrawn_box_and_a_changed_refusal_are_noticed() {
        let mut run = Run::new("a test", 1);
        let mut pair = pair();
        let mut kept = library::withdraw(pair.library, 2);
        kept.server.places[1].rows[0] = 3;
        let wanted = pair.model.withdraw(2);
        pair.change(&mut run, "withdraw", 2, kept, wanted, true);
        assert_eq!(run.tally.differences, 1);
        let mut pair = self::pair();
        let mut refused = library::put(pair.library, 2, 1, 1, &[0, 1]);
        refused.server.last = 4;
        let wanted = pair.model.put(2, 1, 1, &[0, 1]);
        pair.change(&mut run, "put", 2, refused, wanted, true);
        assert_eq!(run.tally.differences, 2);
        let mut pair = self::pair();
        let put = library::put(pair.library, 1, 1, 1, &[0, 1]);
        let wanted = pair.model.put(1, 1, 1, &[0, 1]);
        pair.change(&mut run, "put", 1, put, wanted, false);
        assert_eq!(run.tally.differences, 3);
    }
}
