//! Measuring one row: library, second program and C peer take turns on the same inputs.
use crate::table::{Bar, Line, Own};
use std::cell::Cell;
use std::hint::black_box;
use std::time::{Duration, Instant};

/// How long a row is measured, and how many rounds it has at least. What disturbs a measurement only
/// ever makes it longer, so the least of all rounds counts.
const SPENT: Duration = Duration::from_millis(200);
const LEAST_ROUNDS: usize = 5;
/// What one measurement takes at least, in seconds: shorter calls are repeated in it, so that a program
/// seldom pays for what the one before it left in the caches.
const MEASURED: f64 = 500e-6;

/// One program's way to an answer: it reads an input, and leaves all that it says in what it is lent.
pub type Program<'a, I, O> = &'a dyn Fn(&I, &mut O);

/// A row of the table, before it is measured.
pub struct Row<'a, I, O> {
    pub size: String,
    pub name: String,
    /// What the programs read; a round goes through all of them.
    pub inputs: &'a [I],
    /// What each program is lent for its answer.
    pub lent: O,
    /// Whether a call needs what it is lent as it was at first, so that it cannot be repeated.
    pub fresh: bool,
    pub library: Program<'a, I, O>,
    pub second: Option<Program<'a, I, O>>,
    pub peer: Option<Program<'a, I, O>>,
    /// Another call of the library that this one is held against.
    pub other: Option<Other<'a, I, O>>,
    pub bar: Option<Bar>,
}

pub struct Other<'a, I, O> {
    pub name: &'a str,
    pub call: Program<'a, I, O>,
    /// Whether it must give the same answer.
    pub same: bool,
}

/// One program while it is measured: its answers to the inputs, how often a measurement goes through all
/// of them, and the least time for one of them.
struct Runner<'a, I, O> {
    name: &'a str,
    program: Program<'a, I, O>,
    compared: bool,
    answers: Vec<O>,
    repeats: usize,
    least: f64,
}

impl<I, O: Clone> Runner<'_, I, O> {
    fn run(&mut self, row: &Row<I, O>) {
        if row.fresh {
            self.answers.fill(row.lent.clone());
        }
        let start = Instant::now();
        for _ in 0..self.repeats {
            for (input, answer) in row.inputs.iter().zip(&mut self.answers) {
                (self.program)(black_box(input), black_box(answer));
            }
        }
        let calls = (self.repeats * row.inputs.len()) as f64;
        self.least = self.least.min(start.elapsed().as_secs_f64() / calls);
    }

    /// Settles how often it is repeated, by the lesser of two times.
    fn settle(&mut self, row: &Row<I, O>) {
        if !row.fresh {
            self.run(row);
            self.run(row);
            self.repeats = (MEASURED / (self.least * row.inputs.len() as f64)).ceil().max(1.0) as usize;
        }
    }
}

impl<I, O: Clone + PartialEq> Row<'_, I, O> {
    /// The programs that the row has, the library first.
    fn runners(&self) -> Vec<Runner<'_, I, O>> {
        let runner = |name, program, compared| {
            let answers = vec![self.lent.clone(); self.inputs.len()];
            Runner { name, program, compared, answers, repeats: 1, least: f64::MAX }
        };
        let mut runners = vec![runner("library", self.library, true)];
        runners.extend(self.second.map(|program| runner("second program", program, true)));
        runners.extend(self.peer.map(|program| runner("C peer", program, true)));
        runners.extend(self.other.as_ref().map(|other| runner(other.name, other.call, other.same)));
        runners
    }

    /// The least times of all rounds; fails where an answer differs from the library's.
    fn line(&self, short: bool) -> Result<Line, String> {
        let mut runners = self.runners();
        if !short {
            runners.iter_mut().for_each(|runner| runner.settle(self));
        }
        let (start, mut rounds) = (Instant::now(), 0);
        while rounds == 0 || (!short && (rounds < LEAST_ROUNDS || start.elapsed() < SPENT)) {
            runners.iter_mut().for_each(|runner| runner.run(self));
            let different = runners.iter().find(|runner| runner.compared && runner.answers != runners[0].answers);
            if let Some(runner) = different {
                return Err(format!("{} {}: library and {} give different answers", self.size, self.name, runner.name));
            }
            rounds += 1;
        }
        let mut least = runners.iter().map(|runner| runner.least);
        let mut next = || least.next().expect("every program was measured");
        Ok(Line {
            size: self.size.clone(),
            name: self.name.clone(),
            library: next(),
            second: self.second.map(|_| next()),
            peer: self.peer.map(|_| next()),
            own: self.other.as_ref().map(|other| Own { name: other.name.to_string(), time: next() }),
            bar: self.bar,
        })
    }
}

/// Measures the rows that are wanted, and prints each.
pub struct Rows {
    /// One round for each, for the gate, which asks for figures and not for times.
    short: bool,
    only: Option<String>,
    /// How many there were.
    pub measured: Cell<usize>,
}

impl Rows {
    /// All, or those that have `only` in their size and name, as `8x16 degree`.
    pub fn new(short: bool, only: Option<String>) -> Rows {
        Rows { short, only, measured: Cell::new(0) }
    }

    pub fn measure<I, O: Clone + PartialEq>(&self, row: &Row<I, O>) -> Result<(), String> {
        let title = format!("{} {}", row.size, row.name);
        if self.only.as_ref().is_some_and(|part| !title.contains(part)) {
            return Ok(());
        }
        let line = row.line(self.short)?;
        println!("{}", if self.short { line.agreed() } else { line.written() });
        self.measured.set(self.measured.get() + 1);
        Ok(())
    }
}
