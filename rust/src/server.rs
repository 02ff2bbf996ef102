//! S-boxes under analysis.
use crate::figures::Nonlinearity;
use crate::raw::{self, ServerOutcome};
use crate::refusal::answer;
use crate::slices::server as calls;
use crate::{Refusal, Sbox};
use std::fmt;

/// An evaluation server: up to eight S-boxes, of at most 16 outputs, under analysis for their nonlinearity
/// over all combinations (component functions), one combination a step, in turns. A refused call leaves it
/// as it was.
///
/// ```
/// use satmegwo::{Refusal, Sbox, Server};
///
/// let sbox = Sbox::new(3, 3, [3, 1, 4, 0, 2, 5, 6, 7])?;
/// let mut server = Server::begin();
/// server.put(4, &sbox)?;
/// assert_eq!(server.put(4, &sbox), Err(Refusal::PlaceState));
/// server.run(6);
/// assert_eq!(server.ask(4)?, None); // one of its 7 combinations is left
/// server.step();
/// assert_eq!(server.ask(4)?, Some(sbox.nonlinearity(3)?));
/// server.withdraw(4)?;
/// assert_eq!(server.ask(4), Err(Refusal::PlaceState));
/// # Ok::<(), satmegwo::Refusal>(())
/// ```
#[derive(Clone, PartialEq, Eq)]
pub struct Server {
    state: Box<raw::Server>,
}

impl Server {
    /// A server with no box on any place.
    pub fn begin() -> Server {
        Server { state: Box::new(calls::begin()) }
    }

    /// Takes over what a call gave, which where it was refused is the server as it was.
    fn take(&mut self, outcome: ServerOutcome) -> Result<(), Refusal> {
        *self.state = outcome.server;
        answer(outcome.status)
    }

    /// Puts a box of at most 16 outputs on a place, 1 to 8. Refusals: 18, 19, 2.
    pub fn put(&mut self, place: u32, sbox: &Sbox) -> Result<(), Refusal> {
        self.take(calls::put(*self.state, place, sbox.inputs(), sbox.outputs(), sbox.rows()))
    }

    /// Takes the box off a place, finished or not. Refusals: 18, 19.
    pub fn withdraw(&mut self, place: u32) -> Result<(), Refusal> {
        self.take(calls::withdraw(*self.state, place))
    }

    /// Examines one combination of the next unfinished box after the place last served, in a circle;
    /// does nothing where no box is unfinished.
    pub fn step(&mut self) {
        *self.state = calls::step(*self.state);
    }

    /// Makes `budget` steps, or fewer if no box is unfinished any more: `u32::MAX` means to the end.
    pub fn run(&mut self, budget: u32) {
        *self.state = calls::run(*self.state, budget);
    }

    /// The nonlinearity of the box on a place over all its combinations; `None` until all were examined.
    /// Refusals: 18, 19.
    pub fn ask(&self, place: u32) -> Result<Option<Nonlinearity>, Refusal> {
        let mut figures = [0; 5];
        answer(calls::ask(*self.state, place, &mut figures))?;
        let [finished, figure, c, w, b] = figures;
        let limit = self.state.places[place as usize - 1].m;
        Ok((finished == 1).then_some(Nonlinearity { figure, c, w, b, limit }))
    }

    /// The place last served, if there was a step that served one.
    pub fn last_served(&self) -> Option<u32> {
        (self.state.last != 0).then_some(self.state.last)
    }
}

impl fmt::Debug for Server {
    fn fmt(&self, f: &mut fmt::Formatter<'_>) -> fmt::Result {
        let taken: Vec<usize> = (1..=raw::PLACES).filter(|place| self.state.places[place - 1].taken == 1).collect();
        f.debug_struct("Server").field("taken", &taken).field("last", &self.state.last).finish()
    }
}
