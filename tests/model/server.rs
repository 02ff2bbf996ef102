//! The evaluation server of document 02 §14, from its definition.
//!
//! Of an unfinished box the document lets a server hold only which combinations were examined
//! and the least count with its first witness among them. Here each examined combination is
//! kept with its own least count, found by counting, and the least of all is looked for anew
//! whenever it is asked for.
use crate::combinations::before;
use crate::model::{check_box_up_to, combination, parity, refuse_when, Answer};

/// The refusals' numbers.
pub const NO_PLACE: u32 = 18;
pub const PLACE_STATE: u32 = 19;

pub const PLACES: u32 = 8;
const MOST_OUTPUTS: u32 = 16;

/// A least count with its witness: d, c, w, b.
pub type Found = [u32; 4];

#[derive(Clone)]
pub struct Analysis {
    pub n: u32,
    pub m: u32,
    pub rows: Vec<u32>,
    /// For each combination that was examined, from 1 on, its least count and first witness.
    examined: Vec<Found>,
}

/// The fewest inputs at which combination c differs from an affine function, with the first w
/// and then b that has so few.
fn nearest(n: u32, rows: &[u32], c: u32) -> Found {
    let f = combination(rows, c);
    let mut least = [u32::MAX, c, 0, 0];
    for w in 0..1 << n {
        for b in 0..2 {
            let differing = (0..1u32 << n).filter(|&x| u32::from(f[x as usize]) != u32::from(parity(w & x)) ^ b).count() as u32;
            if differing < least[0] {
                least = [differing, c, w, b];
            }
        }
    }
    least
}

impl Analysis {
    pub fn examined(&self) -> u32 {
        self.examined.len() as u32
    }

    pub fn finished(&self) -> bool {
        self.examined() == (1 << self.m) - 1
    }

    /// The least count with its first witness among exactly the examined combinations.
    pub fn least(&self) -> Option<Found> {
        let mut found: Option<Found> = None;
        for other in &self.examined {
            let better = found.is_none_or(|best| other[0] < best[0] || other[0] == best[0] && before(other[1], best[1]));
            if better {
                found = Some(*other);
            }
        }
        found
    }
}

/// Eight places, counted from 1, and the one last served: 0 at the start.
#[derive(Clone, Default)]
pub struct Server {
    places: [Option<Analysis>; PLACES as usize],
    pub last: u32,
}

impl Server {
    pub fn on(&self, place: u32) -> Option<&Analysis> {
        self.places[place as usize - 1].as_ref()
    }

    fn check(&self, place: u32, taken: bool) -> Answer<()> {
        refuse_when(!(1..=PLACES).contains(&place), NO_PLACE)?;
        refuse_when(self.on(place).is_some() != taken, PLACE_STATE)
    }

    pub fn put(&mut self, place: u32, n: u32, m: u32, rows: &[u32]) -> Answer<()> {
        self.check(place, false)?;
        check_box_up_to(MOST_OUTPUTS, n, m, rows)?;
        self.places[place as usize - 1] = Some(Analysis { n, m, rows: rows.to_vec(), examined: Vec::new() });
        Ok(())
    }

    pub fn withdraw(&mut self, place: u32) -> Answer<()> {
        self.check(place, true)?;
        self.places[place as usize - 1] = None;
        Ok(())
    }

    /// The result, or nothing while the box is unfinished.
    pub fn ask(&self, place: u32) -> Answer<Option<Found>> {
        self.check(place, true)?;
        let analysis = self.on(place).expect("it was looked at");
        Ok(analysis.least().filter(|_| analysis.finished()))
    }

    /// The place that the next step serves: going round from the one after the last.
    pub fn next(&self) -> Option<u32> {
        let circle = (self.last + 1..=PLACES).chain(1..=self.last);
        circle.into_iter().find(|&place| self.on(place).is_some_and(|analysis| !analysis.finished()))
    }

    pub fn step(&mut self) {
        if let Some(place) = self.next() {
            let analysis = self.places[place as usize - 1].as_mut().expect("a box is unfinished there");
            let c = analysis.examined() + 1;
            analysis.examined.push(nearest(analysis.n, &analysis.rows, c));
            self.last = place;
        }
    }
}

#[cfg(test)]
mod tests {
    use super::*;
    use crate::boxes::random_rows;
    use crate::model::nonlinearity_by_definition;
    use crate::random::Random;

    #[test]
    fn places_are_served_in_a_circle() {
        let mut server = Server::default();
        for place in [2, 5, 8] {
            server.put(place, 2, 3, &[0, 3, 5, 6]).unwrap();
        }
        let mut served = Vec::new();
        for _ in 0..7 {
            server.step();
            served.push(server.last);
        }
        assert_eq!(served, [2, 5, 8, 2, 5, 8, 2]);
        server.put(3, 2, 1, &[0, 1, 1, 0]).unwrap();
        server.step();
        server.step();
        assert_eq!((server.last, server.ask(3)), (5, Ok(Some([0, 1, 3, 0]))));
    }

    #[test]
    fn a_box_among_seven_others_is_finished_with_the_last_allowed_step() {
        let mut random = Random::new(3);
        let boxes: Vec<Vec<u32>> = (0..8).map(|_| random_rows(3, 4, &mut random)).collect();
        let mut server = Server::default();
        for place in 1..=8 {
            server.put(place, 3, 4, &boxes[place as usize - 1]).unwrap();
        }
        for _ in 0..8 * 15 - 1 {
            server.step();
        }
        assert_eq!(server.ask(8), Ok(None));
        server.step();
        for place in 1..=8 {
            assert_eq!(server.ask(place), Ok(Some(nonlinearity_by_definition(3, 4, &boxes[place as usize - 1], 4))));
        }
        server.step();
        assert_eq!(server.last, 8);
    }

    #[test]
    fn refusals_come_in_their_order_and_change_nothing() {
        let mut server = Server::default();
        assert_eq!(server.put(9, 9, 17, &[]), Err(18));
        assert_eq!(server.put(0, 1, 1, &[0, 1]), Err(18));
        assert_eq!(server.put(1, 9, 17, &[]), Err(1));
        assert_eq!(server.put(1, 8, 17, &[]), Err(2));
        assert_eq!(server.put(1, 1, 16, &[0]), Err(3));
        assert_eq!(server.put(1, 1, 16, &[0, 65536]), Err(4));
        assert_eq!(server.put(1, 1, 16, &[0, 65535]), Ok(()));
        assert_eq!(server.put(1, 9, 17, &[]), Err(19));
        assert_eq!(server.ask(2), Err(19));
        assert_eq!(server.withdraw(2), Err(19));
        assert_eq!(server.withdraw(9), Err(18));
        assert_eq!(server.ask(1), Ok(None));
        assert_eq!(server.withdraw(1), Ok(()));
        assert_eq!(server.ask(1), Err(19));
    }
}
