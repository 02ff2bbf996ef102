//! The XOR table, quickly: its largest cell and the list of all that reach it.
//!
//! One input difference a is counted at a time. Counts are kept in one of three ways, each the
//! quickest at its widths; none needs an array of 2^m counts where m is above 16.

/// The most differences there are for one a: one for each pair of inputs.
const PAIRS: usize = 128;

/// The differences S(x) XOR S(x XOR a), once for x and x XOR a together: of the two, the one
/// without the highest bit of a stands for both.
fn differences(rows: &[u32], a: usize) -> impl Iterator<Item = u32> + '_ {
    let top = 1 << (usize::BITS - 1 - a.leading_zeros());
    let rest = a ^ top;
    rows.chunks_exact(2 * top).flat_map(move |block| {
        let (low, high) = block.split_at(top);
        (0..top).map(move |x| low[x] ^ high[x ^ rest])
    })
}

/// The counts for one input difference at a time; between two of them all counts are 0.
trait Counts {
    /// Counts the differences for a and gives the largest count.
    fn count(&mut self, rows: &[u32], a: usize) -> u16;
    /// Adds each β that has this count to `found`, once, in ascending order.
    fn reaching(&mut self, rows: &[u32], a: usize, count: u16, found: &mut Vec<u32>);
    /// Makes all counts 0 again.
    fn clear(&mut self, rows: &[u32], a: usize);
}

/// One count for each β, few enough to look at all of them for each a.
struct Swept {
    cells: Vec<u16>,
}

/// `for_each` here and below rather than a loop: `flat_map` is quick at it.
impl Counts for Swept {
    fn count(&mut self, rows: &[u32], a: usize) -> u16 {
        differences(rows, a).for_each(|beta| self.cells[beta as usize] += 2);
        self.cells.iter().fold(0, |most, &count| most.max(count))
    }

    fn reaching(&mut self, _: &[u32], _: usize, count: u16, found: &mut Vec<u32>) {
        let all = (0..).zip(&self.cells);
        found.extend(all.filter(|&(_, &cell)| cell == count).map(|(beta, _)| beta));
    }

    fn clear(&mut self, _: &[u32], _: usize) {
        self.cells.fill(0);
    }
}

/// One count for each β, of which only those that occur for a are looked at.
struct Sparse {
    cells: Vec<u16>,
}

impl Counts for Sparse {
    fn count(&mut self, rows: &[u32], a: usize) -> u16 {
        let mut most = 0;
        differences(rows, a).for_each(|beta| {
            let cell = &mut self.cells[beta as usize];
            *cell += 2;
            most = most.max(*cell);
        });
        most
    }

    /// A count whose β was found is made 0, so that it is not found again.
    fn reaching(&mut self, rows: &[u32], a: usize, count: u16, found: &mut Vec<u32>) {
        differences(rows, a).for_each(|beta| {
            let cell = &mut self.cells[beta as usize];
            if *cell == count {
                *cell = 0;
                found.push(beta);
            }
        });
        found.sort_unstable();
    }

    fn clear(&mut self, rows: &[u32], a: usize) {
        differences(rows, a).for_each(|beta| self.cells[beta as usize] = 0);
    }
}

/// How many places the hash table has: so many that few differences meet in one.
const PLACES: usize = 16 * PAIRS;

/// One place: a β with its count, valid for one a; for another a the place is free.
#[derive(Clone, Copy)]
struct Place {
    beta: u32,
    a: u16,
    count: u16,
}

/// A hash table of the β that occur for a, each in the first free place from where its hash
/// points to. No place needs to be cleared, since the next a finds all of them free.
struct Hashed {
    places: [Place; PLACES],
}

impl Hashed {
    fn new() -> Hashed {
        Hashed { places: [Place { beta: 0, a: 0, count: 0 }; PLACES] }
    }

    /// The count of β for a, which is 0 if it did not occur before.
    fn cell(&mut self, beta: u32, a: u16) -> &mut u16 {
        let mut place = self.start(beta);
        while self.places[place].a == a && self.places[place].beta != beta {
            place = (place + 1) % PLACES;
        }
        let found = &mut self.places[place];
        if found.a != a {
            *found = Place { beta, a, count: 0 };
        }
        &mut found.count
    }

    /// The highest bits of a product with the golden ratio: all bits of β move them.
    fn start(&self, beta: u32) -> usize {
        (beta.wrapping_mul(0x9E37_79B9) >> (32 - PLACES.ilog2())) as usize
    }
}

impl Counts for Hashed {
    fn count(&mut self, rows: &[u32], a: usize) -> u16 {
        let mut most = 0;
        differences(rows, a).for_each(|beta| {
            let cell = self.cell(beta, a as u16);
            *cell += 2;
            most = most.max(*cell);
        });
        most
    }

    /// A count whose β was found is made 0, so that it is not found again.
    fn reaching(&mut self, rows: &[u32], a: usize, count: u16, found: &mut Vec<u32>) {
        differences(rows, a).for_each(|beta| {
            let cell = self.cell(beta, a as u16);
            if *cell == count {
                *cell = 0;
                found.push(beta);
            }
        });
        found.sort_unstable();
    }

    fn clear(&mut self, _: &[u32], _: usize) {}
}

/// The quickest way to count at these widths.
fn counts_for(m: u32, rows: &[u32]) -> Box<dyn Counts> {
    if 1 << m <= rows.len() as u64 {
        Box::new(Swept { cells: vec![0; 1 << m] })
    } else if m <= 16 {
        Box::new(Sparse { cells: vec![0; 1 << m] })
    } else {
        Box::new(Hashed::new())
    }
}

/// Figures: count, a, β.
pub fn largest_cell(m: u32, rows: &[u32]) -> [u32; 3] {
    let mut counts = counts_for(m, rows);
    let (mut largest, mut witness) = (0, (0, 0));
    let mut found = Vec::new();
    for a in 1..rows.len() {
        let count = counts.count(rows, a);
        if count > largest {
            found.clear();
            counts.reaching(rows, a, count, &mut found);
            (largest, witness) = (count, (a as u32, found[0]));
        }
        counts.clear(rows, a);
    }
    [u32::from(largest), witness.0, witness.1]
}

/// All largest cells, each as a * 2^32 + β, by ascending a, then by ascending β.
pub fn largest_cells(m: u32, rows: &[u32]) -> Vec<u64> {
    let mut counts = counts_for(m, rows);
    let (mut largest, mut cells) = (0, Vec::new());
    let mut found = Vec::new();
    for a in 1..rows.len() {
        let count = counts.count(rows, a);
        if count > largest {
            largest = count;
            cells.clear();
        }
        if count == largest {
            found.clear();
            counts.reaching(rows, a, count, &mut found);
            cells.extend(found.iter().map(|&beta| ((a as u64) << 32) + u64::from(beta)));
        }
        counts.clear(rows, a);
    }
    cells
}

#[cfg(test)]
mod tests {
    use super::*;
    use crate::boxes::{self, KINDS};
    use crate::model;
    use crate::random::Random;

    fn agrees(n: u32, m: u32, rows: &[u32]) {
        let shown = format!("n = {n}, m = {m}, rows = {rows:?}");
        assert_eq!(largest_cell(m, rows), model::largest_cell_by_definition(n, rows), "{shown}");
        assert_eq!(largest_cells(m, rows), model::largest_cells_by_definition(n, rows), "{shown}");
    }

    #[test]
    fn agrees_with_the_definitions_at_every_width() {
        let mut random = Random::new(21);
        for (n, m) in (1..=8).flat_map(|n| (1..=32).map(move |m| (n, m))) {
            for kind in 0..if n < 8 { KINDS } else { 3 } {
                let rows = boxes::of_kind(kind + m, n, m, &mut random);
                agrees(n, m, &rows);
            }
        }
    }

    #[test]
    fn agrees_with_the_definitions_at_the_widest() {
        let mut random = Random::new(22);
        for kind in 0..KINDS {
            let rows = boxes::of_kind(kind, 8, 32, &mut random);
            agrees(8, 32, &rows);
        }
    }

    /// Differences whose hashes all point to the last places, so that each looks for a free
    /// one past the others and around the end.
    #[test]
    fn differences_that_meet_in_one_place() {
        let table = Hashed::new();
        let mut meeting = (1u32..).filter(|&beta| table.start(beta) == PLACES - 1);
        let mut rows: Vec<u32> = (0..256).map(|x| if x % 2 == 0 { 0 } else { meeting.next().unwrap_or(0) }).collect();
        agrees(8, 32, &rows);
        rows[255] = rows[1];
        agrees(8, 32, &rows);
    }
}
