//! A design: one box with marks 1 to 16. Document 02, section 11.
//!
//! It is kept as its whole past: the rows of every moment, and for each mark the moment at
//! which it was last set. Where `begin` was refused there was no moment.
use crate::model::{add_to_column, check_box, check_parameter, check_written, refuse_when, Answer, PARAMETER, WRITTEN_LENGTH};

/// The refusal of this section.
pub const UNSET_MARK: u32 = 17;

/// Marks are counted from 1.
pub const MARKS: u32 = 16;

#[derive(Clone, Debug)]
pub struct Design {
    pub n: u32,
    pub m: u32,
    moments: Vec<Vec<u32>>,
    set_at: [Option<usize>; MARKS as usize],
}

/// An operation with any arguments. Each is refused, or it makes a new moment.
#[derive(Clone, Copy, Debug)]
pub enum Operation {
    Swap(u32, u32),
    Add(u32, u32, u32),
    Mark(u32),
    Return(u32),
}

impl Design {
    /// A design begins with no mark set. Refusals 1 to 4; refused, it has no box: n and m
    /// are 0.
    pub fn begin(n: u32, m: u32, rows: &[u32]) -> (Design, Answer<()>) {
        let answer = check_box(n, m, rows);
        let begun = |n, m, moments| Design { n, m, moments, set_at: [None; MARKS as usize] };
        (if answer.is_ok() { begun(n, m, vec![rows.to_vec()]) } else { begun(0, 0, Vec::new()) }, answer)
    }

    pub fn has_box(&self) -> bool {
        !self.moments.is_empty()
    }

    /// The box of this moment. Without a box it has no rows.
    pub fn rows(&self) -> &[u32] {
        self.moments.last().map_or(&[], |rows| rows)
    }

    /// The box that a mark keeps.
    pub fn kept(&self, k: u32) -> Option<&[u32]> {
        self.set_at[k as usize - 1].map(|moment| &self.moments[moment][..])
    }

    /// Refusal 6, and 17 after it; without a box always 6. Refused, the design is as it was.
    pub fn operate(&mut self, operation: Operation) -> Answer<()> {
        refuse_when(!self.has_box(), PARAMETER)?;
        let rows = match operation {
            Operation::Swap(x, y) => self.swapped(x, y)?,
            Operation::Add(j, w, b) => add_to_column(self.n, self.m, self.rows(), j, w, b, self.rows().len())?,
            Operation::Mark(k) => {
                check_parameter(k, 1, MARKS)?;
                self.set_at[k as usize - 1] = Some(self.moments.len() - 1);
                self.rows().to_vec()
            }
            Operation::Return(k) => {
                check_parameter(k, 1, MARKS)?;
                refuse_when(self.kept(k).is_none(), UNSET_MARK)?;
                self.kept(k).expect("the mark is set").to_vec()
            }
        };
        self.moments.push(rows);
        Ok(())
    }

    /// Each input gives the row that it gave before, and x and y give each other's.
    fn swapped(&self, x: u32, y: u32) -> Answer<Vec<u32>> {
        check_parameter(x, 0, (1 << self.n) - 1)?;
        check_parameter(y, 0, (1 << self.n) - 1)?;
        let source = |input| match input {
            _ if input == x => y,
            _ if input == y => x,
            _ => input,
        };
        Ok((0..1 << self.n).map(|input| self.rows()[source(input) as usize]).collect())
    }

    /// n, m and the rows. Refusal 7: an array for the rows that isn't 2^n long, or one for n
    /// and m that isn't 2 long; without a box always 7.
    pub fn read(&self, rows_len: usize, figures_len: usize) -> Answer<([u32; 2], Vec<u32>)> {
        refuse_when(!self.has_box(), WRITTEN_LENGTH)?;
        check_written(rows_len, 1 << self.n)?;
        check_written(figures_len, 2)?;
        Ok(([self.n, self.m], self.rows().to_vec()))
    }
}

#[cfg(test)]
mod tests {
    use super::Operation::{Add, Mark, Return, Swap};
    use super::*;

    fn begun() -> Design {
        let (design, answer) = Design::begin(2, 2, &[0, 1, 2, 3]);
        assert_eq!(answer, Ok(()));
        design
    }

    fn after(operations: &[Operation]) -> Design {
        let mut design = begun();
        for &operation in operations {
            assert_eq!(design.operate(operation), Ok(()), "{operation:?}");
        }
        design
    }

    #[test]
    fn a_swap_and_an_addition() {
        assert_eq!(after(&[Swap(1, 3)]).rows(), [0, 3, 2, 1]);
        assert_eq!(after(&[Swap(2, 2)]).rows(), [0, 1, 2, 3]);
        assert_eq!(after(&[Add(2, 1, 1)]).rows(), [2, 1, 0, 3]);
    }

    #[test]
    fn a_return_brings_the_box_of_the_last_setting() {
        assert_eq!(after(&[Mark(3), Swap(0, 1), Return(3)]).rows(), [0, 1, 2, 3]);
        assert_eq!(after(&[Mark(3), Swap(0, 1), Mark(3), Swap(0, 2), Return(3)]).rows(), [1, 0, 2, 3]);
        assert_eq!(after(&[Mark(3), Swap(0, 1), Mark(4), Return(3), Return(4)]).rows(), [1, 0, 2, 3]);
        assert_eq!(after(&[Mark(16), Swap(0, 1), Return(16), Swap(2, 3), Return(16)]).rows(), [0, 1, 2, 3]);
    }

    #[test]
    fn refusals_leave_the_design() {
        let mut design = after(&[Swap(1, 3), Mark(1)]);
        let wrong = [
            (Swap(4, 0), 6),
            (Swap(0, 4), 6),
            (Add(0, 0, 0), 6),
            (Add(3, 0, 0), 6),
            (Add(1, 4, 0), 6),
            (Add(1, 0, 2), 6),
            (Mark(0), 6),
            (Mark(17), 6),
            (Return(0), 6),
            (Return(17), 6),
            (Return(2), 17),
            (Return(16), 17),
        ];
        for (operation, number) in wrong {
            assert_eq!(design.operate(operation), Err(number), "{operation:?}");
            assert_eq!((design.rows(), design.moments.len()), (&[0, 3, 2, 1][..], 3));
        }
        assert_eq!(design.operate(Return(1)), Ok(()));
    }

    #[test]
    fn a_design_begins_with_a_box() {
        assert_eq!(Design::begin(0, 2, &[0]).1, Err(1));
        assert_eq!(Design::begin(1, 33, &[0]).1, Err(2));
        assert_eq!(Design::begin(1, 1, &[0]).1, Err(3));
        assert_eq!(Design::begin(1, 1, &[0, 2]).1, Err(4));
        assert!((1..=MARKS).all(|k| begun().kept(k).is_none()));
    }

    #[test]
    fn without_a_box_everything_is_refused() {
        let (mut design, answer) = Design::begin(9, 2, &[0]);
        assert_eq!(answer, Err(1));
        for operation in [Swap(0, 0), Add(1, 0, 0), Mark(1), Return(1), Return(17)] {
            assert_eq!(design.operate(operation), Err(6), "{operation:?}");
        }
        assert_eq!(design.read(1, 2), Err(7));
        assert_eq!(design.read(0, 2), Err(7));
        assert_eq!((design.n, design.m, design.rows()), (0, 0, &[][..]));
        assert!((1..=MARKS).all(|k| design.kept(k).is_none()));
    }
}
