//! An S-box that is tuned.
use crate::raw::{self, DesignOutcome};
use crate::refusal::{accepted, answer};
use crate::slices::design as calls;
use crate::{Refusal, Sbox};
use std::fmt;

/// A design: one S-box with marks 1 to 16 to return to. A refused operation leaves it as it was.
///
/// ```
/// use satmegwo::{Design, Refusal, Sbox};
///
/// let sbox = Sbox::new(3, 3, [3, 1, 4, 0, 2, 5, 6, 7])?;
/// let mut design = Design::begin(&sbox);
/// assert_eq!(design.return_to(1), Err(Refusal::UnsetMark));
/// design.mark(1)?;
/// design.swap(0, 7)?;
/// design.add_to_column(2, 5, 1)?;
/// assert_ne!(design.sbox(), sbox);
/// design.return_to(1)?;
/// assert_eq!(design.sbox(), sbox);
/// # Ok::<(), satmegwo::Refusal>(())
/// ```
#[derive(Clone, PartialEq, Eq)]
pub struct Design {
    state: Box<raw::Design>,
}

impl Design {
    /// A design of this box, with no mark set.
    pub fn begin(sbox: &Sbox) -> Design {
        let outcome = calls::begin(sbox.inputs(), sbox.outputs(), sbox.rows());
        accepted(outcome.status);
        Design { state: Box::new(outcome.design) }
    }

    /// Takes over what an operation gave, which where it was refused is the design as it was.
    fn take(&mut self, outcome: DesignOutcome) -> Result<(), Refusal> {
        *self.state = outcome.design;
        answer(outcome.status)
    }

    /// Swaps the rows of two inputs. Refusals: 6.
    pub fn swap(&mut self, x: u32, y: u32) -> Result<(), Refusal> {
        self.take(calls::swap(*self.state, x, y))
    }

    /// Adds the affine function w·x XOR b to column j (a coordinate function). Refusals: 6.
    pub fn add_to_column(&mut self, j: u32, w: u32, b: u32) -> Result<(), Refusal> {
        self.take(calls::add(*self.state, j, w, b))
    }

    /// Sets mark k: it keeps the box of this moment. Refusals: 6.
    pub fn mark(&mut self, k: u32) -> Result<(), Refusal> {
        self.take(calls::mark(*self.state, k))
    }

    /// Brings back the box of the moment when mark k was last set; all marks remain. Refusals: 6, 17.
    pub fn return_to(&mut self, k: u32) -> Result<(), Refusal> {
        self.take(calls::return_to(*self.state, k))
    }

    /// The box of this moment.
    pub fn sbox(&self) -> Sbox {
        let (mut rows, mut widths) = (vec![0; 1 << self.state.n], [0; 2]);
        accepted(calls::read(*self.state, &mut rows, &mut widths));
        Sbox::new(widths[0], widths[1], rows).expect("the box of a design stays accepted")
    }
}

impl fmt::Debug for Design {
    fn fmt(&self, f: &mut fmt::Formatter<'_>) -> fmt::Result {
        let set: Vec<usize> = (1..=raw::MARKS).filter(|k| self.state.marks[k - 1].taken == 1).collect();
        f.debug_struct("Design").field("sbox", &self.sbox()).field("marks", &set).finish()
    }
}
