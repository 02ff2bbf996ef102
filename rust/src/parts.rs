//! Figures over a part of the combinations (component functions), and the merging of what two parts found.
use crate::figures::{Autocorrelation, DynamicDistance, Nonlinearity, SumNonlinearity};
use crate::refusal::answer;
use crate::{slices, Refusal, Sbox};
use std::ops::RangeInclusive;

/// What the calls over parts find: a figure and the first combination of the part that has it.
pub trait Part: found::Found {}

impl Part for Nonlinearity {}
impl Part for Autocorrelation {}
impl Part for DynamicDistance {}
impl Part for SumNonlinearity {}

mod found {
    use super::*;

    /// The limit that a figure was asked for with, and of a dynamic distance the most flipped bits.
    pub type Scope = (u32, u32);

    /// A figure with its witness as the library has it, and the call that merges two.
    pub trait Found: Sized {
        const MERGE: fn(&[u32], &[u32], &mut [u32]) -> u32;
        fn scope(&self) -> Scope;
        fn numbers(&self) -> Vec<u32>;
        fn of(numbers: &[u32], scope: Scope) -> Self;
    }

    impl Found for Nonlinearity {
        const MERGE: fn(&[u32], &[u32], &mut [u32]) -> u32 = slices::merge_least;

        fn scope(&self) -> Scope {
            (self.limit, 0)
        }

        fn numbers(&self) -> Vec<u32> {
            vec![self.figure, self.c, self.w, self.b]
        }

        fn of(numbers: &[u32], (limit, _): Scope) -> Self {
            Nonlinearity { figure: numbers[0], c: numbers[1], w: numbers[2], b: numbers[3], limit }
        }
    }

    impl Found for Autocorrelation {
        const MERGE: fn(&[u32], &[u32], &mut [u32]) -> u32 = slices::merge_largest;

        fn scope(&self) -> Scope {
            (self.limit, 0)
        }

        fn numbers(&self) -> Vec<u32> {
            vec![self.figure, self.c, self.s]
        }

        fn of(numbers: &[u32], (limit, _): Scope) -> Self {
            Autocorrelation { figure: numbers[0], c: numbers[1], s: numbers[2], limit }
        }
    }

    impl Found for DynamicDistance {
        const MERGE: fn(&[u32], &[u32], &mut [u32]) -> u32 = slices::merge_largest;

        fn scope(&self) -> Scope {
            (self.limit, self.flips)
        }

        fn numbers(&self) -> Vec<u32> {
            vec![self.figure, self.c, self.d]
        }

        fn of(numbers: &[u32], (limit, flips): Scope) -> Self {
            DynamicDistance { figure: numbers[0], c: numbers[1], d: numbers[2], limit, flips }
        }
    }

    impl Found for SumNonlinearity {
        const MERGE: fn(&[u32], &[u32], &mut [u32]) -> u32 = slices::merge_least;

        fn scope(&self) -> Scope {
            (self.limit, 0)
        }

        fn numbers(&self) -> Vec<u32> {
            [&[self.figure, self.c][..], &self.masks, &[self.b]].concat()
        }

        fn of(numbers: &[u32], (limit, _): Scope) -> Self {
            let (masks, b) = (&numbers[2..numbers.len() - 1], numbers[numbers.len() - 1]);
            SumNonlinearity { figure: numbers[0], c: numbers[1], masks: masks.to_vec(), b, limit }
        }
    }
}

/// The array of a part: 1 and what was found, or zeros, `len` numbers in all.
fn lent<P: Part>(part: &Option<P>, len: usize) -> Vec<u32> {
    part.as_ref().map_or(vec![0; len], |found| [vec![1], found.numbers()].concat())
}

/// What such an array says of a figure with this limit.
fn told<P: Part>(part: &[u32], scope: found::Scope) -> Option<P> {
    (part[0] == 1).then(|| P::of(&part[1..], scope))
}

/// What is found over the combinations (component functions) of both parts: the smaller nonlinearity, the
/// larger autocorrelation or dynamic distance, and of equal figures the one whose combination has fewer
/// outputs, then the smaller one. `None` adds nothing.
///
/// Both must be found with the same arguments, except for the combinations. It is proved that parts which
/// together cover 1 to 2^m − 1, merged in any order and grouping, give what the plain call gives; parts
/// may overlap. Refusals: 6 (different limits or orders), 3 (sums of different numbers of boxes).
///
/// ```
/// use satmegwo::{merged, Sbox};
///
/// let sbox = Sbox::new(3, 3, [3, 1, 4, 0, 2, 5, 6, 7])?;
/// let mut all = None;
/// for part in [5..=7, 1..=2, 3..=4] {
///     all = merged(&all, &sbox.nonlinearity_between(3, part)?)?;
/// }
/// assert_eq!(all, Some(sbox.nonlinearity(3)?));
/// # Ok::<(), satmegwo::Refusal>(())
/// ```
pub fn merged<P: Part>(x: &Option<P>, y: &Option<P>) -> Result<Option<P>, Refusal> {
    // Two arrays without a combination have the fewest elements that the call takes.
    let len = x.as_ref().or(y.as_ref()).map_or(3, |found| 1 + found.numbers().len());
    let scopes: Vec<found::Scope> = [x, y].into_iter().flatten().map(|found| found.scope()).collect();
    if scopes.windows(2).any(|two| two[0] != two[1]) {
        return Err(Refusal::Parameter);
    }
    let mut both = vec![0; len];
    answer(P::MERGE(&lent(x, len), &lent(y, len), &mut both))?;
    Ok(told(&both, scopes.first().copied().unwrap_or_default()))
}

impl Sbox {
    /// The nonlinearity over those combinations c of a range that lie within the limit i, or `None` where
    /// none does. The range lies within 1 to 2^m − 1. Refusals: 6 (the limit), 6 (an end of the range).
    ///
    /// ```
    /// use satmegwo::{Refusal, Sbox};
    ///
    /// let sbox = Sbox::new(3, 3, [3, 1, 4, 0, 2, 5, 6, 7])?;
    /// assert_eq!(sbox.nonlinearity_between(2, 1..=7)?, Some(sbox.nonlinearity(2)?));
    /// // 5, 6 and 7 are combinations of two outputs or three.
    /// assert_eq!(sbox.nonlinearity_between(1, 5..=7)?, None);
    /// assert_eq!(sbox.nonlinearity_between(1, 5..=8), Err(Refusal::Parameter));
    /// # Ok::<(), satmegwo::Refusal>(())
    /// ```
    pub fn nonlinearity_between(&self, i: u32, combinations: RangeInclusive<u32>) -> Result<Option<Nonlinearity>, Refusal> {
        let (mut part, (first, last)) = ([0; 5], combinations.into_inner());
        answer(slices::nonlinearity_between(self.inputs(), self.outputs(), self.rows(), i, first, last, &mut part))?;
        Ok(told(&part, (i, 0)))
    }

    /// The absolute indicator (autocorrelation) over a range, as [`Sbox::nonlinearity_between`] has it. Refusals: 6 (the
    /// limit), 6 (an end of the range).
    pub fn autocorrelation_between(&self, i: u32, combinations: RangeInclusive<u32>) -> Result<Option<Autocorrelation>, Refusal> {
        let (mut part, (first, last)) = ([0; 4], combinations.into_inner());
        answer(slices::autocorrelation_between(self.inputs(), self.outputs(), self.rows(), i, first, last, &mut part))?;
        Ok(told(&part, (i, 0)))
    }

    /// The dynamic distance of order (i, j), doubled, over a range, as [`Sbox::nonlinearity_between`] has
    /// it. Refusals: 6 (i), 6 (j), 6 (an end of the range).
    pub fn dynamic_distance_between(&self, i: u32, j: u32, combinations: RangeInclusive<u32>) -> Result<Option<DynamicDistance>, Refusal> {
        let (mut part, (first, last)) = ([0; 4], combinations.into_inner());
        answer(slices::dynamic_distance_between(self.inputs(), self.outputs(), self.rows(), i, j, first, last, &mut part))?;
        Ok(told(&part, (i, j)))
    }
}

/// The nonlinearity of a sum (XOR) of one to four S-boxes over a range of the combinations, or `None` where
/// none of it lies within the limit i. Refusals: 11 (another number of boxes), 12 (different numbers of
/// outputs), 6 (the limit), 6 (an end of the range).
///
/// ```
/// use satmegwo::{merged, sum_nonlinearity, sum_nonlinearity_between, Sbox};
///
/// let one = Sbox::new(3, 3, [3, 1, 4, 0, 2, 5, 6, 7])?;
/// let two = Sbox::new(2, 3, [0, 5, 3, 6])?;
/// let part = |combinations| sum_nonlinearity_between(&[&one, &two], 2, combinations);
/// assert_eq!(merged(&part(4..=7)?, &part(1..=3)?)?, Some(sum_nonlinearity(&[&one, &two], 2)?));
/// # Ok::<(), satmegwo::Refusal>(())
/// ```
pub fn sum_nonlinearity_between(boxes: &[&Sbox], i: u32, combinations: RangeInclusive<u32>) -> Result<Option<SumNonlinearity>, Refusal> {
    let count = boxes.len().min(5); // 5 is refused as every greater number is
    let lent = std::array::from_fn(|k| boxes.get(k).map_or((0, 0, &[][..]), |one| (one.inputs(), one.outputs(), one.rows())));
    let (mut part, (first, last)) = (vec![0; 4 + count], combinations.into_inner());
    answer(slices::sum_nonlinearity_between(count as u32, lent, i, first, last, &mut part))?;
    Ok(told(&part, (i, 0)))
}
