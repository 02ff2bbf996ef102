//! Truth tables.
use crate::refusal::{accepted, answer};
use crate::{slices, DetailedRefusal, Refusal};

/// A Boolean function as a truth table that the library accepts: 2^n values, each 0 or 1, with n from 1
/// to 8.
///
/// ```
/// use satmegwo::{Refusal, TruthTable};
///
/// let table = TruthTable::new(2, [0, 0, 0, 1])?;
/// assert_eq!(table.spectrum(), [1, 1, 1, -1]);
/// assert_eq!(TruthTable::from_spectrum(2, &[1, 1, 1, -1])?, table);
/// assert_eq!(TruthTable::from_spectrum(2, &[1, 1, 1, 1]), Err(Refusal::NoFunction));
/// assert_eq!(table.normal_form().values(), [0, 0, 0, 1]);
/// # Ok::<(), satmegwo::Refusal>(())
/// ```
#[derive(Clone, Debug, PartialEq, Eq, Hash)]
pub struct TruthTable {
    n: u32,
    values: Vec<u8>,
}

impl TruthTable {
    /// A table of these values. Refusals: 1, 3, 4.
    pub fn new(n: u32, values: impl Into<Vec<u8>>) -> Result<TruthTable, DetailedRefusal> {
        let values = values.into();
        // No call only checks a table; the normal form does it in the same order.
        let checked = answer(slices::normal_form(n, &values, &mut vec![0; values.len()]));
        checked.map_err(|refusal| DetailedRefusal::of_table(refusal, n, &values))?;
        Ok(TruthTable { n, values })
    }

    /// The number of inputs, n.
    pub fn inputs(&self) -> u32 {
        self.n
    }

    /// The value for each input.
    pub fn values(&self) -> &[u8] {
        &self.values
    }

    /// The Walsh spectrum, halved, which is the linear approximation values: for each w the number of
    /// inputs where the function equals w·x, less 2^(n−1).
    pub fn spectrum(&self) -> Vec<i32> {
        let mut values = vec![0; self.values.len()];
        accepted(slices::spectrum(self.n, &self.values, &mut values));
        values
    }

    /// The inverse Walsh transform: the only table that has these values (half of Walsh's). Refusals: 1, 3, 8.
    pub fn from_spectrum(n: u32, spectrum: &[i32]) -> Result<TruthTable, Refusal> {
        let mut values = vec![0; spectrum.len()];
        answer(slices::inverse_spectrum(n, spectrum, &mut values))?;
        Ok(TruthTable { n, values })
    }

    /// The coefficients of the algebraic normal form (ANF): at u the XOR of the values at all x whose ones lie
    /// within u. The normal form of the normal form is the table again.
    pub fn normal_form(&self) -> TruthTable {
        let mut values = vec![0; self.values.len()];
        accepted(slices::normal_form(self.n, &self.values, &mut values));
        TruthTable { n: self.n, values }
    }

    /// A table of one more input: the lower half is this one, the upper half has at x the value at
    /// x XOR 2^(k−1), XOR a. Refusals: 1 (n = 8), 6.
    ///
    /// ```
    /// use satmegwo::TruthTable;
    ///
    /// let table = TruthTable::new(3, [1, 1, 0, 0, 0, 1, 0, 1])?;
    /// assert_eq!(table.enlarged(1, 1)?.values()[8..], [0, 0, 1, 1, 0, 1, 0, 1]);
    /// # Ok::<(), satmegwo::Refusal>(())
    /// ```
    pub fn enlarged(&self, k: u32, a: u32) -> Result<TruthTable, Refusal> {
        let mut values = vec![0; 2 * self.values.len()];
        answer(slices::enlarge_column(self.n, &self.values, k, a, &mut values))?;
        Ok(TruthTable { n: self.n + 1, values })
    }

    /// A bent function of n = 2h inputs by the construction of Maiorana and McFarland: at x × 2^h + y the parity
    /// of the ones in (`permutation[x]` AND y), XOR `added[x]`. Refusals: 1, 3, 4, 5.
    ///
    /// ```
    /// use satmegwo::TruthTable;
    ///
    /// let bent = TruthTable::bent(4, &[0, 1, 2, 3], &[0; 4])?;
    /// assert_eq!(bent.values(), [0, 0, 0, 0, 0, 1, 0, 1, 0, 0, 1, 1, 0, 1, 1, 0]);
    /// assert!(bent.spectrum().iter().all(|value| value.abs() == 2));
    /// # Ok::<(), satmegwo::Refusal>(())
    /// ```
    pub fn bent(n: u32, permutation: &[u8], added: &[u8]) -> Result<TruthTable, Refusal> {
        let mut values = vec![0; 1 << n.clamp(1, 8)];
        answer(slices::bent_function(n, permutation, added, &mut values))?;
        Ok(TruthTable { n, values })
    }
}
