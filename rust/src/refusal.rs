//! The numbered refusals.
use std::error::Error;
use std::fmt;

/// The error code of a call that ended without its result: the first check that applies gives the number.
///
/// ```
/// use satmegwo::{Refusal, Sbox};
///
/// let refused = Sbox::new(3, 3, [3, 1, 4, 0, 2, 5, 6, 7])?.nonlinearity(4).unwrap_err();
/// assert_eq!(refused, Refusal::Parameter);
/// assert_eq!(refused.number(), 6);
/// assert_eq!(refused.to_string(), format!("refused 6: {}", refused.sentence()));
/// # Ok::<(), Refusal>(())
/// ```
#[derive(Clone, Copy, Debug, PartialEq, Eq, Hash, PartialOrd, Ord)]
#[repr(u32)]
#[allow(missing_docs)] // each is what its sentence says
pub enum Refusal {
    InputWidth = 1,
    OutputWidth = 2,
    ReadLength = 3,
    Value = 4,
    Permutation = 5,
    Parameter = 6,
    WrittenLength = 7,
    NoFunction = 8,
    ListTooShort = 9,
    FileLength = 10,
    BoxCount = 11,
    OutputWidths = 12,
    Catalogue = 13,
    NoRoom = 14,
    NoRecord = 15,
    UnusedBit = 16,
    UnsetMark = 17,
    NoPlace = 18,
    PlaceState = 19,
}

impl Refusal {
    /// All of them, by their numbers.
    pub const ALL: [Refusal; 19] = [
        Refusal::InputWidth,
        Refusal::OutputWidth,
        Refusal::ReadLength,
        Refusal::Value,
        Refusal::Permutation,
        Refusal::Parameter,
        Refusal::WrittenLength,
        Refusal::NoFunction,
        Refusal::ListTooShort,
        Refusal::FileLength,
        Refusal::BoxCount,
        Refusal::OutputWidths,
        Refusal::Catalogue,
        Refusal::NoRoom,
        Refusal::NoRecord,
        Refusal::UnusedBit,
        Refusal::UnsetMark,
        Refusal::NoPlace,
        Refusal::PlaceState,
    ];

    /// The refusal of this number, if there is one.
    pub fn of_number(number: u32) -> Option<Refusal> {
        Refusal::ALL.into_iter().find(|refusal| refusal.number() == number)
    }

    /// The number, 1 to 19.
    pub fn number(self) -> u32 {
        self as u32
    }

    /// The condition, in the words of the header's `satmegwo_refusal_text`.
    pub fn sentence(self) -> &'static str {
        match self {
            Refusal::InputWidth => "n is not 1 to 8 (in the two enlargements not 1 to 7, in the bent form not 2, 4, 6 or 8)",
            Refusal::OutputWidth => {
                "m is not 1 to 32 (for a row of the XOR table and on a server not 1 to 16, for the raising swap not 1 to 8)"
            }
            Refusal::ReadLength => {
                "an array that is read does not have 2^n elements (in the bent form 2^(n/2); packed columns and parts have their own length)"
            }
            Refusal::Value => "a row is not below 2^m, or a truth value is above 1",
            Refusal::Permutation => "the permutation of the bent form is not a permutation",
            Refusal::Parameter => "c, w, a, b, k, i, j, an end of a part, or an input or mark of a design is outside its range",
            Refusal::WrittenLength => "an output array (other than a list) is not exactly as long as the result",
            Refusal::NoFunction => "no function has this spectrum",
            Refusal::ListTooShort => "a list is shorter than the number of its cells or pairs",
            Refusal::FileLength => "a box file has a wrong length",
            Refusal::BoxCount => "the number of boxes in a sum is not 1 to 4",
            Refusal::OutputWidths => "the boxes of a sum have different numbers of outputs",
            Refusal::Catalogue => "a catalogue breaks one of its rules",
            Refusal::NoRoom => "a catalogue has no gap that is long enough, or has 64 records",
            Refusal::NoRecord => "a catalogue has no record of this index",
            Refusal::UnusedBit => "an unused bit of a packed column is set",
            Refusal::UnsetMark => "a mark of a design was never set",
            Refusal::NoPlace => "the place of a server is not 1 to 8",
            Refusal::PlaceState => "the place is taken on putting, or empty on asking or withdrawing",
        }
    }
}

impl fmt::Display for Refusal {
    fn fmt(&self, f: &mut fmt::Formatter<'_>) -> fmt::Result {
        write!(f, "refused {}: {}", self.number(), self.sentence())
    }
}

impl Error for Refusal {}

/// What a call said: 0, or the number of a refusal. No call gives another number.
pub(crate) fn answer(number: u32) -> Result<(), Refusal> {
    match number {
        0 => Ok(()),
        _ => Err(Refusal::of_number(number).unwrap_or_else(|| panic!("the library gave {number}, which is no refusal"))),
    }
}

/// The same of a call that has nothing to refuse: its arguments were checked before.
pub(crate) fn accepted(number: u32) {
    assert_eq!(number, 0, "the library refused what it accepted before");
}

#[cfg(test)]
mod tests {
    use super::*;

    #[test]
    fn numbers_go_there_and_back() {
        for (place, refusal) in Refusal::ALL.into_iter().enumerate() {
            assert_eq!(refusal.number() as usize, place + 1);
            assert_eq!(Refusal::of_number(refusal.number()), Some(refusal));
            assert_eq!(answer(refusal.number()), Err(refusal));
        }
        assert_eq!((Refusal::of_number(0), Refusal::of_number(20), answer(0)), (None, None, Ok(())));
    }
}
