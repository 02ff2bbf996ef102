//! Lists that a call gives: each entry is one coded number, and is decoded when it is reached.
use std::iter::FusedIterator;
use std::marker::PhantomData;
use std::vec;

/// A cell of the XOR table (DDT): an input difference and an output difference.
#[derive(Clone, Copy, Debug, PartialEq, Eq, Hash)]
#[allow(missing_docs)] // document 01's letters
pub struct Cell {
    pub a: u32,
    pub beta: u32,
}

/// A linear approximation: a combination (output mask `c`) and an affine function w·x XOR b (input mask `w`).
#[derive(Clone, Copy, Debug, PartialEq, Eq, Hash)]
#[allow(missing_docs)] // document 01's letters
pub struct Pair {
    pub c: u32,
    pub w: u32,
    pub b: u32,
}

/// From a × 2^32 + beta.
impl From<u64> for Cell {
    fn from(code: u64) -> Cell {
        Cell { a: (code >> 32) as u32, beta: code as u32 }
    }
}

/// From 512 × c + 2 × w + b.
impl From<u64> for Pair {
    fn from(code: u64) -> Pair {
        Pair { c: (code >> 9) as u32, w: (code >> 1) as u32 & 255, b: code as u32 & 1 }
    }
}

/// All entries of a list, in its order.
#[derive(Clone, Debug)]
pub struct List<T> {
    codes: vec::IntoIter<u64>,
    of: PhantomData<T>,
}

/// All cells of the XOR table (DDT) that reach the differential uniformity, by ascending a and then by
/// ascending beta.
pub type Cells = List<Cell>;

/// All best linear approximations, pairs that differ at as few inputs as the nonlinearity says: the
/// combinations of fewest outputs first and of those the smaller c, then by ascending w, then by
/// ascending b.
pub type NearestPairs = List<Pair>;

impl<T> List<T> {
    pub(crate) fn of(codes: Vec<u64>) -> List<T> {
        List { codes: codes.into_iter(), of: PhantomData }
    }
}

impl<T: From<u64>> Iterator for List<T> {
    type Item = T;

    fn next(&mut self) -> Option<T> {
        self.codes.next().map(T::from)
    }

    fn size_hint(&self) -> (usize, Option<usize>) {
        self.codes.size_hint()
    }
}

impl<T: From<u64>> DoubleEndedIterator for List<T> {
    fn next_back(&mut self) -> Option<T> {
        self.codes.next_back().map(T::from)
    }
}

impl<T: From<u64>> ExactSizeIterator for List<T> {}
impl<T: From<u64>> FusedIterator for List<T> {}

#[cfg(test)]
mod tests {
    use super::*;

    #[test]
    fn codes_are_taken_apart() {
        assert_eq!(Cell::from((255 << 32) + 0xffff_fffe), Cell { a: 255, beta: 0xffff_fffe });
        assert_eq!(Pair::from(512 * 0xffff_ffff + 2 * 255 + 1), Pair { c: u32::MAX, w: 255, b: 1 });
        assert_eq!(Pair::from(512 * 3 + 2 * 128), Pair { c: 3, w: 128, b: 0 });
        let mut list: Cells = List::of(vec![(1 << 32) + 2, (3 << 32) + 4]);
        assert_eq!(list.len(), 2);
        assert_eq!(list.next_back(), Some(Cell { a: 3, beta: 4 }));
        assert_eq!((list.next(), list.next()), (Some(Cell { a: 1, beta: 2 }), None));
    }
}
