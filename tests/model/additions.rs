//! Lists of column additions, from document 02, section 12: what stands after a list, and the
//! list made shorter.
use crate::model::{self, Answer};

/// An addition with all that is free in it: the column, the mask, the constant, and the length
/// of the array that it is lent.
#[derive(Clone, Copy, Debug, PartialEq, Eq)]
pub struct Addition {
    pub column: u32,
    pub mask: u32,
    pub constant: u32,
    pub lent: usize,
}

impl Addition {
    /// What the call answers to it.
    pub fn made(self, n: u32, m: u32, rows: &[u32]) -> Answer<Vec<u32>> {
        model::add_to_column(n, m, rows, self.column, self.mask, self.constant, self.lent)
    }

    /// Two additions to one column as one.
    pub fn and(self, other: Addition) -> Addition {
        Addition { mask: self.mask ^ other.mask, constant: self.constant ^ other.constant, ..self }
    }
}

/// The rows that stand after a list: a refused addition leaves those it was given.
pub fn standing_after(n: u32, m: u32, rows: &[u32], list: &[Addition]) -> Vec<u32> {
    list.iter().fold(rows.to_vec(), |rows, addition| addition.made(n, m, &rows).unwrap_or(rows))
}

/// The refused additions dropped, those to one column XORed together, and only those left that
/// add something.
pub fn shortened(n: u32, m: u32, rows: &[u32], list: &[Addition]) -> Vec<Addition> {
    let to_column = |column: u32| {
        let nothing = Addition { column, mask: 0, constant: 0, lent: 1 << n };
        list.iter().filter(|a| a.column == column && a.made(n, m, rows).is_ok()).fold(nothing, |sum, &a| sum.and(a))
    };
    (1..=m).map(to_column).filter(|a| (a.mask, a.constant) != (0, 0)).collect()
}

#[cfg(test)]
mod tests {
    use super::*;
    use crate::boxes::{self, KINDS};
    use crate::random::Random;

    fn addition(column: u32, mask: u32, constant: u32) -> Addition {
        Addition { column, mask, constant, lent: 8 }
    }

    /// By hand: column 2 has the masks 1, 3 and 2, which leave nothing, and the constants 1 and 0
    /// and 0; column 1 has what it was given twice, and column 3 keeps its one addition. Column 4
    /// and the constant 2 are refused.
    #[test]
    fn a_list_by_hand() {
        let list = [
            addition(2, 1, 1),
            addition(1, 5, 0),
            addition(4, 1, 0),
            addition(2, 3, 0),
            addition(3, 7, 1),
            addition(1, 5, 0),
            addition(2, 2, 2),
            addition(2, 2, 0),
        ];
        let rows = [3, 1, 4, 0, 2, 5, 6, 7];
        let short = shortened(3, 3, &rows, &list);
        assert_eq!(short, [addition(2, 0, 1), addition(3, 7, 1)]);
        assert_eq!(standing_after(3, 3, &rows, &list), standing_after(3, 3, &rows, &short));
        // x1 XOR x2 XOR x3 XOR 1 is 1 at 0, 3, 5 and 6: the rows flip 4 there, and 2 everywhere.
        assert_eq!(standing_after(3, 3, &rows, &short), [5, 3, 6, 6, 0, 3, 0, 5]);
    }

    #[test]
    fn an_array_of_another_length_is_refused() {
        let list = [Addition { lent: 7, ..addition(1, 1, 0) }];
        assert_eq!(shortened(3, 3, &[0; 8], &list), []);
        assert_eq!(standing_after(3, 3, &[0; 8], &list), [0; 8]);
    }

    /// A short list has at most one addition for each column, all of them accepted, and is no
    /// longer than the list.
    #[test]
    fn a_short_list_is_short() {
        let mut random = Random::new(6);
        for _ in 0..300 {
            let (n, m) = (random.between(1, 4), random.between(1, 6));
            let rows = boxes::random_rows(n, m, &mut random);
            let mut any = || Addition {
                column: random.between(0, m + 1),
                mask: random.below(2 << n),
                constant: random.below(3),
                lent: (1 << n) + random.below(6) as usize / 5,
            };
            let list: Vec<Addition> = (0..12).map(|_| any()).collect();
            let short = shortened(n, m, &rows, &list);
            assert!(short.windows(2).all(|pair| pair[0].column < pair[1].column), "{short:?}");
            assert!(short.iter().all(|a| a.made(n, m, &rows).is_ok()), "{short:?}");
            assert!(short.len() <= list.len());
            assert_eq!(standing_after(n, m, &rows, &short), standing_after(n, m, &rows, &list), "{list:?}");
        }
    }

    /// No list changes the figure or the witness of the autocorrelation or of a dynamic
    /// distance, by the definitions alone.
    #[test]
    fn what_a_list_keeps() {
        let mut random = Random::new(5);
        for round in 0..60 {
            let (n, m) = (random.between(1, 4), random.between(1, 4));
            let rows = boxes::of_kind(round % KINDS, n, m, &mut random);
            let mut any = || Addition { column: random.between(1, m), mask: random.below(1 << n), constant: random.below(2), lent: 1 << n };
            let list = [any(), any(), any()];
            let later = standing_after(n, m, &rows, &list);
            for i in 1..=m {
                assert_eq!(model::autocorrelation_by_definition(n, m, &rows, i), model::autocorrelation_by_definition(n, m, &later, i));
                for j in 1..=n {
                    assert_eq!(
                        model::dynamic_distance_by_definition(n, m, &rows, i, j),
                        model::dynamic_distance_by_definition(n, m, &later, i, j)
                    );
                }
            }
        }
    }

    /// The nonlinearity's witness may change: x1·x2 is nearest to 0, and with 1 added to 1.
    #[test]
    fn what_a_list_changes() {
        let later = standing_after(2, 1, &[0, 0, 0, 1], &[Addition { lent: 4, ..addition(1, 0, 1) }]);
        assert_eq!(model::nonlinearity(2, 1, &[0, 0, 0, 1], 1, 4), Ok([1, 1, 0, 0]));
        assert_eq!(model::nonlinearity(2, 1, &later, 1, 4), Ok([1, 1, 0, 1]));
    }
}
