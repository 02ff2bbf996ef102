//! Document 02, section 13: boxes that change evenly and boxes that are bent, by counting.
use crate::combinations::within;
use crate::model::combination;

/// Whether every combination of at most i outputs changes at exactly half of the inputs under
/// every nonzero input change.
pub fn changes_evenly(n: u32, m: u32, rows: &[u32], i: u32) -> bool {
    let even = |f: &[u8], s: usize| 2 * (0..f.len()).filter(|&x| f[x] != f[x ^ s]).count() == f.len();
    within(m, i).into_iter().all(|c| {
        let f = combination(rows, c);
        (1..1 << n).all(|s| even(&f, s))
    })
}

/// Whether (2^n - 2d)² = 2^n.
pub fn meets_the_bound(n: u32, d: u32) -> bool {
    let gap = (1i64 << n) - 2 * i64::from(d);
    gap * gap == 1 << n
}

/// The product in the field of 2^h elements, for h = 1 to 4: carry-less, with x^h taken away by
/// the field's polynomial x² + x + 1, x³ + x + 1 or x⁴ + x + 1.
fn product(h: u32, a: u32, b: u32) -> u32 {
    let polynomial = (1 << h) | 3;
    let long = (0..h).filter(|k| b >> k & 1 == 1).fold(0, |sum, k| sum ^ a << k);
    (h..2 * h).rev().fold(long, |rest, k| if rest >> k & 1 == 1 { rest ^ polynomial << (k - h) } else { rest })
}

/// A box of 2h inputs and h outputs all of whose combinations are bent: input x × 2^h + y gives
/// π(x)y XOR g(x), with the product of the field. Each combination is of the form of document 01.
pub fn bent_box(h: u32, permutation: &[u8], g: &[u32]) -> Vec<u32> {
    let row = |z: u32| {
        let x = (z >> h) as usize;
        product(h, u32::from(permutation[x]), z % (1 << h)) ^ g[x]
    };
    (0..1 << (2 * h)).map(row).collect()
}

#[cfg(test)]
mod tests {
    use super::*;
    use crate::boxes;
    use crate::model;
    use crate::random::Random;

    /// The field of four elements: 2 · 2 = 3, 2 · 3 = 1.
    #[test]
    fn products() {
        assert_eq!([product(2, 2, 2), product(2, 2, 3), product(2, 3, 3), product(2, 1, 3)], [3, 1, 2, 3]);
        for h in 1..=4 {
            for a in 1..1 << h {
                let mut row: Vec<u32> = (0..1 << h).map(|b| product(h, a, b)).collect();
                row.sort();
                assert_eq!(row, (0..1 << h).collect::<Vec<u32>>());
            }
        }
    }

    /// All boxes of one and two inputs and up to three outputs, at each limit, by definition: both
    /// sides are the same, and neither occurs with one input.
    #[test]
    fn all_small_boxes() {
        for (n, m) in [(1, 1), (1, 2), (1, 3), (2, 1), (2, 2), (2, 3)] {
            for number in 0..1u32 << (m << n) {
                let rows: Vec<u32> = (0..1 << n).map(|x| number >> (m * x) & ((1 << m) - 1)).collect();
                for i in 1..=m {
                    let even = changes_evenly(n, m, &rows, i);
                    let [d, ..] = model::nonlinearity_by_definition(n, m, &rows, i);
                    assert_eq!(even, meets_the_bound(n, d), "{n} by {m}, i = {i}: {rows:?}");
                    assert_eq!(even, model::dynamic_distance_by_definition(n, m, &rows, i, n)[0] == 0);
                    assert!(n == 2 || !even);
                }
            }
        }
    }

    /// A bent box is even at each limit, and one bit away from it nothing is. With a column twice
    /// it is even within the limit 1 alone, since the two columns together are constant.
    #[test]
    fn boxes_near_a_bent_one() {
        let mut random = Random::new(4);
        for round in 0..24 {
            let h = 1 + round % 4;
            let permutation = boxes::random_permutation(h, &mut random);
            let g = boxes::random_rows(h, h, &mut random);
            let rows = bent_box(h, &permutation, &g);
            assert!((1..=h).all(|i| changes_evenly(2 * h, h, &rows, i)), "{rows:?}");
            // The column whose bit is changed is among the combinations at every limit.
            let mut near = rows.clone();
            near[random.below(1 << (2 * h)) as usize] ^= 1 << random.below(h);
            assert!((1..=h).all(|i| !changes_evenly(2 * h, h, &near, i)), "{near:?}");
            let twice: Vec<u32> = rows.iter().map(|row| row | (row & 1) << h).collect();
            assert!((1..=h + 1).all(|i| changes_evenly(2 * h, h + 1, &twice, i) == (i == 1)), "{twice:?}");
        }
    }

    /// With an odd number of inputs neither side occurs, and with an even one both or none.
    #[test]
    fn both_sides_are_the_same() {
        let mut random = Random::new(5);
        for (n, m) in (1..=6).flat_map(|n| [1, 2, 3, 5].map(|m| (n, m))) {
            for kind in 0..boxes::KINDS {
                let rows = boxes::of_kind(kind, n, m, &mut random);
                let i = random.between(1, m);
                let even = changes_evenly(n, m, &rows, i);
                let [d, ..] = model::nonlinearity_by_definition(n, m, &rows, i);
                assert_eq!(even, meets_the_bound(n, d), "{n} by {m}, i = {i}: {rows:?}");
                assert!(!even || n % 2 == 0, "{n} by {m}, i = {i}: {rows:?}");
            }
        }
    }

    #[test]
    fn bent_boxes_are_bent() {
        let mut random = Random::new(3);
        for h in 1..=4 {
            let permutation = boxes::random_permutation(h, &mut random);
            let g = boxes::random_rows(h, h, &mut random);
            let rows = bent_box(h, &permutation, &g);
            for c in 1..1 << h {
                let spectrum = model::component_spectrum(2 * h, h, &rows, c, 1 << (2 * h)).unwrap();
                assert!(spectrum.iter().all(|v| v.abs() == spectrum[0].abs()));
            }
            assert!(changes_evenly(2 * h, h, &rows, h));
        }
    }
}
