//! The combinations of at most i outputs: which they are, in which order, and how many.

/// All combinations of 1 to i of the outputs 1 to m, those of fewer outputs first, and the
/// smaller first among those of equally many.
pub fn within(m: u32, i: u32) -> Vec<u32> {
    (1..=i.min(m)).flat_map(|k| choices(m, k)).collect()
}

/// Those of them from `first` to `last`, in the same order.
pub fn between(m: u32, i: u32, first: u32, last: u32) -> Vec<u32> {
    if how_many(m, i) <= u64::from(last - first) {
        return within(m, i).into_iter().filter(|c| (first..=last).contains(c)).collect();
    }
    let mut all: Vec<u32> = (first..=last).filter(|c| c.count_ones() <= i).collect();
    all.sort_by_key(|&c| (c.count_ones(), c));
    all
}

/// All ways to choose k of the outputs 1 to m, ascending: those without output m, then those
/// with it.
fn choices(m: u32, k: u32) -> Vec<u32> {
    if k == 0 {
        return vec![0];
    }
    if k > m {
        return Vec::new();
    }
    let mut all = choices(m - 1, k);
    let with_output_m = choices(m - 1, k - 1).into_iter().map(|c| c | 1 << (m - 1));
    all.extend(with_output_m);
    all
}

/// Whether combination c comes before d: it has fewer outputs, or as many and is the smaller.
pub fn before(c: u32, d: u32) -> bool {
    (c.count_ones(), c) < (d.count_ones(), d)
}

/// How many combinations of 1 to i of m outputs there are.
pub fn how_many(m: u32, i: u32) -> u64 {
    let (mut all, mut with_k_ones) = (0, 1);
    for k in 1..=i.min(m) {
        with_k_ones = with_k_ones * u64::from(m - k + 1) / u64::from(k);
        all += with_k_ones;
    }
    all
}

/// The highest limit up to m at which the combinations of a box have 2^18 truth values or
/// fewer in all, so that a figure takes no long time.
pub fn quick_limit(n: u32, m: u32) -> u32 {
    (1..=m).rev().find(|&i| how_many(m, i) << n <= 1 << 18).expect("a limit of 1 is quick")
}

#[cfg(test)]
mod tests {
    use super::*;

    #[test]
    fn they_are_the_numbers_with_at_most_i_ones_and_fewest_ones_come_first() {
        for m in 1..=12 {
            for i in 1..=m {
                let mut wanted: Vec<u32> = (1..1u32 << m).filter(|c| c.count_ones() <= i).collect();
                // A sort that leaves equals in their order, the ascending one.
                wanted.sort_by_key(|c| c.count_ones());
                assert_eq!(within(m, i), wanted, "m = {m}, i = {i}");
            }
        }
    }

    #[test]
    fn the_combinations_of_three_outputs() {
        assert_eq!(within(3, 3), [1, 2, 4, 3, 5, 6, 7]);
        assert_eq!(within(3, 2), [1, 2, 4, 3, 5, 6]);
        assert_eq!(within(3, 1), [1, 2, 4]);
    }

    #[test]
    fn the_combinations_from_3_to_6_of_three_outputs() {
        assert_eq!(between(3, 3, 3, 6), [4, 3, 5, 6]);
        assert_eq!(between(3, 1, 3, 6), [4]);
        assert_eq!(between(3, 1, 5, 7), []);
        assert_eq!(between(32, 31, u32::MAX, u32::MAX), []);
        assert_eq!(between(32, 32, u32::MAX - 1, u32::MAX), [u32::MAX - 1, u32::MAX]);
        assert_eq!(between(32, 1, 1 << 30, u32::MAX), [1 << 30, 1 << 31]);
    }

    #[test]
    fn parts_of_the_combinations_are_in_the_order_of_all() {
        for m in 1..=5 {
            for (first, last) in (1..1 << m).flat_map(|first| (first..1 << m).map(move |last| (first, last))) {
                for i in 1..=m {
                    let wanted: Vec<u32> = within(m, i).into_iter().filter(|&c| first <= c && c <= last).collect();
                    assert_eq!(between(m, i, first, last), wanted, "m = {m}, i = {i}, {first} to {last}");
                }
            }
        }
    }

    #[test]
    fn which_of_two_comes_before() {
        assert!(before(4, 3) && !before(3, 4));
        assert!(before(3, 5) && !before(5, 3));
        assert!(!before(6, 6));
    }

    #[test]
    fn there_are_41448_of_at_most_4_of_32_outputs() {
        let all = within(32, 4);
        assert_eq!(all.len(), 41448);
        assert!(all.is_sorted_by(|&c, &next| before(c, next)));
        assert_eq!((all[0], all[31], all[32], all[41447]), (1, 1 << 31, 3, 0xF000_0000));
    }

    #[test]
    fn they_are_counted_right() {
        for m in 1..=32 {
            for i in 1..=m.min(4) {
                assert_eq!(how_many(m, i), within(m, i).len() as u64, "m = {m}, i = {i}");
            }
            assert_eq!(how_many(m, m), (1 << m) - 1);
        }
    }

    #[test]
    fn quick_limits() {
        assert_eq!(quick_limit(1, 17), 17);
        assert_eq!(quick_limit(8, 10), 10);
        assert_eq!(quick_limit(2, 32), 4);
        assert_eq!(quick_limit(8, 32), 2);
    }
}
