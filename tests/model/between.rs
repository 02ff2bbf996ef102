//! Figures over a part of the combinations: those from `first` to `last` within the limit. Replies of
//! parts are merged; over parts that cover all combinations the result is the plain call's.
//!
//! Where no combination within the limit lies in the part there is nothing to tell, and that is no
//! refusal. Written, it is as many zeros as there would be figures; a figure has 1 in front.
use crate::combinations::between;
use crate::counted;
use crate::fast;
use crate::model::{self, all_outputs, check_box, check_parameter, check_written, Answer, Way};
use crate::random::Random;
use crate::rounds::{self, Summand, MOST};

/// What a call tells of a part: the figure, the combination c and the rest of its witness, or nothing.
pub type Part = Option<Vec<u32>>;

/// Which of two figures is the better one: of the nonlinearity and of a sum the less, of the
/// autocorrelation and of the dynamic distance the larger.
#[derive(Clone, Copy, Debug, PartialEq)]
pub enum Better {
    Less,
    Larger,
}

/// First and last combination.
pub type Ends = (u32, u32);

fn check_ends(m: u32, (first, last): Ends) -> Answer<()> {
    check_parameter(first, 1, all_outputs(m))?;
    check_parameter(last, first, all_outputs(m))
}

/// What is written to an array that has room for 1 and so many figures.
pub fn written(part: &Part, figures: usize) -> Vec<u32> {
    part.as_ref().map_or(vec![0; 1 + figures], |found| [&[1], &found[..]].concat())
}

/// How a figure over these combinations is reached. A part is one of many, and has less time than a whole
/// figure has.
fn way(n: u32, combinations: &[u32]) -> Way {
    model::way_over(n, (combinations.len() as u64) << 6)
}

fn way_of_sum(inputs: u32, combinations: &[u32]) -> rounds::Way {
    rounds::way_over(inputs, (combinations.len() as u64) << 6)
}

/// Figures: d, c, w, b.
pub fn nonlinearity(n: u32, m: u32, rows: &[u32], i: u32, ends: Ends, figures_len: usize) -> Answer<Part> {
    check_box(n, m, rows)?;
    check_parameter(i, 1, m)?;
    check_ends(m, ends)?;
    check_written(figures_len, 5)?;
    let all = between(m, i, ends.0, ends.1);
    let found = match way(n, &all) {
        Way::ByDefinition => model::nonlinearity_over(n, rows, &all),
        Way::ByCounting => counted::nonlinearity_over(n, m, rows, &all),
        Way::ByTransform => fast::nonlinearity_over(n, rows, &all),
    };
    Ok(found.map(Vec::from))
}

/// Figures: figure, c, s.
pub fn autocorrelation(n: u32, m: u32, rows: &[u32], i: u32, ends: Ends, figures_len: usize) -> Answer<Part> {
    check_box(n, m, rows)?;
    check_parameter(i, 1, m)?;
    check_ends(m, ends)?;
    check_written(figures_len, 4)?;
    let all = between(m, i, ends.0, ends.1);
    let found = match way(n, &all) {
        Way::ByDefinition => model::autocorrelation_over(n, rows, &all),
        Way::ByCounting => counted::autocorrelation_over(n, m, rows, &all),
        Way::ByTransform => fast::autocorrelation_over(n, rows, &all),
    };
    Ok(found.map(Vec::from))
}

/// The order is (i, j). Figures: the doubled figure, c, d.
pub fn dynamic_distance(n: u32, m: u32, rows: &[u32], (i, j): (u32, u32), ends: Ends, figures_len: usize) -> Answer<Part> {
    check_box(n, m, rows)?;
    check_parameter(i, 1, m)?;
    check_parameter(j, 1, n)?;
    check_ends(m, ends)?;
    check_written(figures_len, 4)?;
    let all = between(m, i, ends.0, ends.1);
    let found = match way(n, &all) {
        Way::ByDefinition => model::dynamic_distance_over(n, rows, &all, j),
        Way::ByCounting => counted::dynamic_distance_over(n, m, rows, &all, j),
        Way::ByTransform => fast::dynamic_distance_over(n, rows, &all, j),
    };
    Ok(found.map(Vec::from))
}

/// Figures: the figure, c, one mask for each box that is read, b.
pub fn sum_nonlinearity(number: u32, boxes: &[Summand; MOST], i: u32, ends: Ends, figures_len: usize) -> Answer<Part> {
    let read = rounds::check_boxes(number, boxes)?;
    let m = read[0].m;
    check_parameter(i, 1, m)?;
    check_ends(m, ends)?;
    check_written(figures_len, 4 + read.len())?;
    let all = between(m, i, ends.0, ends.1);
    Ok(match way_of_sum(rounds::all_inputs(read), &all) {
        rounds::Way::ByDefinition => rounds::by_definition_over(read, &all),
        rounds::Way::ByCounting => rounds::by_counting_over(read, &all),
        rounds::Way::ByProducts => rounds::by_products_over(read, &all),
    })
}

/// The better of two figures; of equal ones that with fewer ones in c, then that with the smaller c.
/// Nothing is neutral. A refusal stays a refusal: of two the first.
pub fn merged(better: Better, one: &Answer<Part>, other: &Answer<Part>) -> Answer<Part> {
    let (one, other) = (one.clone()?, other.clone()?);
    let (Some(a), Some(b)) = (&one, &other) else {
        return Ok(one.or(other));
    };
    let place = |found: &[u32]| (found[1].count_ones(), found[1]);
    let is_better = match better {
        Better::Less => (b[0], place(b)) < (a[0], place(a)),
        Better::Larger => b[0] > a[0] || b[0] == a[0] && place(b) < place(a),
    };
    Ok(if is_better { other } else { one })
}

/// What two written parts make, in an array of this length: they are of one length, 3 or more, and each
/// begins with 0 or 1.
pub fn merged_arrays(better: Better, x: &[u32], y: &[u32], merged_len: usize) -> Answer<Vec<u32>> {
    if x.len() < 3 || y.len() != x.len() {
        return Err(model::READ_LENGTH);
    }
    if x[0] > 1 || y[0] > 1 {
        return Err(model::READ_VALUE);
    }
    check_written(merged_len, x.len())?;
    let part = |array: &[u32]| (array[0] == 1).then(|| array[1..].to_vec());
    // Where the flag is 0 the array is told as it is, whatever stands behind the flag.
    let (one, other) = (part(x), part(y));
    Ok(match (&one, &other) {
        (_, None) => x.to_vec(),
        (None, _) => y.to_vec(),
        _ => written(&merged(better, &Ok(one), &Ok(other))?, x.len() - 1),
    })
}

/// Several replies merged, one after the other.
pub fn gathered(better: Better, replies: impl IntoIterator<Item = Answer<Part>>) -> Answer<Part> {
    let mut so_far = Ok(None);
    for reply in replies {
        so_far = merged(better, &so_far, &reply);
    }
    so_far
}

/// The combinations 1 to 2^m - 1 cut at random places, in any order.
pub fn cut(m: u32, random: &mut Random) -> Vec<Ends> {
    let mut starts: Vec<u32> = (0..random.below(6)).map(|_| random.between(1, all_outputs(m))).collect();
    starts.push(1);
    starts.sort_unstable();
    starts.dedup();
    let ends = starts[1..].iter().map(|start| start - 1).chain([all_outputs(m)]);
    let mut parts: Vec<Ends> = starts.iter().copied().zip(ends).collect();
    random.shuffle(&mut parts);
    parts
}

#[cfg(test)]
mod tests {
    use super::*;
    use crate::boxes::{self, KINDS};

    const F: [u32; 8] = [3, 1, 4, 0, 2, 5, 6, 7];

    /// Document 01's box: each combination alone, its witness held to its truth table, and then all.
    #[test]
    fn parts_of_one_combination_make_the_whole() {
        let alone: Vec<Answer<Part>> = (1..8).map(|c| nonlinearity(3, 3, &F, 3, (c, c), 5)).collect();
        for (c, one) in (1..).zip(&alone) {
            let found = one.clone().unwrap().unwrap();
            let f: Vec<u8> = F.iter().map(|row| (row & c).count_ones() as u8 % 2).collect();
            let differing = (0..8u32).filter(|&x| f[x as usize] != model::parity(found[2] & x) ^ found[3] as u8).count();
            assert_eq!((found[0], found[1]), (differing as u32, c));
        }
        let whole = model::nonlinearity(3, 3, &F, 3, 4).map(|found| Some(found.to_vec()));
        assert_eq!(gathered(Better::Less, alone), whole);
        assert_eq!(nonlinearity(3, 3, &F, 3, (1, 7), 5), whole);
    }

    #[test]
    fn nothing_lies_there() {
        assert_eq!(nonlinearity(3, 3, &F, 1, (5, 7), 5), Ok(None));
        assert_eq!(autocorrelation(3, 3, &F, 2, (7, 7), 4), Ok(None));
        assert_eq!(dynamic_distance(3, 3, &F, (1, 3), (3, 3), 4), Ok(None));
        assert_eq!(written(&None, 4), [0; 5]);
        assert_eq!(written(&Some(vec![2, 1, 0, 0]), 4), [1, 2, 1, 0, 0]);
    }

    #[test]
    fn the_order_of_checks() {
        let ask = |n, m, rows: &[u32], i, ends, len| nonlinearity(n, m, rows, i, ends, len);
        assert_eq!(ask(9, 33, &F[..7], 0, (0, 0), 0), Err(1));
        assert_eq!(ask(3, 33, &F[..7], 0, (0, 0), 0), Err(2));
        assert_eq!(ask(3, 2, &F[..7], 0, (0, 0), 0), Err(3));
        assert_eq!(ask(3, 2, &F, 0, (0, 0), 0), Err(4));
        for ends in [(0, 0), (0, 7), (1, 8), (5, 4), (8, 8), (1, u32::MAX), (u32::MAX, 1)] {
            assert_eq!(ask(3, 3, &F, 1, ends, 0), Err(6), "{ends:?}");
            assert_eq!(autocorrelation(3, 3, &F, 1, ends, 0), Err(6), "{ends:?}");
            assert_eq!(dynamic_distance(3, 3, &F, (1, 1), ends, 0), Err(6), "{ends:?}");
        }
        assert_eq!(ask(3, 3, &F, 4, (1, 7), 0), Err(6));
        assert_eq!(dynamic_distance(3, 3, &F, (1, 4), (1, 7), 0), Err(6));
        assert_eq!([ask(3, 3, &F, 1, (5, 7), 4), ask(3, 3, &F, 1, (1, 7), 6)], [Err(7), Err(7)]);
        assert_eq!(autocorrelation(3, 3, &F, 1, (5, 7), 3), Err(7));
        assert_eq!(ask(1, 32, &[0, u32::MAX], 1, (u32::MAX, u32::MAX), 5), Ok(None));
    }

    #[test]
    fn the_order_of_checks_of_a_sum() {
        let one = |n, m, rows: &[u32]| Summand { n, m, rows: rows.to_vec() };
        let (good, wider, bad) = (one(1, 2, &[0, 3]), one(1, 3, &[0, 4]), one(1, 2, &[0, 4]));
        let ask = |number, boxes: [&Summand; 4], i, ends, len| sum_nonlinearity(number, &boxes.map(Clone::clone), i, ends, len);
        assert_eq!(ask(5, [&bad; 4], 0, (0, 0), 0), Err(11));
        assert_eq!(ask(2, [&wider, &bad, &good, &good], 0, (0, 0), 0), Err(4));
        assert_eq!(ask(2, [&good, &wider, &bad, &bad], 0, (0, 0), 0), Err(12));
        assert_eq!(ask(2, [&good, &good, &bad, &bad], 3, (1, 3), 0), Err(6));
        assert_eq!(ask(2, [&good, &good, &bad, &bad], 2, (1, 4), 0), Err(6));
        assert_eq!(ask(2, [&good, &good, &bad, &bad], 2, (1, 3), 5), Err(7));
        assert_eq!(ask(2, [&good, &good, &bad, &bad], 1, (3, 3), 6), Ok(None));
        assert_eq!(ask(2, [&good, &good, &bad, &bad], 1, (2, 3), 6), Ok(Some(vec![0, 2, 1, 1, 0])));
    }

    #[test]
    fn which_reply_stays() {
        let found = |figure, c| Ok(Some(vec![figure, c, 9]));
        for better in [Better::Less, Better::Larger] {
            let merge = |one: &Answer<Part>, other: &Answer<Part>| merged(better, one, other);
            // Equal figures: 4 has fewer ones than 3, and 3 is smaller than 5.
            assert_eq!([merge(&found(7, 3), &found(7, 4)), merge(&found(7, 4), &found(7, 3))], [found(7, 4), found(7, 4)]);
            assert_eq!([merge(&found(7, 3), &found(7, 5)), merge(&found(7, 5), &found(7, 3))], [found(7, 3), found(7, 3)]);
            assert_eq!([merge(&Ok(None), &found(7, 3)), merge(&found(7, 3), &Ok(None))], [found(7, 3), found(7, 3)]);
            assert_eq!(merge(&Ok(None), &Ok(None)), Ok(None));
            assert_eq!([merge(&Err(6), &found(7, 3)), merge(&found(7, 3), &Err(6))], [Err(6), Err(6)]);
            assert_eq!([merge(&Err(6), &Ok(None)), merge(&Ok(None), &Err(6)), merge(&Err(6), &Err(7))], [Err(6), Err(6), Err(6)]);
        }
        assert_eq!(merged(Better::Less, &found(7, 1), &found(6, 7)), found(6, 7));
        assert_eq!(merged(Better::Larger, &found(7, 7), &found(6, 1)), found(7, 7));
    }

    fn in_parts(better: Better, parts: &[Ends], reply: impl Fn(Ends) -> Answer<Part>) -> Answer<Part> {
        gathered(better, parts.iter().map(|&ends| reply(ends)))
    }

    /// Merged over every cutting they are the plain call's reply, whatever the way of counting.
    #[test]
    fn parts_make_the_whole() {
        let mut random = Random::new(1);
        for round in 0..200 {
            let (n, m) = (random.between(1, 6), random.between(1, 8));
            let (i, j) = (random.between(1, m), random.between(1, n));
            let rows = boxes::of_kind(round, n, m, &mut random);
            let parts = cut(m, &mut random);
            let whole = model::nonlinearity(n, m, &rows, i, 4).map(|found| Some(found.to_vec()));
            assert_eq!(in_parts(Better::Less, &parts, |ends| nonlinearity(n, m, &rows, i, ends, 5)), whole, "{parts:?}");
            let whole = model::autocorrelation(n, m, &rows, i, 3).map(|found| Some(found.to_vec()));
            assert_eq!(in_parts(Better::Larger, &parts, |ends| autocorrelation(n, m, &rows, i, ends, 4)), whole, "{parts:?}");
            let whole = model::dynamic_distance(n, m, &rows, i, j, 3).map(|found| Some(found.to_vec()));
            assert_eq!(in_parts(Better::Larger, &parts, |ends| dynamic_distance(n, m, &rows, (i, j), ends, 4)), whole, "{parts:?}");
        }
    }

    #[test]
    fn parts_of_sums_make_the_whole() {
        let mut random = Random::new(2);
        for round in 0..60 {
            let (number, m) = (1 + round % MOST, random.between(1, 5));
            let i = random.between(1, m);
            let most = random.pick(&[2, 2, 8]);
            let mut one = || {
                let (n, kind) = (random.between(1, most), random.below(KINDS));
                Summand { n, m, rows: boxes::of_kind(kind, n, m, &mut random) }
            };
            let four: [Summand; MOST] = std::array::from_fn(|_| one());
            let parts = cut(m, &mut random);
            let whole = rounds::sum_nonlinearity(number as u32, &four, i, 3 + number).map(Some);
            let reply = |ends| sum_nonlinearity(number as u32, &four, i, ends, 4 + number);
            assert_eq!(in_parts(Better::Less, &parts, reply), whole, "{parts:?}");
        }
    }

    /// Each later way against the first, on parts that begin and end anywhere among 32 outputs.
    #[test]
    fn all_ways_agree() {
        let mut random = Random::new(3);
        for round in 0..60 {
            let (n, m) = (random.between(1, 8), random.pick(&[8, 17, 31, 32]));
            let rows = boxes::of_kind(round, n, m, &mut random);
            let first = random.between(1, all_outputs(m) - 40);
            let (i, j) = (random.between(1, m), random.between(1, n));
            let all = between(m, i, first, first + random.below(40));
            let wanted = model::nonlinearity_over(n, &rows, &all);
            assert_eq!([counted::nonlinearity_over(n, m, &rows, &all), fast::nonlinearity_over(n, &rows, &all)], [wanted; 2]);
            let wanted = model::autocorrelation_over(n, &rows, &all);
            assert_eq!([counted::autocorrelation_over(n, m, &rows, &all), fast::autocorrelation_over(n, &rows, &all)], [wanted; 2]);
            let wanted = model::dynamic_distance_over(n, &rows, &all, j);
            assert_eq!([counted::dynamic_distance_over(n, m, &rows, &all, j), fast::dynamic_distance_over(n, &rows, &all, j)], [wanted; 2]);
        }
    }
}
