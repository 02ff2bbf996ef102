//! The sum of one to four boxes, each fed by its own input bits (document 02, section 4): its
//! nonlinearity, from the definition and by the rule of products.
//!
//! An input of the sum is one input for each box: box 1 takes the lowest bits, box 2 the next
//! ones, and so on. The sum's row there is the XOR of the boxes' rows.
use crate::combinations::{how_many, within};
use crate::fast;
use crate::model::{check_box, check_parameter, check_written, parity, refuse_when, Answer};

/// The refusals' numbers.
pub const BOX_COUNT: u32 = 11;
pub const OUTPUT_WIDTHS: u32 = 12;

/// The most boxes that are added.
pub const MOST: usize = 4;

/// One box as it is handed over; nothing in it needs to be right.
#[derive(Clone, Debug)]
pub struct Summand {
    pub n: u32,
    pub m: u32,
    pub rows: Vec<u32>,
}

/// N: how many inputs the sum of boxes has.
pub fn all_inputs(boxes: &[Summand]) -> u32 {
    boxes.iter().map(|one| one.n).sum()
}

/// All rows of the sum, in the order of its 2^N inputs.
pub fn rows_of_sum(boxes: &[Summand]) -> Vec<u32> {
    let row_at = |x: u64| {
        let (mut rest, mut row) = (x, 0);
        for one in boxes {
            row ^= one.rows[(rest % (1 << one.n)) as usize];
            rest >>= one.n;
        }
        row
    };
    (0..1 << all_inputs(boxes)).map(row_at).collect()
}

/// All lists of one mask for each box, in ascending order of box 1's mask, then of box 2's, ..
fn lists_of_masks(boxes: &[Summand]) -> Vec<Vec<u32>> {
    let Some((first, others)) = boxes.split_first() else {
        return vec![Vec::new()];
    };
    let behind = lists_of_masks(others);
    let begun_with = |w: u32| behind.iter().map(move |list| [&[w], &list[..]].concat());
    (0..1 << first.n).flat_map(begun_with).collect()
}

/// The mask on the sum's inputs that has box 1's mask in the lowest bits, and so on.
fn put_together(boxes: &[Summand], masks: &[u32]) -> u64 {
    let (mut whole, mut below) = (0, 0);
    for (one, &w) in boxes.iter().zip(masks) {
        whole |= u64::from(w) << below;
        below += one.n;
    }
    whole
}

/// The figures of a sum as those of one box: figure, c, the masks put together, b. The masks have 32
/// bits at most, as the inputs have.
pub fn as_one_box(boxes: &[Summand], figures: &[u32]) -> [u32; 4] {
    let (masks, b) = (&figures[2..2 + boxes.len()], figures[2 + boxes.len()]);
    [figures[0], figures[1], put_together(boxes, masks) as u32, b]
}

/// At how many of all inputs combination c of the sum differs from the affine function (w, b).
fn count_of_differing(rows: &[u32], c: u32, w: u64, b: u32) -> u64 {
    let differs = |(x, &row): (usize, &u32)| u64::from(parity(row & c) ^ parity((w & x as u64) as u32) != b as u8);
    rows.iter().enumerate().map(differs).sum()
}

/// The least count over all inputs with its first witness: figure, c, one mask for each box, b.
pub fn by_definition(boxes: &[Summand], i: u32) -> Vec<u32> {
    by_definition_over(boxes, &within(boxes[0].m, i)).expect("c = 1 always exists")
}

/// The same over these combinations, and nothing where there are none.
pub fn by_definition_over(boxes: &[Summand], combinations: &[u32]) -> Option<Vec<u32>> {
    let rows = rows_of_sum(boxes);
    let lists = lists_of_masks(boxes);
    let (mut least, mut witness) = (u64::MAX, Vec::new());
    for &c in combinations {
        for masks in &lists {
            for b in 0..2 {
                let differing = count_of_differing(&rows, c, put_together(boxes, masks), b);
                if differing < least {
                    (least, witness) = (differing, [&[c], &masks[..], &[b]].concat());
                }
            }
        }
    }
    (!combinations.is_empty()).then(|| [&[least as u32], &witness[..]].concat())
}

/// The words of 64 inputs at which w·x is 1, w and x below 64.
fn short_lines() -> [u64; 64] {
    std::array::from_fn(|w| (0..64u32).filter(|&x| parity(w as u32 & x) == 1).fold(0, |word, x| word | 1 << x))
}

/// Combination c of the sum, 64 inputs to a word; the sum has 64 inputs or more.
fn packed_combination(rows: &[u32], c: u32) -> Vec<u64> {
    let word = |rows: &[u32]| rows.iter().rev().fold(0, |word, &row| word << 1 | u64::from(parity(row & c)));
    rows.chunks(64).map(word).collect()
}

/// At how many inputs a packed function differs from w·x: in every word from the line of w's lowest
/// six bits, or from its opposite where the higher bits of w and of the input have an odd AND.
fn count_of_differing_words(f: &[u64], lines: &[u64; 64], w: u64) -> u64 {
    let (line, higher) = (lines[w as usize % 64], (w / 64) as u32);
    let differing = |(k, word): (usize, &u64)| {
        let ones = (word ^ line).count_ones();
        u64::from(if parity(higher & k as u32) == 0 { ones } else { 64 - ones })
    };
    f.iter().enumerate().map(differing).sum()
}

/// As `by_definition`, by packed words, for sums of six inputs or more.
pub fn by_counting(boxes: &[Summand], i: u32) -> Vec<u32> {
    by_counting_over(boxes, &within(boxes[0].m, i)).expect("c = 1 always exists")
}

/// The same over these combinations.
pub fn by_counting_over(boxes: &[Summand], combinations: &[u32]) -> Option<Vec<u32>> {
    let (rows, lists, lines) = (rows_of_sum(boxes), lists_of_masks(boxes), short_lines());
    let (mut least, mut witness) = (u64::MAX, Vec::new());
    for &c in combinations {
        let f = packed_combination(&rows, c);
        for masks in &lists {
            let differing = count_of_differing_words(&f, &lines, put_together(boxes, masks));
            // With b = 1 they differ at all the other inputs.
            let nearest = differing.min(rows.len() as u64 - differing);
            if nearest < least {
                (least, witness) = (nearest, [&[c], &masks[..], &[u32::from(nearest < differing)]].concat());
            }
        }
    }
    (!combinations.is_empty()).then(|| [&[least as u32], &witness[..]].concat())
}

/// The first place of the largest |W(w)| of one box's combination, this magnitude, and whether
/// the value there is below 0.
fn top(one: &Summand, c: u32) -> (u32, u64, bool) {
    let values = fast::walsh_values(&one.rows, c);
    let largest = values.iter().map(|value| value.unsigned_abs()).max().expect("there are values");
    let place = values.iter().position(|value| value.unsigned_abs() == largest).expect("it was reached");
    (place as u32, u64::from(largest), values[place] < 0)
}

/// 2^(N-1) less half the largest product of the boxes' largest magnitudes. The first
/// combination with that product, each box's first place, and b = 1 where the product of the
/// values there is below 0.
pub fn by_products(boxes: &[Summand], i: u32) -> Vec<u32> {
    by_products_over(boxes, &within(boxes[0].m, i)).expect("c = 1 always exists")
}

/// The same over these combinations.
pub fn by_products_over(boxes: &[Summand], combinations: &[u32]) -> Option<Vec<u32>> {
    let mut best = (0, Vec::new());
    for &c in combinations {
        let tops: Vec<(u32, u64, bool)> = boxes.iter().map(|one| top(one, c)).collect();
        let product = tops.iter().map(|top| top.1).product();
        if product > best.0 {
            let masks: Vec<u32> = tops.iter().map(|top| top.0).collect();
            let below_0 = tops.iter().filter(|top| top.2).count() as u32;
            best = (product, [&[c], &masks[..], &[below_0 % 2]].concat());
        }
    }
    let figure = ((1u64 << all_inputs(boxes)) - best.0) / 2;
    (!combinations.is_empty()).then(|| [&[figure as u32], &best.1[..]].concat())
}

/// The call. Figures: the figure, c, one mask for each box that is read, b.
pub fn sum_nonlinearity(number: u32, boxes: &[Summand; MOST], i: u32, figures_len: usize) -> Answer<Vec<u32>> {
    let read = check_boxes(number, boxes)?;
    let m = read[0].m;
    check_parameter(i, 1, m)?;
    check_written(figures_len, 3 + read.len())?;
    Ok(match way(all_inputs(read), m, i) {
        Way::ByDefinition => by_definition(read, i),
        Way::ByCounting => by_counting(read, i),
        Way::ByProducts => by_products(read, i),
    })
}

/// The boxes that are read, where nothing about them is refused.
pub fn check_boxes(number: u32, boxes: &[Summand; MOST]) -> Answer<&[Summand]> {
    refuse_when(number < 1 || number > MOST as u32, BOX_COUNT)?;
    let read = &boxes[..number as usize];
    for one in read {
        check_box(one.n, one.m, &one.rows)?;
    }
    refuse_when(read.iter().any(|one| one.m != read[0].m), OUTPUT_WIDTHS)?;
    Ok(read)
}

/// How the figure is reached: the first way that takes no long time. Nobody can count over all
/// inputs of a wide sum; the unit tests hold each later way to the first.
#[derive(Clone, Copy, Debug, PartialEq)]
pub enum Way {
    ByDefinition,
    ByCounting,
    ByProducts,
}

pub fn way(inputs: u32, m: u32, i: u32) -> Way {
    way_over(inputs, how_many(m, i))
}

/// The same where so many combinations are looked at.
pub fn way_over(inputs: u32, combinations: u64) -> Way {
    // Every combination is held against every mask, at every input.
    let values = u128::from(combinations) << (2 * inputs);
    if values <= 1 << 20 {
        Way::ByDefinition
    } else if inputs >= 6 && values <= 1 << 32 {
        Way::ByCounting
    } else {
        Way::ByProducts
    }
}

#[cfg(test)]
mod tests {
    use super::*;
    use crate::boxes::{of_kind, random_rows, KINDS};
    use crate::model::nonlinearity_by_definition;
    use crate::random::Random;

    fn summand(n: u32, m: u32, rows: &[u32]) -> Summand {
        Summand { n, m, rows: rows.to_vec() }
    }

    fn nothing() -> Summand {
        summand(0, 0, &[])
    }

    fn call(boxes: &[Summand], i: u32) -> Answer<Vec<u32>> {
        let mut four = [nothing(), nothing(), nothing(), nothing()];
        four[..boxes.len()].clone_from_slice(boxes);
        sum_nonlinearity(boxes.len() as u32, &four, i, 3 + boxes.len())
    }

    fn random_summands(random: &mut Random, number: usize, most_inputs: u32, m: u32) -> Vec<Summand> {
        let one = |random: &mut Random| {
            let (kind, n) = (random.below(KINDS), random.between(1, most_inputs));
            Summand { n, m, rows: of_kind(kind, n, m, random) }
        };
        (0..number).map(|_| one(random)).collect()
    }

    #[test]
    fn box_1_takes_the_lowest_bits() {
        let boxes = [summand(1, 3, &[0, 1]), summand(2, 3, &[0, 2, 4, 6])];
        assert_eq!(rows_of_sum(&boxes), [0, 1, 2, 3, 4, 5, 6, 7]);
        assert_eq!(put_together(&boxes, &[1, 2]), 5);
        let lists = lists_of_masks(&boxes);
        assert_eq!((lists.len(), &lists[1][..], &lists[4][..]), (8, &[0, 1][..], &[1, 0][..]));
    }

    /// x1·x2 XOR x3·x4 is bent: 6 of 16 at least.
    #[test]
    fn two_small_bent_functions() {
        let and = summand(2, 1, &[0, 0, 0, 1]);
        assert_eq!(call(&[and.clone(), and.clone()], 1), Ok(vec![6, 1, 0, 0, 0]));
        assert_eq!(call(&[and.clone(), and.clone(), and], 1), Ok(vec![28, 1, 0, 0, 0, 0]));
    }

    /// The masks stand in the order of the boxes, and one sign is left over.
    #[test]
    fn two_columns_that_are_affine() {
        let line = summand(1, 1, &[1, 0]);
        let and = summand(2, 1, &[0, 0, 0, 1]);
        assert_eq!(call(&[line.clone(), and.clone()], 1), Ok(vec![2, 1, 1, 0, 1]));
        assert_eq!(call(&[and, line.clone()], 1), Ok(vec![2, 1, 0, 1, 1]));
        assert_eq!(call(&[line.clone(), line], 1), Ok(vec![0, 1, 1, 1, 0]));
    }

    /// Small products and all four boxes, with signs: the rule of products is the definition.
    #[test]
    fn products_are_the_definition() {
        let mut random = Random::new(5);
        for round in 0..400 {
            let number = 1 + round % MOST;
            let m = random.between(1, 4);
            let i = random.between(1, m);
            let boxes = random_summands(&mut random, number, [6, 3, 2, 2][number - 1], m);
            assert_eq!(by_products(&boxes, i), by_definition(&boxes, i), "i = {i}, {boxes:?}");
        }
    }

    /// Twelve inputs, as four boxes of three, three of four and two of six.
    #[test]
    fn all_ways_agree_at_twelve_inputs() {
        let mut random = Random::new(6);
        for (number, n) in [(4, 3), (3, 4), (2, 6)] {
            let boxes: Vec<Summand> = (0..number).map(|_| Summand { n, m: 2, rows: random_rows(n, 2, &mut random) }).collect();
            let wanted = by_definition(&boxes, 1);
            assert_eq!(by_products(&boxes, 1), wanted, "{boxes:?}");
            assert_eq!(by_counting(&boxes, 1), wanted, "{boxes:?}");
        }
    }

    /// Figure and witness are those of the sum as one box, the masks put together: each box's first
    /// mask comes first in both orders.
    #[test]
    fn the_sum_has_the_nonlinearity_of_one_box() {
        let mut random = Random::new(7);
        for round in 0..200 {
            let m = random.between(1, 3);
            let i = random.between(1, m);
            let boxes = random_summands(&mut random, 1 + round % MOST, 2, m);
            let whole = nonlinearity_by_definition(all_inputs(&boxes), m, &rows_of_sum(&boxes), i);
            assert_eq!(as_one_box(&boxes, &by_products(&boxes, i)), whole, "i = {i}, {boxes:?}");
        }
    }

    #[test]
    fn one_box_has_its_own_nonlinearity() {
        let mut random = Random::new(8);
        for _ in 0..100 {
            let m = random.between(1, 5);
            let i = random.between(1, m);
            let boxes = random_summands(&mut random, 1, 6, m);
            let wanted = nonlinearity_by_definition(boxes[0].n, m, &boxes[0].rows, i);
            assert_eq!(call(&boxes, i), Ok(wanted.to_vec()));
        }
    }

    /// A product of 2^32, and a figure of 2^31 - 2^15.
    #[test]
    fn thirty_two_inputs() {
        let constant = summand(8, 32, &[0; 256]);
        let zero = [constant.clone(), constant.clone(), constant.clone(), constant];
        assert_eq!(call(&zero, 1), Ok(vec![0, 1, 0, 0, 0, 0, 0]));
        let bent: Vec<u32> = (0..256u32).map(|x| u32::from(parity(x & (x >> 4) & 15))).collect();
        let one = summand(8, 1, &bent);
        assert_eq!(call(&[one.clone(), one.clone(), one.clone(), one], 1), Ok(vec![(1 << 31) - (1 << 15), 1, 0, 0, 0, 0, 0]));
    }

    #[test]
    fn the_order_of_checks() {
        let good = summand(1, 2, &[0, 3]);
        let bad_row = summand(1, 2, &[0, 4]);
        let wider = summand(1, 3, &[0, 4]);
        let ask = |number, boxes: [&Summand; 4], i, len| sum_nonlinearity(number, &boxes.map(Clone::clone), i, len);
        let all_good = [&good; 4];
        assert_eq!(ask(0, [&bad_row; 4], 0, 0), Err(11));
        assert_eq!(ask(5, [&bad_row; 4], 0, 0), Err(11));
        assert_eq!(ask(2, [&bad_row, &wider, &good, &good], 0, 0), Err(4));
        assert_eq!(ask(2, [&wider, &bad_row, &good, &good], 0, 0), Err(4));
        assert_eq!(ask(2, [&good, &wider, &good, &good], 0, 0), Err(12));
        assert_eq!(ask(1, [&good, &wider, &bad_row, &good], 0, 0), Err(6));
        assert_eq!(ask(4, all_good, 3, 0), Err(6));
        assert_eq!(ask(4, all_good, 2, 6), Err(7));
        assert_eq!(ask(1, [&good, &bad_row, &bad_row, &bad_row], 2, 4), Ok(vec![0, 1, 1, 0]));
    }

    /// All four checks of box 1 come before the first one of box 2.
    #[test]
    fn the_checks_of_one_box_after_those_of_another() {
        let good = summand(1, 2, &[0, 3]);
        let faulty = [summand(9, 2, &[0, 3]), summand(1, 33, &[0, 3]), summand(1, 2, &[0]), summand(1, 2, &[0, 4])];
        for one in &faulty {
            for other in &faulty {
                let first = call(&[one.clone(), good.clone()], 1);
                assert_eq!(call(&[one.clone(), other.clone()], 1), first);
                assert_eq!(call(&[good.clone(), one.clone(), other.clone()], 0), first);
                assert_eq!(call(&[good.clone(), good.clone(), good.clone(), one.clone()], 0), first);
            }
        }
    }

    /// From six inputs to nine, every kind of box.
    #[test]
    fn counting_is_the_definition() {
        let mut random = Random::new(9);
        for round in 0..60 {
            let widths = [&[3, 3][..], &[6], &[2, 4, 1], &[2, 2, 2, 3], &[8], &[1, 5]][round % 6];
            let m = random.between(1, 3);
            let i = random.between(1, m);
            let kind = random.below(KINDS);
            let boxes: Vec<Summand> = widths.iter().map(|&n| Summand { n, m, rows: of_kind(kind, n, m, &mut random) }).collect();
            assert_eq!(by_counting(&boxes, i), by_definition(&boxes, i), "i = {i}, {boxes:?}");
        }
    }

    /// Beyond what is counted value by value.
    #[test]
    fn products_are_counted_up_to_sixteen_inputs() {
        let mut random = Random::new(10);
        for widths in [&[8, 5][..], &[4, 3, 7], &[5, 5, 5], &[8, 8], &[4, 4, 4, 4]] {
            let boxes: Vec<Summand> = widths.iter().map(|&n| Summand { n, m: 1, rows: random_rows(n, 1, &mut random) }).collect();
            assert_eq!(by_products(&boxes, 1), by_counting(&boxes, 1), "{boxes:?}");
        }
    }

    #[test]
    fn ways() {
        assert_eq!([way(8, 4, 4), way(10, 1, 1), way(11, 1, 1)], [Way::ByDefinition, Way::ByDefinition, Way::ByCounting]);
        assert_eq!([way(16, 1, 1), way(16, 2, 1), way(32, 1, 1)], [Way::ByCounting, Way::ByProducts, Way::ByProducts]);
        assert_eq!([way(1, 20, 20), way(3, 32, 32)], [Way::ByProducts, Way::ByProducts]);
    }
}
