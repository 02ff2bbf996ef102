//! Sums of one to four boxes: every kind of box, every refusal and the order of the checks,
//! with nonsense in place of the boxes that are not read.
use crate::calls::{Run, NONLINEARITY};
use crate::lent::Kept;
use satmegwo::slices as library;
use second_model::boxes::{self, KINDS};
use second_model::combinations::quick_limit;
use second_model::model::all_outputs;
use second_model::random::Random;
use second_model::rounds::{self, Summand, MOST};

/// How many damaged argument sets there are.
const DAMAGED: u64 = 1000;

pub fn all(run: &mut Run) {
    small_sums(run);
    twelve_to_sixteen_inputs(run);
    wide_sums(run);
    largest_products(run);
    single_boxes(run);
    sums_as_one_box(run);
    numbers_of_boxes(run);
    faults_in_order(run);
    limits_and_lengths(run);
    for _ in 0..DAMAGED {
        damaged(run);
    }
}

/// The call made to the library and to the model, and compared.
fn compare(run: &mut Run, number: u32, four: &[Summand; MOST], i: u32, figures_len: usize) -> Option<Vec<u32>> {
    run.calling("sum_nonlinearity");
    let read = four.each_ref().map(|one| run.copy(&one.rows));
    let mut figures = run.lend(figures_len);
    let lent = std::array::from_fn(|k| (four[k].n, four[k].m, read[k].content()));
    let code = library::sum_nonlinearity(number, lent, i, figures.part());
    let wanted = rounds::sum_nonlinearity(number, four, i, figures_len);
    let kept = read.each_ref().map(|one| one as &dyn Kept);
    run.judge(code, &kept, &figures, &wanted, || format!("number = {number}, boxes = {four:?}, i = {i}, figures_len = {figures_len}"))
}

/// The boxes of a sum, with nonsense behind them up to four.
pub fn four_of(random: &mut Random, read: &[Summand]) -> [Summand; MOST] {
    let mut four: Vec<Summand> = read.to_vec();
    while four.len() < MOST {
        four.push(nonsense(random));
    }
    four.try_into().expect("four of them")
}

/// What nobody may look at: widths and lengths out of every range, and rows of any size.
fn nonsense(random: &mut Random) -> Summand {
    let widths = [0, 1, 2, 8, 9, 33, 256 + 3, 65536 + 3, u32::MAX];
    let (n, m) = (random.pick(&widths), random.pick(&widths));
    let length = random.below(20);
    Summand { n, m, rows: (0..length).map(|_| random.draw() as u32).collect() }
}

/// A sum with nothing to refuse.
pub fn ask(run: &mut Run, read: &[Summand], i: u32) {
    let four = four_of(&mut run.random, read);
    compare(run, read.len() as u32, &four, i, 3 + read.len());
}

fn of_kind(random: &mut Random, kind: u32, n: u32, m: u32) -> Summand {
    Summand { n, m, rows: boxes::of_kind(kind, n, m, random) }
}

pub fn random_sum(random: &mut Random, number: usize, most_inputs: u32, m: u32) -> Vec<Summand> {
    let one = |_| {
        let (kind, n) = (random.below(KINDS), random.between(1, most_inputs));
        of_kind(random, kind, n, m)
    };
    (0..number).map(one).collect()
}

/// Counted over all inputs by the model.
fn small_sums(run: &mut Run) {
    for round in 0..800 {
        let number = 1 + round % MOST;
        let m = run.random.between(1, 5);
        let i = run.random.between(1, m);
        let read = random_sum(&mut run.random, number, [7, 4, 3, 2][number - 1], m);
        ask(run, &read, i);
    }
}

/// As many inputs as can still be counted over: the model needs no products for these.
fn twelve_to_sixteen_inputs(run: &mut Run) {
    for widths in [&[6, 6][..], &[4, 4, 4], &[3, 3, 3, 3], &[8, 5], &[5, 5, 4], &[4, 4, 4, 3], &[8, 8]] {
        let inputs: u32 = widths.iter().sum();
        let m = (1..=3).rev().find(|&m| rounds::way(inputs, m, m) == rounds::Way::ByCounting).expect("one output is counted");
        let mut read = Vec::new();
        for &n in widths {
            let kind = run.random.below(KINDS);
            read.push(of_kind(&mut run.random, kind, n, m));
        }
        ask(run, &read, m);
    }
}

/// Up to 32 inputs and 32 outputs, by the rule of products.
fn wide_sums(run: &mut Run) {
    for round in 0..120 {
        let number = 1 + round % MOST;
        let m = run.random.between(1, 32);
        let i = run.random.between(1, quick_limit(8, m));
        let read = random_sum(&mut run.random, number, 8, m);
        ask(run, &read, i);
    }
    for (m, i) in [(16, 16), (32, 4)] {
        let read: Vec<Summand> = (0..4).map(|_| of_kind(&mut run.random, 0, 8, m)).collect();
        ask(run, &read, i);
    }
}

/// For each number of boxes, every number of inputs that they can have in all.
pub fn every_number_of_inputs(run: &mut Run) {
    for (number, inputs) in (1..=MOST).flat_map(|number| (number as u32..=8 * number as u32).map(move |inputs| (number, inputs))) {
        let m = run.random.between(1, 32);
        let i = run.random.between(1, quick_limit(8, m));
        let mut read = Vec::new();
        for n in widths_of(&mut run.random, number, inputs) {
            let kind = run.random.below(KINDS);
            read.push(of_kind(&mut run.random, kind, n, m));
        }
        ask(run, &read, i);
    }
}

/// So many widths from 1 to 8 with this sum.
fn widths_of(random: &mut Random, number: usize, sum: u32) -> Vec<u32> {
    let mut widths = vec![1; number];
    for _ in number as u32..sum {
        let narrow: Vec<usize> = (0..number).filter(|&k| widths[k] < 8).collect();
        widths[random.pick(&narrow)] += 1;
    }
    widths
}

/// Constant boxes have the product 2^N, up to 2^32; where all are bent it is the least there is.
fn largest_products(run: &mut Run) {
    for number in 1..=MOST {
        for kind in [1, 2, 3, 4] {
            let read: Vec<Summand> = (0..number).map(|_| of_kind(&mut run.random, kind, 8, 8)).collect();
            ask(run, &read, 8);
            ask(run, &read, 1);
        }
    }
}

/// One box alone has the figures of the nonlinearity call, and both accept it.
fn single_boxes(run: &mut Run) {
    for _ in 0..200 {
        let (kind, n, m) = (run.random.below(KINDS), run.random.between(1, 8), run.random.between(1, 32));
        let one = of_kind(&mut run.random, kind, n, m);
        let i = run.random.between(1, quick_limit(n, m));
        let four = four_of(&mut run.random, std::slice::from_ref(&one));
        let sum = compare(run, 1, &four, i, 4);
        let alone = run.limited_figures(&NONLINEARITY, n, m, &one.rows, i, 4);
        run.law("a sum of one box", sum.is_some() && sum == alone, || {
            format!("one box: the sum gives {sum:?}, the nonlinearity {alone:?} for n = {n}, m = {m}, i = {i}, rows = {:?}", one.rows)
        });
    }
}

/// A sum of at most eight inputs is a box too: the nonlinearity call gives its figure and its
/// witness, the masks put together.
fn sums_as_one_box(run: &mut Run) {
    for round in 0..400 {
        let number = 1 + round % MOST;
        let m = run.random.between(1, 6);
        let i = run.random.between(1, m);
        let read = random_sum(&mut run.random, number, [8, 4, 2, 2][number - 1], m);
        let four = four_of(&mut run.random, &read);
        let lent = four.each_ref().map(|one| (one.n, one.m, &one.rows[..]));
        let (mut sum, mut whole) = (vec![0; 3 + number], [0; 4]);
        let sum_code = library::sum_nonlinearity(number as u32, lent, i, &mut sum);
        let whole_code = library::nonlinearity(rounds::all_inputs(&read), m, &rounds::rows_of_sum(&read), i, &mut whole);
        run.count(sum_code == 0 && whole_code == 0 && rounds::as_one_box(&read, &sum) == whole, || {
            format!("as one box: the sum gives {sum_code} {sum:?}, the nonlinearity {whole_code} {whole:?} for i = {i}, boxes = {read:?}")
        });
    }
}

/// 11 comes first, whatever else is wrong; and each box up to the number is read.
fn numbers_of_boxes(run: &mut Run) {
    for number in [0, 1, 2, 3, 4, 5, 6, 256 + 1, 65536 + 2, (1 << 31) + 4, u32::MAX] {
        for m in [1, 3] {
            let read = random_sum(&mut run.random, 4, 3, m);
            let four = four_of(&mut run.random, &read);
            let bad: [Summand; MOST] = std::array::from_fn(|_| nonsense(&mut run.random));
            for figures_len in [0, 3 + number.min(9) as usize, 7] {
                compare(run, number, &four, 1, figures_len);
                compare(run, number, &bad, 0, figures_len);
            }
        }
    }
}

/// Boxes with one fault each: the refusals 1 to 4, from both sides.
fn faulty_boxes(random: &mut Random) -> Vec<Summand> {
    let good = of_kind(random, 0, 2, 3);
    let mut with_a_large_row = good.clone();
    with_a_large_row.rows[random.below(4) as usize] = 8;
    let width = |n, m| Summand { n, m, rows: good.rows.clone() };
    let length = |length: usize| Summand { n: 2, m: 3, rows: vec![0; length] };
    vec![width(0, 3), width(9, 3), width(2, 0), width(2, 33), length(3), length(5), length(0), with_a_large_row]
}

/// A fault in one box, and a second one further on in the order of the checks, which must not
/// be told: in a later box, in the output widths, in the limit, in the array for the figures.
fn faults_in_order(run: &mut Run) {
    let good = of_kind(&mut run.random, 0, 2, 3);
    let wider = of_kind(&mut run.random, 0, 2, 4);
    let faulty = faulty_boxes(&mut run.random);
    for number in 1..=MOST {
        for place in 0..MOST {
            for fault in &faulty {
                let mut read = vec![good.clone(); MOST];
                read[place] = fault.clone();
                compare_with_later_faults(run, number as u32, &read, place, &wider);
                for later in place + 1..MOST {
                    let mut two = read.clone();
                    two[later] = faulty[run.random.below(faulty.len() as u32) as usize].clone();
                    compare_with_later_faults(run, number as u32, &two, place, &wider);
                }
            }
        }
        widths_that_differ(run, number as u32, &good, &wider);
    }
}

fn compare_with_later_faults(run: &mut Run, number: u32, read: &[Summand], place: usize, wider: &Summand) {
    let four = four_of(&mut run.random, read);
    let right = 3 + number as usize;
    compare(run, number, &four, 1, right);
    compare(run, number, &four, 0, right);
    compare(run, number, &four, 4, right + 1);
    // Another width before or behind the fault is told only where nothing is wrong with a box.
    let mut other = four.clone();
    other[(place + 1) % MOST] = wider.clone();
    compare(run, number, &other, 0, right);
}

fn widths_that_differ(run: &mut Run, number: u32, good: &Summand, wider: &Summand) {
    for pattern in 0..1u32 << MOST {
        let one = |place: usize| if pattern >> place & 1 == 0 { good.clone() } else { wider.clone() };
        let four: [Summand; MOST] = std::array::from_fn(one);
        for i in [0, 1, 3, 4, 5] {
            for figures_len in [3 + number as usize, 2, 8] {
                compare(run, number, &four, i, figures_len);
            }
        }
    }
}

/// The limit from both sides, and every length of the array for the figures.
fn limits_and_lengths(run: &mut Run) {
    for number in 1..=MOST {
        for m in [1, 2, 5, 31, 32] {
            let read = random_sum(&mut run.random, number, 3, m);
            let four = four_of(&mut run.random, &read);
            for i in [0, 1, 2, m - 1, m, m + 1, 256 + 1, 65536 + 1, (1 << 31) + m, u32::MAX] {
                if i > m || i <= quick_limit(3, m) {
                    compare(run, number as u32, &four, i, 3 + number);
                }
            }
            for figures_len in 0..10 {
                compare(run, number as u32, &four, 1, figures_len);
            }
        }
    }
}

/// Several faults at once, at random.
fn damaged(run: &mut Run) {
    let random = &mut run.random;
    let (number, m) = (random.between(1, 4), random.between(1, 4));
    let mut four: [Summand; MOST] = std::array::from_fn(|_| damaged_box(random, m));
    if random.one_in(3) {
        four[random.below(4) as usize] = nonsense(random);
    }
    let number = if random.one_in(8) { random.pick(&[0, 5, 256 + 4, u32::MAX]) } else { number };
    let i = if random.one_in(6) { random.pick(&[0, m + 1, m + 65536, u32::MAX]) } else { random.between(1, m) };
    let right = 3 + number.min(4) as usize;
    let figures_len = if random.one_in(6) { random.pick(&[0, right - 1, right + 1, 7, 4]) } else { right };
    compare(run, number, &four, i, figures_len);
}

/// A box that is sound eight times in ten.
fn damaged_box(random: &mut Random, m: u32) -> Summand {
    let (kind, n) = (random.below(KINDS), random.between(1, 3));
    let mut one = of_kind(random, kind, n, m);
    match random.below(50) {
        0 => one.n = random.pick(&[0, n + 1, 9, 256 + n, u32::MAX]),
        1 => one.m = random.pick(&[0, 33, 256 + m, u32::MAX]),
        2 => one.rows.push(0),
        3 => drop(one.rows.pop()),
        4 => one.rows[0] = all_outputs(m) + 1,
        5..=9 => one.m = m + 1,
        _ => {}
    }
    one
}

#[cfg(test)]
mod tests {
    use super::*;

    #[test]
    fn widths_have_their_sum() {
        let mut random = Random::new(1);
        for number in 1..=MOST {
            for sum in number as u32..=8 * number as u32 {
                let widths = widths_of(&mut random, number, sum);
                assert_eq!((widths.len(), widths.iter().sum::<u32>()), (number, sum));
                assert!(widths.iter().all(|n| (1..=8).contains(n)), "{widths:?}");
            }
        }
    }
}
