//! The parts of a run: which there are, and how they are run, side by side, each with a generator
//! of its own, so that one that fails can be repeated alone.
use crate::calls::{Run, Tally};
use crate::{catalogue, compare, design, limits, pages, server, sheets};
use std::panic::{catch_unwind, AssertUnwindSafe};
use std::sync::atomic::{AtomicUsize, Ordering};
use std::sync::Mutex;
use std::time::Instant;

/// What a part does in one round.
pub type Work = &'static (dyn Fn(&mut Run) + Sync);

/// Parts that belong together, by the program that they are part of.
pub struct Area {
    pub name: &'static str,
    pub parts: &'static [(&'static str, Work)],
}

/// The longest parts come first, so that no thread is left alone with one of them at the end.
const AREAS: [Area; 7] = [
    Area { name: "limits", parts: limits::PARTS },
    Area { name: "turns", parts: limits::TURNS },
    Area { name: "compare", parts: compare::PARTS },
    Area { name: "catalogue", parts: catalogue::PARTS },
    Area { name: "designs", parts: design::PARTS },
    Area { name: "server", parts: server::PARTS },
    Area { name: "sheets", parts: sheets::PARTS },
];

/// One part, by its full name.
struct Part {
    name: String,
    work: Work,
}

fn all() -> Vec<Part> {
    let full = |area: &Area| {
        let name = area.name;
        area.parts.iter().map(move |&(part, work)| Part { name: format!("{name}: {part}"), work })
    };
    AREAS.iter().flat_map(full).collect()
}

/// The parts of which one of these words is the area or the full name; "all" are all of them.
fn chosen(words: &[&str]) -> Result<Vec<Part>, String> {
    let is = |part: &Part, word: &str| word == "all" || part.name == word || part.name.split(':').next() == Some(word);
    if let Some(word) = words.iter().find(|word| !all().iter().any(|part| is(part, word))) {
        let names: Vec<String> = all().into_iter().map(|part| part.name).collect();
        return Err(format!("there is no part '{word}'; the parts are\n  {}", names.join("\n  ")));
    }
    Ok(all().into_iter().filter(|part| words.iter().any(|word| is(part, word))).collect())
}

/// Runs these parts, each `count` times. True if there were no differences.
pub fn run(words: &[&str], seed: u64, count: u64) -> Result<bool, String> {
    let parts = chosen(words)?;
    println!("seed {seed}, count {count}; a part is repeated by: second 'NAME' {seed} {count}");
    let start = Instant::now();
    let whole = run_side_by_side(&parts, seed, count);
    print_calls(&whole);
    print_summary(&whole, seed, start.elapsed().as_secs_f64());
    Ok(whole.differences == 0)
}

/// As many threads as the machine has processors, and no fewer than two, take one part after the
/// other: so calls of the library meet, which must not disturb each other.
fn run_side_by_side(parts: &[Part], seed: u64, count: u64) -> Tally {
    let next = AtomicUsize::new(0);
    let whole = Mutex::new(Tally::default());
    let threads = std::thread::available_parallelism().map_or(2, usize::from).max(2);
    std::thread::scope(|scope| {
        for _ in 0..threads {
            scope.spawn(|| {
                while let Some(part) = parts.get(next.fetch_add(1, Ordering::Relaxed)) {
                    let tally = run_one(part, seed, count);
                    whole.lock().expect("no thread has failed").add(&tally);
                }
            });
        }
    });
    whole.into_inner().expect("no thread has failed")
}

fn run_one(part: &Part, seed: u64, count: u64) -> Tally {
    let start = pages::processor_time();
    let mut run = Run::new(&part.name, seed);
    // What a part cannot go on from is a difference, too, and the other parts go on.
    let whole = catch_unwind(AssertUnwindSafe(|| {
        for round in 0..count {
            run.round = round;
            (part.work)(&mut run);
        }
    }));
    if whole.is_err() {
        println!("difference in '{}': it was broken off", part.name);
        run.tally.differences += 1;
    }
    let Tally { differences, .. } = run.tally;
    let told = if differences == 0 { String::new() } else { format!(", {differences} DIFFERENCES") };
    let seconds = pages::processor_time() - start;
    println!("{}: {} comparisons{told}, {seconds:.1} s of processor time", part.name, run.tally.comparisons());
    run.tally
}

fn print_calls(whole: &Tally) {
    println!("{:<46} {:>9} {:>9}", "comparisons with the model, by call", "accepted", "refused");
    for (call, compared) in &whole.calls {
        println!("  {call:<44} {:>9} {:>9}", compared.accepted, compared.refused);
    }
    println!("comparisons of several calls, by law");
    for (law, number) in &whole.laws {
        println!("  {law:<44} {number:>9}");
    }
}

/// The last line says how many comparisons there were, all of which could have failed.
fn print_summary(whole: &Tally, seed: u64, seconds: f64) {
    let accepted: u64 = whole.calls.values().map(|one| one.accepted).sum();
    let refused: u64 = whole.calls.values().map(|one| one.refused).sum();
    let laws: u64 = whole.laws.values().sum();
    println!(
        "seed {seed}: {accepted} accepted calls, {refused} refused ones and {laws} laws compared in {seconds:.0} s, {} differences",
        whole.differences
    );
}

#[cfg(test)]
mod tests {
    use super::*;

    #[test]
    fn no_two_parts_have_one_name() {
        let mut names: Vec<String> = all().into_iter().map(|part| part.name).collect();
        names.sort();
        let number = names.len();
        names.dedup();
        assert_eq!(names.len(), number);
    }

    #[test]
    fn parts_are_chosen_by_area_or_by_name() {
        let number = |words: &[&str]| chosen(words).map(|parts| parts.len());
        assert_eq!(number(&["designs"]), Ok(design::PARTS.len()));
        assert_eq!(number(&["designs", "server"]), Ok(design::PARTS.len() + server::PARTS.len()));
        assert_eq!(number(&["designs: bounds"]), Ok(1));
        assert_eq!(number(&["all"]), Ok(all().len()));
        assert!(number(&["bounds"]).is_err() && number(&["designs", "nothing"]).is_err());
    }

    /// The same seed makes the same run of a part, and another seed another.
    #[test]
    fn a_part_is_repeated_by_its_seed() {
        let part = &chosen(&["designs: swaps alone"]).unwrap()[0];
        let calls = |seed| run_one(part, seed, 1).calls;
        assert_eq!(calls(3), calls(3));
        assert_ne!(calls(3), calls(4));
    }

    #[test]
    fn the_count_stretches_a_part_and_differences_are_added_up() {
        let part = |work| Part { name: "a: part".to_string(), work };
        let parts = [
            part(&|run: &mut Run| run.count(true, String::new)),
            part(&|run: &mut Run| run.count(false, String::new)),
            part(&|_: &mut Run| panic!("planted")),
        ];
        let tally = run_side_by_side(&parts, 1, 7);
        assert_eq!((tally.comparisons(), tally.differences), (14, 7 + 1));
    }
}
