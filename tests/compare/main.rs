//! The second program beside the library. See the usage text below.
mod additions;
mod between;
mod bounds;
mod by_value;
mod calls;
mod catalogue;
mod compare;
mod damage;
mod design;
mod far;
mod files;
mod forged;
mod guarded;
#[cfg(test)]
mod headers;
mod lent;
mod limits;
mod maximal;
mod meeting;
mod nearest;
mod nowhere;
mod orders;
mod packing;
mod pages;
mod parts;
mod rounds;
mod server;
mod sheets;
mod swaps;
mod whole;
mod written;

use std::path::Path;
use std::process::ExitCode;
use std::sync::atomic::Ordering;

const USAGE: &str = "usage:
  second PART.. [SEED] [COUNT]
      compares, each part COUNT times (1 for either number if nothing is said); a PART is
        all         everything below
        compare     every call of the library against the model
        limits      the calls that take a limit, at every limit that takes no long time
        turns       two of these calls at limits above 16 outputs, at other widths by other seeds
        catalogue   the calls on a catalogue, in long histories
        designs     the calls on a design, in long histories
        server      the calls on the evaluation server, in long histories
        sheets      the program boxsheet, on stored files and on files made from SEED
      or a single part of these, as it is called in their output
  second --first PART.. [SEED] [COUNT]
      the same, and ends with the first difference
  second files DIR
      writes the published boxes, their sheets and what the example programs print to DIR
  second stored
      compares the same with what is stored in examples/ and crates/";

fn main() -> ExitCode {
    pages::tell_of_crashes();
    let arguments: Vec<String> = std::env::args().skip(1).collect();
    let words: Vec<&str> = arguments.iter().map(String::as_str).collect();
    let outcome = match words[..] {
        ["files", directory] => files::write(Path::new(directory)),
        ["stored"] => files::compare_stored(),
        ["--first", ref rest @ ..] => {
            calls::ENDS_WITH_THE_FIRST.store(true, Ordering::Relaxed);
            run(rest)
        }
        _ => run(&words),
    };
    match outcome {
        Ok(true) => ExitCode::SUCCESS,
        Ok(false) => ExitCode::from(1),
        Err(message) => {
            eprintln!("{message}");
            ExitCode::from(2)
        }
    }
}

/// Runs parts, with the optional seed and count at the end of the command line.
fn run(words: &[&str]) -> Result<bool, String> {
    let is_number = |word: &&str| word.bytes().all(|byte| byte.is_ascii_digit());
    let (parts, numbers) = words.split_at(words.iter().position(is_number).unwrap_or(words.len()));
    let number = |place: usize| match numbers.get(place) {
        Some(word) => word.parse().map_err(|_| format!("not a number: {word}\n{USAGE}")),
        None => Ok(1),
    };
    if parts.is_empty() || numbers.len() > 2 {
        return Err(USAGE.to_string());
    }
    parts::run(parts, number(0)?, number(1)?)
}
