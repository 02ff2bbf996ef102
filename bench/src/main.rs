//! Times of the library beside those of the second program and of plain C peers, on the same boxes.
//!
//!     bench [SEED] [--processes K] [--row PART] [--table] [--anchor FILE.c]
//!     bench [SEED] [--row PART] --short
//!
//! A row is one call on one kind of box: the figures of random boxes of a few sizes, with the sheet's
//! limit on combinations; figures of boxes that are chosen for them; sums of four boxes; packing, the
//! raising swap, the calls on a catalogue and the evaluation server. Some rows are held against another
//! call of the library too, as the sum against one nonlinearity.
//!
//! The programs of a row take turns, several rounds each, and the least time of all rounds is shown: what
//! disturbs a measurement only ever makes it longer. All of it is done in K processes, one after the other
//! (5 unless said otherwise), and each line shows the least of them: where the arrays of a process lie on
//! the stack may make it slower by a fifth from start to end. With --row only those rows are measured that
//! have PART in their size and name, as `8x16 degree`. With --table the lines are printed as the Markdown
//! of docs/PERFORMANCE.md. With --short there is one process and one round, and no time is shown, for the
//! gate. With --anchor the C program FILE.c, which measures the nonlinearity of an 8 by 16 box and prints
//! its time as `... T s`, is compiled with gcc -O3 and run too, and that row is held against it.
//!
//! No time is asserted; that all programs give the same figures and witnesses is, in every round.
mod anchor;
mod calls;
mod catalogues;
mod evaluations;
mod figures;
mod lists;
mod machine;
mod packing;
mod peers;
mod rows;
mod swaps;
mod table;

use rows::Rows;
use second_model::random::Random;
use std::process::{Command, ExitCode, Stdio};
use table::{Line, Own};

const USAGE: &str = "usage: bench [SEED] [--processes K] [--row PART] [--table] [--anchor FILE.c] | bench [SEED] [--row PART] --short";

/// What the command line asks for. `--measure` is how this program starts itself.
struct Wanted {
    seed: u64,
    processes: usize,
    short: bool,
    measure: bool,
    table: bool,
    row: Option<String>,
    anchor: Option<String>,
}

fn main() -> ExitCode {
    match arguments().and_then(|wanted| run(&wanted)) {
        Ok(()) => ExitCode::SUCCESS,
        Err(message) => {
            eprintln!("{message}");
            ExitCode::from(1)
        }
    }
}

fn arguments() -> Result<Wanted, String> {
    let mut wanted = Wanted { seed: 1, processes: 5, short: false, measure: false, table: false, row: None, anchor: None };
    let mut words = std::env::args().skip(1);
    while let Some(word) = words.next() {
        match word.as_str() {
            "--anchor" => wanted.anchor = Some(words.next().ok_or("--anchor needs a file")?),
            "--row" => wanted.row = Some(words.next().ok_or("--row needs a part of a row's name")?),
            "--processes" => wanted.processes = words.next().and_then(|k| k.parse().ok()).filter(|&k| k > 0).ok_or(USAGE)?,
            "--table" => wanted.table = true,
            "--short" => wanted.short = true,
            "--measure" => wanted.measure = true,
            _ => wanted.seed = word.parse().map_err(|_| format!("not a number: {word}\n{USAGE}"))?,
        }
    }
    Ok(wanted)
}

fn run(wanted: &Wanted) -> Result<(), String> {
    if wanted.measure || wanted.short {
        return measure(wanted.seed, &Rows::new(wanted.short, wanted.row.clone()));
    }
    let machine = machine::described(wanted.seed, wanted.processes);
    let mut lines = in_processes(wanted)?;
    if let Some(source) = &wanted.anchor {
        let line = lines.iter_mut().find(|line| line.size == "8x16" && line.name == "nonlinearity");
        let own = Own { name: "the C anchor".to_string(), time: anchor::time(source)? };
        line.ok_or("the anchor needs the row `8x16 nonlinearity`")?.own = Some(own);
    }
    if wanted.table {
        println!("## The table\n\n{machine}\n\n{}", table::markdown_head());
        lines.iter().for_each(|line| println!("{}", line.as_markdown()));
    } else {
        println!("{machine}\n\n{}", table::head());
        lines.iter().for_each(|line| println!("{}", line.shown()));
        show_sheets(&lines);
    }
    Ok(())
}

/// The widest sheet has a lower limit on combinations, and is to take no longer than the one before it.
fn show_sheets(lines: &[Line]) {
    let time = |size| lines.iter().find(|line| line.size == size && line.name == "whole sheet").map(|line| line.library);
    if let (Some(wide), Some(narrow)) = (time("8x32"), time("8x16")) {
        println!("whole 8 by 32 sheet against whole 8 by 16 sheet, both by the library: {:.2}", wide / narrow);
    }
}

/// The least times of each line over so many processes of this program.
fn in_processes(wanted: &Wanted) -> Result<Vec<Line>, String> {
    let here = std::env::current_exe().map_err(|error| error.to_string())?;
    let mut least: Vec<Line> = Vec::new();
    for _ in 0..wanted.processes {
        let mut command = Command::new(&here);
        command.args([&wanted.seed.to_string(), "--measure"]);
        command.args(wanted.row.iter().flat_map(|part| ["--row", part]));
        let output = command.stderr(Stdio::inherit()).output().map_err(|error| error.to_string())?;
        if !output.status.success() {
            return Err("a process that measures failed".to_string());
        }
        let lines: Vec<Line> = String::from_utf8_lossy(&output.stdout).lines().filter_map(Line::read).collect();
        if least.is_empty() {
            least = lines;
        } else {
            least.iter_mut().zip(&lines).for_each(|(best, line)| best.take_least(line));
        }
    }
    Ok(least)
}

fn measure(seed: u64, rows: &Rows) -> Result<(), String> {
    let mut random = Random::new(seed);
    peers::prepare();
    figures::measure(rows, &mut random)?;
    lists::measure(rows, &mut random)?;
    catalogues::measure(rows, &mut random)?;
    packing::measure(rows, &mut random)?;
    swaps::measure(rows, &mut random)?;
    evaluations::measure(rows, &mut random)?;
    if rows.measured.get() == 0 {
        return Err("no row has that in its size and name".to_string());
    }
    Ok(())
}
