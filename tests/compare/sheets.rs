//! `second sheets`: the program boxsheet against the model, byte for byte: what it prints, that it
//! prints nothing to standard error, and that it ends with the status 0.
use crate::calls::Run;
use crate::files::ROOT;
use crate::parts::Work;
use second_model::boxes::{self, KINDS};
use second_model::model::file_of;
use second_model::published;
use second_model::random::Random;
use second_model::sheet::{sheet, BYTES};
use std::fs;
use std::io::Write;
use std::os::unix::process::ExitStatusExt;
use std::path::{Path, PathBuf};
use std::process::{Child, Command, ExitStatus, Output, Stdio};
use std::time::{Duration, Instant};

pub const PARTS: &[(&str, Work)] = &[
    ("made files", &made_files),
    ("stored files", &stored_files),
    ("files in pieces", &files_in_pieces),
    ("outputs that fail", &outputs_that_fail),
];

/// How many files are made.
const MADE: u32 = 800;

/// At least so many boxes are stored: all that were published.
const STORED: usize = 32;

/// Where the program lies. The environment names another one where a wrong one is tried.
fn program() -> PathBuf {
    std::env::var_os("SATMEGWO_BOXSHEET").map_or_else(|| Path::new(ROOT).join("target/bin/boxsheet"), PathBuf::from)
}

fn made_files(run: &mut Run) {
    for number in 0..MADE {
        let file = made_file(number, &mut run.random);
        compare(run, &format!("file {number}"), &file, all_at_once);
    }
}

/// All examples/*.box in the order of their names.
fn box_files() -> Vec<PathBuf> {
    let directory = Path::new(ROOT).join("examples");
    let entries = fs::read_dir(&directory).unwrap_or_else(|error| panic!("{}: {error}", directory.display()));
    let mut paths: Vec<PathBuf> = entries.map(|entry| entry.expect("it can be read").path()).collect();
    paths.retain(|path| path.extension().is_some_and(|end| end == "box"));
    paths.sort();
    paths
}

/// A stored file is the published box of its name, and its sheet is stored beside it.
fn stored_files(run: &mut Run) {
    let (paths, published) = (box_files(), published::all());
    run.law("boxes that are stored", paths.len() >= STORED, || format!("only {} files are stored", paths.len()));
    for path in paths {
        let name = path.file_stem().expect("a file has a name").to_string_lossy().into_owned();
        let read = |path: &Path| fs::read(path).unwrap_or_else(|error| panic!("{}: {error}", path.display()));
        let (file, stored) = (read(&path), read(&path.with_extension("sheet")));
        let known = published.iter().find(|known| known.name == name);
        let same = known.is_some_and(|known| file_of(known.n, known.m, &known.rows) == file);
        run.law("stored boxes are the published ones", same, || format!("{name}.box is not what was published"));
        let printed = compare(run, &name, &file, all_at_once);
        run.law("stored sheets", printed.stdout == stored, || format!("{name}.sheet is\n{}", shown(&stored)));
    }
}

/// Files that come one byte after the other or in larger pieces, and one that is too long.
fn files_in_pieces(run: &mut Run) {
    for (n, length) in [(1, 1), (3, 1), (8, 1), (2, 2), (8, 3), (8, 500), (8, 1025)] {
        let m = run.random.between(1, 8);
        let file = sound_file(n, m, &mut run.random);
        compare(run, &format!("a file in pieces of {length}"), &file, |input, file| in_pieces(input, file, length));
    }
    let longer = [sound_file(8, 4, &mut run.random), vec![0; 70_000]].concat();
    compare(run, "a long file in pieces", &longer, |input, file| in_pieces(input, file, 1000));
}

type Input = std::process::ChildStdin;

/// The program may stop reading before the end of a file that it refuses; a write that fails for
/// this reason is no fault.
fn all_at_once(mut input: Input, file: &[u8]) {
    let _ = input.write_all(file);
}

/// With a pause behind each piece, so that the program has read it before the next one comes.
fn in_pieces(mut input: Input, file: &[u8], length: usize) {
    for piece in file.chunks(length) {
        if input.write_all(piece).is_err() {
            break;
        }
        std::thread::sleep(Duration::from_micros(200));
    }
}

/// What the program prints for a file that is handed over in some way, compared with the model; the
/// library's sheet of the same file is compared too.
fn compare(run: &mut Run, name: &str, file: &[u8], hand_over: impl FnOnce(Input, &[u8]) + Send) -> Output {
    let wanted = sheet(file);
    run.sheet_known(file, BYTES, 1, Ok(wanted.clone()));
    run.calling("boxsheet");
    let printed = output_of(file, hand_over);
    let same = printed.status.success() && printed.stderr.is_empty() && printed.stdout == wanted.as_bytes();
    run.compared(wanted.starts_with("refused"), same, || {
        let (start, status) = (&file[..file.len().min(600)], printed.status);
        let told = format!("prints\n{}and to standard error\n{}", shown(&printed.stdout), shown(&printed.stderr));
        format!("{name}, {} bytes, {start:?}:\nthe program ends with {status}, {told}the model says\n{wanted}", file.len())
    });
    printed
}

fn shown(text: &[u8]) -> String {
    String::from_utf8_lossy(text).into_owned()
}

fn output_of(file: &[u8], hand_over: impl FnOnce(Input, &[u8]) + Send) -> Output {
    let mut command = Command::new(program());
    let mut child = started(command.stdin(Stdio::piped()).stdout(Stdio::piped()).stderr(Stdio::piped()));
    let input = child.stdin.take().expect("it was asked for");
    std::thread::scope(|scope| {
        scope.spawn(move || hand_over(input, file));
        child.wait_with_output().expect("it runs")
    })
}

fn started(command: &mut Command) -> Child {
    command.spawn().unwrap_or_else(|error| panic!("{}: {error}", program().display()))
}

/// An output that is full, closed, or read by nobody, and an input that is closed: nothing can be
/// printed then, but the program must end, and by itself. (Only an output that nobody reads may
/// end it by the signal that there is for this.)
fn outputs_that_fail(run: &mut Run) {
    const BROKEN_PIPE: i32 = 13;
    for (n, m) in [(1, 1), (8, 8), (8, 32)] {
        let file = sound_file(n, m, &mut run.random);
        for redirection in [">/dev/full", ">&-", "<&-", ">&- 2>&- <&-"] {
            let status = status_of(Command::new("sh").args(["-c", &format!("exec \"$0\" {redirection}")]).arg(program()), &file, false);
            run.law("failing outputs", status.is_some_and(|status| status.signal().is_none()), || {
                format!("{n} by {m}, {redirection}: {status:?}")
            });
        }
        let status = status_of(&mut Command::new(program()), &file, true);
        let allowed = |status: ExitStatus| status.signal().is_none_or(|signal| signal == BROKEN_PIPE);
        run.law("failing outputs", status.is_some_and(allowed), || format!("{n} by {m}, nobody reads: {status:?}"));
    }
}

/// How a program ended within twenty seconds, if it did.
fn status_of(command: &mut Command, file: &[u8], unread: bool) -> Option<ExitStatus> {
    let mut child = started(command.stdin(Stdio::piped()).stdout(if unread { Stdio::piped() } else { Stdio::null() }));
    drop(child.stdout.take());
    all_at_once(child.stdin.take().expect("it was asked for"), file);
    let start = Instant::now();
    while start.elapsed() < Duration::from_secs(20) {
        if let Some(status) = child.try_wait().expect("it runs") {
            return Some(status);
        }
        std::thread::sleep(Duration::from_millis(1));
    }
    child.kill().expect("it runs");
    let _ = child.wait();
    None
}

/// The first 256 files are boxes of all widths, one of each; then sound and damaged files
/// follow by turns.
fn made_file(number: u32, random: &mut Random) -> Vec<u8> {
    if number < 256 {
        return sound_file(number / 32 + 1, number % 32 + 1, random);
    }
    match number % 12 {
        0 => small_file(1, random),
        1 => cut_file(random),
        2 => longer_file(random),
        3 => file_with_row_too_large(random),
        4 => file_with_width(0, &[0, 9, 10, 64, 128, 255], random),
        5 => file_with_width(1, &[0, 33, 34, 64, 128, 255], random),
        6 => file_with_other_width(random),
        7 => noise(random),
        8 => tiny_file(number, random),
        9 => file_of_two_byte_rows(random),
        _ => small_file(12, random),
    }
}

fn sound_file(n: u32, m: u32, random: &mut Random) -> Vec<u8> {
    let kind = random.below(KINDS);
    file_of(n, m, &boxes::of_kind(kind, n, m, random))
}

/// A box that takes no long time.
fn small_file(most_outputs: u32, random: &mut Random) -> Vec<u8> {
    let n = random.between(1, 8);
    let m = random.between(1, most_outputs.min(18 - n));
    sound_file(n, m, random)
}

fn cut_file(random: &mut Random) -> Vec<u8> {
    let mut file = small_file(12, random);
    let length = match random.below(4) {
        0 => random.below(file.len() as u32) as usize,
        1 => file.len() - 4,
        2 => file.len() - 2,
        _ => file.len() - 1,
    };
    file.truncate(length);
    file
}

/// A few bytes too long, or several megabytes.
fn longer_file(random: &mut Random) -> Vec<u8> {
    let mut file = small_file(12, random);
    let more = random.pick(&[1, 1, 2, 4, 510, 4096, 65536, 1 << 20, 5_000_000]);
    file.resize(file.len() + more, random.draw() as u8);
    file
}

/// With 32 outputs no row is too large, so there are at most 31.
fn file_with_row_too_large(random: &mut Random) -> Vec<u8> {
    let (n, m) = (random.between(1, 8), random.between(1, 31));
    let mut file = sound_file(n, m, random);
    let row: u32 = random.pick(&[1 << m, (1 << m) + 1, 1 << 31, u32::MAX]);
    let place = 2 + 4 * random.below(1 << n) as usize;
    file[place..place + 4].copy_from_slice(&row.to_le_bytes());
    file
}

/// The rows in the two bytes that they had before they became 32-bit numbers.
fn file_of_two_byte_rows(random: &mut Random) -> Vec<u8> {
    let (n, m) = (random.between(1, 8), random.between(1, 16));
    let rows = boxes::random_rows(n, m, random);
    let mut file = vec![n as u8, m as u8];
    file.extend(rows.iter().flat_map(|&row| (row as u16).to_le_bytes()));
    file
}

/// One of the two widths is out of range, and now and then the length is wrong too.
fn file_with_width(place: usize, widths: &[u8], random: &mut Random) -> Vec<u8> {
    let mut file = if random.one_in(3) { cut_file(random) } else { small_file(12, random) };
    file.resize(file.len().max(2), 0);
    file[place] = random.pick(widths);
    file
}

/// The widths are in range, but the rows were made for others.
fn file_with_other_width(random: &mut Random) -> Vec<u8> {
    let mut file = small_file(8, random);
    file[0] = random.between(1, 8) as u8;
    file[1] = random.between(1, 32) as u8;
    file
}

fn noise(random: &mut Random) -> Vec<u8> {
    let length = random.pick(&[2, 3, 10, 18, 34, 258, 514, 1026, 2000]);
    (0..length).map(|_| random.draw() as u8).collect()
}

/// No byte, one byte, or two.
fn tiny_file(number: u32, random: &mut Random) -> Vec<u8> {
    let length = number / 12 % 3;
    (0..length).map(|_| random.below(36) as u8).collect()
}
