//! What the example programs and the programs of the crates `published` and `spectra` print, from
//! the model: their texts are stored, and are made here a second time.
use crate::additions::Addition;
use crate::between::{self, Better, Part};
use crate::catalogue;
use crate::design::{Design, Operation};
use crate::model::{self, Answer};
use crate::packing;
use crate::published::{self, Published, EXAMPLE};
use crate::rounds::{self, Summand};
use crate::server::Server;
use crate::sheet;
use crate::swaps;

/// A word, and numbers behind it.
fn line(word: &str, numbers: &[u32]) -> String {
    let numbers: String = numbers.iter().map(|number| format!(" {number}")).collect();
    format!("{word}{numbers}\n")
}

/// The sentences of the header's `satmegwo_refusal_text`, that for 0 first: literals with no comma between
/// them are one.
pub fn refusal_texts() -> Vec<String> {
    let header = include_str!("../../include/satmegwo.h");
    let block = header.split_once("texts[] = {").and_then(|(_, behind)| behind.split_once("};")).expect("it is there").0;
    let (mut texts, mut pieces) = (Vec::<String>::new(), block.split('"'));
    while let (Some(outside), Some(text)) = (pieces.next(), pieces.next()) {
        match texts.last_mut() {
            Some(last) if !outside.contains(',') => last.push_str(text),
            _ => texts.push(text.to_string()),
        }
    }
    texts
}

/// A refusal as the programs print it.
fn refused(number: u32) -> String {
    format!("refused {number}: {}\n", refusal_texts()[number as usize])
}

/// examples/refusals.c.
pub fn refusals() -> String {
    let mut texts: Vec<(u32, String)> = (0..).zip(refusal_texts()).collect();
    let behind = [20, u32::MAX].map(|number| (number, "no refusal has this number".to_string()));
    texts.extend(behind);
    texts.iter().map(|(number, text)| format!("{number} {text}\n")).collect()
}

/// The figures of a call that has no cause to refuse.
fn told<T>(answer: Answer<T>) -> T {
    answer.unwrap_or_else(|number| panic!("refused {number}"))
}

/// The published box of this name.
pub fn box_named(name: &str) -> Published {
    published::all().into_iter().find(|known| known.name == name).unwrap_or_else(|| panic!("{name} is no published box"))
}

/// Its box file.
pub fn file_named(name: &str) -> Vec<u8> {
    let Published { n, m, rows, .. } = box_named(name);
    model::file_of(n, m, &rows)
}

/// examples/example.c.
pub fn example() -> String {
    let nonlinearity = |i: u32| {
        let [d, c, w, b] = told(model::nonlinearity(3, 3, &EXAMPLE, i, 4));
        format!("nonlinearity {d} with at most {i} outputs: combination {c} against w = {w}, b = {b}\n")
    };
    let [count, a, beta] = told(model::largest_cell(3, 3, &EXAMPLE, 3));
    let [degree, weakest] = told(model::degree(3, 3, &EXAMPLE, 3, 2));
    let summand = |n: u32, rows: &[u32]| Summand { n, m: 3, rows: rows.to_vec() };
    let boxes = [summand(3, &EXAMPLE), summand(2, &[0, 5, 3, 6]), summand(0, &[]), summand(0, &[])];
    let sum = told(rounds::sum_nonlinearity(2, &boxes, 1, 5));
    let too_many = rounds::sum_nonlinearity(5, &boxes, 1, 8).expect_err("there are four at most");
    let refusal = model::nonlinearity(3, 2, &EXAMPLE, 2, 4).expect_err("a row is too large");
    [
        nonlinearity(3),
        nonlinearity(2),
        format!("largest XOR cell {count}: a = {a}, beta = {beta}\n"),
        format!("degree {degree}: combination {weakest}\n"),
        format!(
            "sum of two boxes {} with at most 1 output: combination {} against w = {} and {}, b = {}\n",
            sum[0], sum[1], sum[2], sum[3], sum[4]
        ),
        format!("sum of five boxes: {}", refused(too_many)),
        format!("with m = 2: {}", refused(refusal)),
    ]
    .concat()
}

/// examples/catalogue.c, with these boxes and the index of one of them.
pub fn catalogue(index: u32, names: &[&str]) -> String {
    let mut bytes = vec![0; catalogue::LONGEST];
    let mut text = String::new();
    for name in names {
        let ([added], after) = told(catalogue::add(&bytes, &file_named(name), 1));
        let [offset, length] = told(catalogue::fetch(&after, added, 2));
        text += &format!("record {added} at {offset}, {length} bytes: {name}.box\n");
        bytes = after;
    }
    let [offset, length] = told(catalogue::fetch(&bytes, index, 2));
    text + &sheet::sheet(&bytes[offset as usize..(offset + length) as usize])
}

/// examples/packing.c.
pub fn packing(name: &str) -> String {
    let Published { n, m, rows, .. } = box_named(name);
    let size = packing::bytes_of_a_column(n);
    let packed = told(packing::pack(n, m, &rows, m as usize * size));
    let hexadecimal = |column: &[u8]| column.iter().map(|byte| format!("{byte:02x}")).collect::<String>();
    (1..).zip(packed.chunks(size)).map(|(j, column)| format!("column {j} {}\n", hexadecimal(column))).collect()
}

/// examples/improve.c.
pub fn improve(name: &str) -> String {
    let Published { n, m, mut rows, .. } = box_named(name);
    let mut text = format!("nonlinearity {}\n", told(model::nonlinearity(n, m, &rows, m, 4))[0]);
    loop {
        let step = told(swaps::raising_swap(n, m, &rows, 4));
        if step == swaps::NONE {
            return text + "no swap raises it\n";
        }
        rows.swap(step[1] as usize, step[2] as usize);
        text += &format!("swap {} {}, nonlinearity {}\n", step[1], step[2], step[3]);
    }
}

/// examples/pairs.c.
pub fn pairs(i: u32, name: &str) -> String {
    let Published { n, m, rows, .. } = box_named(name);
    let [d, ..] = told(model::nonlinearity(n, m, &rows, i, 4));
    let pairs = told(model::nearest_pairs(n, m, &rows, i, usize::MAX, 1));
    let line = |pair: &u64| format!("combination {} against w = {}, b = {}\n", pair / 512, pair / 2 % 256, pair % 2);
    format!("nonlinearity {d}; pairs that reach it: {}\n", pairs.len()) + &pairs.iter().map(line).collect::<String>()
}

/// examples/parts.c.
pub fn parts(i: u32, name: &str) -> String {
    let Published { n, m, rows, .. } = box_named(name);
    let most = model::all_outputs(m);
    let ends = [0, 1, 2, 3].map(|k| (1 + k * (most / 4), if k == 3 { most } else { (k + 1) * (most / 4) }));
    let found = ends.map(|ends| between::nonlinearity(n, m, &rows, i, ends, 5));
    let said = |name: String, part: &Part| match part.as_deref() {
        Some([d, c, w, b]) => format!("{name}: nonlinearity {d}, combination {c} against w = {w}, b = {b}\n"),
        _ => format!("{name}: nothing\n"),
    };
    let each = ends.iter().zip(&found).map(|(ends, part)| said(format!("{} to {}", ends.0, ends.1), &told(part.clone())));
    let each: String = each.collect();
    let merged = told(between::gathered(Better::Less, [2, 0, 3, 1, 0].map(|k: usize| found[k].clone())));
    let wrong_ends = [(0, 1), (1, most + 1), (2, 1)].map(|ends| {
        let number = between::nonlinearity(n, m, &rows, 1, ends, 5).expect_err("it is no part");
        format!("{} to {}: {}", ends.0, ends.1, refused(number))
    });
    let both = |x: &[u32], y: &[u32]| between::merged_arrays(Better::Less, x, y, 5).expect_err("they are no two parts");
    let (lengths, flag) = (both(&[1, 0, 1, 0, 0], &[1, 0, 1, 0]), both(&[1, 0, 1, 0, 0], &[2, 0, 1, 0, 0]));
    each + &said("merged".to_string(), &merged)
        + "the plain call gives the same\n"
        + &wrong_ends.concat()
        + &format!("parts of 5 and of 4 elements: {}a part that begins with 2: {}", refused(lengths), refused(flag))
}

/// A tuning run as it is printed.
struct Tuning {
    design: Design,
    text: String,
}

impl Tuning {
    /// Makes a step, and says why where it is refused.
    fn take(&mut self, step: &str, operation: Operation) -> bool {
        let outcome = self.design.operate(operation);
        if let Err(number) = outcome {
            self.text += &format!("{step:<16} {}", refused(number));
        }
        outcome.is_ok()
    }

    /// The nonlinearity over all combinations, with the rows on the same line.
    fn look(&mut self, step: &str) -> u32 {
        let rows = self.design.rows().to_vec();
        let [d, c, w, b] = told(model::nonlinearity(self.design.n, self.design.m, &rows, self.design.m, 4));
        self.text += &line(&format!("{step:<16} nonlinearity {d} at ({c}, {w}, {b}):"), &rows);
        d
    }
}

/// examples/design.c.
pub fn design() -> String {
    let rows = [0, 1, 2, 3, 4, 5, 6, 7, 8, 9, 10, 11, 12, 13, 15, 14];
    let mut run = Tuning { design: Design::begin(4, 4, &rows).0, text: String::new() };
    run.take("return to 1", Operation::Return(1));
    run.take("mark 17", Operation::Mark(17));
    run.take("mark 2", Operation::Mark(2));
    run.take("mark 1", Operation::Mark(1));
    let mut best = run.look("begin");
    for (x, y) in [(0, 3), (5, 6), (1, 10), (2, 12), (7, 9), (4, 15), (0, 16)] {
        let step = format!("swap {x} and {y}");
        if !run.take(&step, Operation::Swap(x, y)) {
            continue;
        }
        let found = run.look(&step);
        if found > best {
            best = found;
            run.take("mark 1", Operation::Mark(1));
        } else if found < best {
            run.take("return to 1", Operation::Return(1));
        }
    }
    run.take("add to column 2", Operation::Add(2, 5, 1));
    run.look("add to column 2");
    run.take("return to 1", Operation::Return(1));
    run.look("return to 1");
    run.take("return to 2", Operation::Return(2));
    run.look("return to 2");
    run.text
}

/// An evaluation run as it is printed.
#[derive(Default)]
struct Evaluation {
    server: Server,
    text: String,
}

impl Evaluation {
    fn put(&mut self, place: u32, name: &str) {
        let Published { n, m, rows, .. } = box_named(name);
        self.text += &match self.server.put(place, n, m, &rows) {
            Ok(()) => format!("put {name}.box on place {place}: {n} by {m}\n"),
            Err(number) => format!("put {name}.box on place {place}: {}", refused(number)),
        };
    }

    fn ask(&mut self, place: u32) {
        self.text += &match self.server.ask(place) {
            Ok(Some([d, c, w, b])) => format!("place {place}: nonlinearity {d}, c {c}, w {w}, b {b}\n"),
            Ok(None) => format!("place {place}: unfinished\n"),
            Err(number) => format!("place {place}: {}", refused(number)),
        };
    }

    fn run(&mut self, budget: u32) {
        (0..budget).for_each(|_| self.server.step());
        self.text += &format!("{budget} steps, the last on place {}\n", self.server.last);
    }
}

/// examples/server.c, with these three boxes.
pub fn server(names: [&str; 3]) -> String {
    let mut run = Evaluation::default();
    run.put(1, names[0]);
    run.put(4, names[1]);
    run.run(14);
    run.ask(1);
    run.ask(4);
    run.put(1, names[2]);
    told(run.server.withdraw(1));
    run.ask(1);
    run.put(1, names[2]);
    run.run(8 * 15);
    run.ask(1);
    run.ask(4);
    run.text
}

/// examples/fields.c: the fields of a design whose mark 16 is set before a swap, and of a server with the
/// same box on place 8, six of its combinations examined.
pub fn fields() -> String {
    let (mut design, mut server) = (Design::begin(3, 3, &EXAMPLE).0, Server::default());
    told(design.operate(Operation::Mark(16)));
    told(design.operate(Operation::Swap(0, 7)));
    let taken = |k: u32| u32::from(design.kept(k).is_some());
    told(server.put(8, 3, 3, &EXAMPLE));
    (0..6).for_each(|_| server.step());
    let held = server.on(8).expect("it was put there");
    let [count, c, w, b] = held.least().expect("some were examined");
    [
        format!("design of {} inputs and {} outputs, marks 15 and 16: {} {}\n", design.n, design.m, taken(15), taken(16)),
        line("rows", design.rows()),
        line("mark 16", design.kept(16).expect("it was set")),
        format!("server, last served {}; place 7 taken {}\n", server.last, u32::from(server.on(7).is_some())),
        format!(
            "place 8 taken 1, {} inputs, {} outputs, {} examined, count {count}, c {c}, w {w}, b {b}\n",
            held.n,
            held.m,
            held.examined()
        ),
        line("rows", &held.rows),
    ]
    .concat()
}

/// The boxes that the program of the crate `published` reads: all whose combinations can be run.
pub fn published_input() -> Vec<u8> {
    let boxes = published::all().into_iter().filter(|known| known.m <= 16);
    boxes.flat_map(|known| model::file_of(known.n, known.m, &known.rows)).collect()
}

/// What it prints of them: figures over all combinations, and the nonlinearity after additions.
pub fn published_output() -> String {
    published::all().iter().filter(|known| known.m <= 16).map(published_lines).collect()
}

fn published_lines(known: &Published) -> String {
    let (n, m, rows) = (known.n, known.m, &known.rows[..]);
    let pair = |rows: &[u32]| line("nonlinearity", &told(model::nonlinearity(n, m, rows, m, 4)));
    // Input 1 and the constant 1 to column 1; then inputs 1 and 3 to column m; then to a column
    // that there is not, which leaves what stands.
    let addition = |column, mask, constant| Addition { column, mask, constant, lent: 1 << n };
    let first = told(addition(1, 1, 1).made(n, m, rows));
    let second = told(addition(m, 5, 0).made(n, m, &first));
    let refusal = addition(m + 1, 0, 0).made(n, m, &second).expect_err("no box has this column");
    [
        line("box", &[n, m]),
        pair(rows),
        line("xor", &told(model::largest_cell(n, m, rows, 3))),
        line("autocorrelation", &told(model::autocorrelation(n, m, rows, m, 3))),
        line("sac", &told(model::dynamic_distance(n, m, rows, 1, 1, 3))),
        line("bic", &told(model::dynamic_distance(n, m, rows, 2, 1, 3))),
        line("degree", &told(model::degree(n, m, rows, m, 2))),
        line("complete", &told(model::complete(n, m, rows, 1))),
        line("bijective", &told(model::bijective(n, m, rows, 1))),
        pair(&first),
        pair(&second),
        line("refused", &[refusal]),
        pair(&second),
    ]
    .concat()
}

/// What the program of the crate `spectra` prints for lines of digits.
pub fn spectra_output(input: &str) -> String {
    let given: [(u32, &[i32]); 8] = [
        (2, &[1, 1, 1, -1]),
        (2, &[1, 1, 1, 1]),
        (1, &[0, 0]),
        (1, &[i32::MAX, i32::MIN]),
        (2, &[3, 1, 1, -1]),
        (2, &[2, 2, 2, -2]),
        (0, &[1]),
        (2, &[1, 1]),
    ];
    let of_lines: String = input.lines().map(spectrum_lines).collect();
    of_lines + &given.map(|(n, values)| function_line(n, values)).concat()
}

/// A table is as wide as its length allows, up to eight inputs.
fn spectrum_lines(digits: &str) -> String {
    let table: Vec<u8> = digits.bytes().map(|byte| byte.checked_sub(b'0').unwrap_or(u8::MAX)).collect();
    let n = table.len().checked_ilog2().unwrap_or(0).min(8);
    match model::spectrum(n, &table, table.len().min(256)) {
        Ok(values) => {
            let text: String = values.iter().map(|value| format!(" {value}")).collect();
            format!("spectrum{text}\n{}", function_line(n, &values))
        }
        Err(number) => line("refused", &[number]),
    }
}

fn function_line(n: u32, values: &[i32]) -> String {
    match model::inverse_spectrum(n, values, values.len()) {
        Ok(table) => format!("function {}\n", table.iter().map(u8::to_string).collect::<String>()),
        Err(number) => line("refused", &[number]),
    }
}

#[cfg(test)]
mod tests {
    use super::*;

    #[test]
    fn the_header_has_a_text_for_each_number() {
        let texts = refusal_texts();
        assert_eq!((texts.len(), &texts[0][..]), (20, "accepted"));
        assert_eq!(texts[4], "a row is not below 2^m, or a truth value is above 1");
        assert!(texts[1].starts_with("n is not 1 to 8") && texts[1].ends_with("2, 4, 6 or 8)"));
    }

    /// Document 01's cases 3 to 5, in the values of document 02, section 9.
    #[test]
    fn a_small_spectrum_is_printed() {
        let text = spectra_output("0001\n3\n");
        let lines: Vec<&str> = text.lines().collect();
        assert_eq!(lines[..6], ["spectrum 1 1 1 -1", "function 0001", "refused 1", "function 0001", "refused 8", "refused 8"]);
    }

    /// The example of document 01, with the lines of document 02, sections 1 and 6.
    #[test]
    fn the_first_lines_of_the_published_boxes() {
        let text = published_output();
        let lines: Vec<&str> = text.lines().take(9).collect();
        assert_eq!(lines[..4], ["box 3 3", "nonlinearity 0 7 7 0", "xor 4 3 3", "autocorrelation 8 1 3"]);
        assert_eq!(lines[4..], ["sac 0 1 1", "bic 0 1 1", "degree 1 7", "complete 1", "bijective 1"]);
        assert_eq!(text.lines().count(), 23 * 13);
        assert_eq!(published_input().len(), 4334);
    }
}
