//! What the headers say against what the crate `satmegwo` says: every function with its arguments, the
//! layout of every struct, the refusals with their sentences, and the bounds. (examples/fields.c has the
//! same layout.)
use satmegwo::raw::{Design, DesignOutcome, DesignSnapshot, Server, ServerOutcome, ServerPlace, MARKS, MOST_ROWS, PLACES};
use satmegwo::Refusal;
use second_model::{catalogue, printed, rounds};
use std::collections::BTreeMap;
use std::mem::{offset_of, size_of};

/// A function's result and its arguments, each as its type and its name, in Rust's words.
type Signature = (String, Vec<(String, String)>);

const HEADER: &str = include_str!("../../include/satmegwo.h");
const OTHERS: [&str; 3] = [
    include_str!("../../include/satmegwo_parts.h"),
    include_str!("../../include/satmegwo_design.h"),
    include_str!("../../include/satmegwo_server.h"),
];
const DECLARED: &str = include_str!("../../rust/src/raw.rs");

fn one_line(text: &str) -> String {
    text.split_whitespace().collect::<Vec<&str>>().join(" ")
}

/// Without its comments and without what is said to the preprocessor, and all on one line.
fn plain(text: &str) -> String {
    let mut rest = text;
    let mut kept = String::new();
    while let Some((before, behind)) = rest.split_once("/*") {
        kept += before;
        rest = behind.split_once("*/").expect("a comment ends").1;
    }
    kept += rest;
    one_line(&kept.lines().filter(|line| !line.starts_with('#')).collect::<Vec<&str>>().join("\n"))
}

/// A header without the functions that it defines itself: they are the caller's own.
fn declarations(text: &str) -> String {
    let text = plain(text);
    let mut parts = text.split("static inline ");
    let first = parts.next().expect("there is one").to_string();
    parts.fold(first, |kept, part| kept + behind_block(part))
}

/// What stands behind the first block in braces.
fn behind_block(text: &str) -> &str {
    let mut depth = 0;
    for (place, letter) in text.char_indices() {
        depth += i32::from(letter == '{') - i32::from(letter == '}');
        if letter == '}' && depth == 0 {
            return &text[place + 1..];
        }
    }
    panic!("no block ends in {text}")
}

fn rust_type(words: &[&str]) -> String {
    let name = |word: &str| {
        let known = [
            ("uint8_t", "u8"),
            ("uint16_t", "u16"),
            ("uint32_t", "u32"),
            ("uint64_t", "u64"),
            ("int32_t", "i32"),
            ("size_t", "usize"),
            ("satmegwo_design", "Design"),
            ("satmegwo_design_outcome", "DesignOutcome"),
            ("satmegwo_server", "Server"),
            ("satmegwo_server_outcome", "ServerOutcome"),
        ];
        known.iter().find(|(c, _)| *c == word).unwrap_or_else(|| panic!("{word} is no type that is known")).1.to_string()
    };
    match words {
        [word] => name(word),
        ["const", word, "*"] => format!("*const {}", name(word)),
        [word, "*"] => format!("*mut {}", name(word)),
        _ => panic!("{words:?} is no type that is known"),
    }
}

/// The functions of a header: what stands before a name, the name, and what stands in brackets.
fn of_header(text: &str) -> BTreeMap<String, Signature> {
    let text = declarations(text);
    let mut found = BTreeMap::new();
    for statement in text.split(';').filter(|statement| statement.contains('(')) {
        let (head, arguments) = statement.rsplit_once('(').expect("it was looked for");
        let words: Vec<&str> = head.split(|c: char| c.is_whitespace() || c == '{' || c == '}' || c == '"').collect();
        let (name, before) = words.split_last().expect("it has a name");
        if name.starts_with("satmegwo_") {
            found.insert(name.to_string(), (rust_type(&before[before.len() - 1..]), c_arguments(arguments)));
        }
    }
    found
}

fn c_arguments(text: &str) -> Vec<(String, String)> {
    let text = text.trim_end_matches(')').replace('*', "* ");
    let one = |argument: &str| {
        let words: Vec<&str> = argument.split_whitespace().collect();
        let (name, kind) = words.split_last().expect("an argument has a name");
        (rust_type(kind), name.to_string())
    };
    text.split(',').filter(|argument| argument.trim() != "void").map(one).collect()
}

/// The functions that the crate declares as the library's.
fn of_crate(text: &str) -> BTreeMap<String, Signature> {
    let mut found = BTreeMap::new();
    for block in text.split("extern \"C\" {").skip(1) {
        let block = block.split_once("\n}").expect("the block ends").0;
        for statement in block.split(';').filter(|statement| statement.contains("pub fn ")) {
            let statement = one_line(statement);
            let (name, rest) = statement.trim_start_matches("pub fn ").split_once('(').expect("it has arguments");
            let (arguments, result) = rest.rsplit_once(") -> ").expect("it has a result");
            let arguments = arguments.split(',').map(str::trim).filter(|argument| !argument.is_empty());
            let pairs = arguments.map(|argument| argument.split_once(": ").expect("an argument has a type"));
            found.insert(name.to_string(), (result.to_string(), pairs.map(|(name, kind)| (kind.to_string(), name.to_string())).collect()));
        }
    }
    found
}

fn of_headers() -> BTreeMap<String, Signature> {
    let mut found = of_header(HEADER);
    OTHERS.iter().for_each(|header| found.extend(of_header(header)));
    found
}

#[test]
fn every_function_is_declared_as_its_header_has_it() {
    let (wanted, declared) = (of_headers(), of_crate(DECLARED));
    assert_eq!(declared, wanted);
    assert_eq!(wanted.len(), 32 + 6 + 6 + 6);
}

/// Each is also made by two threads at once.
#[test]
fn every_function_meets_another_call() {
    let meetings = include_str!("meeting.rs");
    for name in of_headers().keys() {
        let short = name.trim_start_matches("satmegwo_");
        assert!(meetings.contains(&format!("meet(run, \"{short}\", ")), "{short} meets no other call");
    }
}

#[test]
fn another_type_or_order_is_noticed() {
    let all = |header: &str| {
        let mut found = of_headers();
        found.extend(of_header(header));
        found
    };
    assert_eq!(all(HEADER), of_crate(DECLARED));
    for (right, wrong) in [
        ("uint32_t n, uint32_t m", "uint32_t m, uint32_t n"),
        ("const uint8_t *table", "uint8_t *table"),
        ("size_t out_len", "uint32_t out_len"),
    ] {
        assert_ne!(all(&HEADER.replace(right, wrong)), of_crate(DECLARED), "{wrong}");
    }
}

#[test]
fn structs_lie_as_the_headers_have_them() {
    type Snapshot = DesignSnapshot;
    type Place = ServerPlace;
    assert_eq!((size_of::<Snapshot>(), offset_of!(Snapshot, taken), offset_of!(Snapshot, rows)), (1028, 0, 4));
    assert_eq!((size_of::<Design>(), offset_of!(Design, n), offset_of!(Design, m)), (17480, 0, 4));
    assert_eq!((offset_of!(Design, rows), offset_of!(Design, marks)), (8, 1032));
    assert_eq!((size_of::<DesignOutcome>(), offset_of!(DesignOutcome, design), offset_of!(DesignOutcome, status)), (17484, 0, 17480));
    assert_eq!((size_of::<Place>(), offset_of!(Place, taken), offset_of!(Place, n), offset_of!(Place, m)), (1056, 0, 4, 8));
    assert_eq!((offset_of!(Place, rows), offset_of!(Place, examined), offset_of!(Place, count)), (12, 1036, 1040));
    assert_eq!((offset_of!(Place, c), offset_of!(Place, w), offset_of!(Place, b)), (1044, 1048, 1052));
    assert_eq!((size_of::<Server>(), offset_of!(Server, places), offset_of!(Server, last)), (8452, 0, 8448));
    assert_eq!((size_of::<ServerOutcome>(), offset_of!(ServerOutcome, server), offset_of!(ServerOutcome, status)), (8456, 0, 8452));
}

/// The numbers of the header's enum, each with its name and its sentence.
fn refusals_of_header() -> Vec<(u32, String, String)> {
    let block = HEADER.split_once("enum satmegwo_refusal {").expect("it is there").1.split_once("};").expect("it ends").0;
    let texts = printed::refusal_texts();
    let one = |entry: &str| {
        let (name, number) = entry.trim().split_once(" = ").expect("it has a number");
        let number: u32 = number.parse().expect("it is a number");
        (number, name.to_string(), texts[number as usize].clone())
    };
    block.split(',').map(one).collect()
}

/// `InputWidth` is `SATMEGWO_REFUSED_INPUT_WIDTH`.
fn name_in_c(refusal: Refusal) -> String {
    let mut name = "SATMEGWO_REFUSED".to_string();
    for letter in format!("{refusal:?}").chars() {
        if letter.is_uppercase() {
            name.push('_');
        }
        name.extend(letter.to_uppercase());
    }
    name
}

#[test]
fn refusals_have_the_numbers_names_and_sentences_of_the_header() {
    let wanted: Vec<(u32, String, String)> =
        Refusal::ALL.iter().map(|refusal| (refusal.number(), name_in_c(*refusal), refusal.sentence().to_string())).collect();
    assert_eq!(refusals_of_header(), wanted);
    assert_eq!(printed::refusal_texts().len(), 1 + wanted.len());
}

/// The value of a macro that is a number.
fn bound(name: &str) -> usize {
    let start = format!("#define {name} ");
    let line = HEADER.lines().chain(OTHERS.iter().flat_map(|text| text.lines())).find_map(|line| line.strip_prefix(&start));
    let word = line.and_then(|line| line.split_whitespace().next()).unwrap_or_else(|| panic!("{name} is not there"));
    word.trim_end_matches('u').parse().expect("it is a number")
}

#[test]
fn bounds_are_those_of_the_model() {
    assert_eq!((bound("SATMEGWO_MOST_ROWS"), bound("SATMEGWO_FILE_BYTES")), (MOST_ROWS, 2 + 4 * MOST_ROWS));
    assert_eq!((bound("SATMEGWO_MOST_INPUTS"), bound("SATMEGWO_MOST_OUTPUTS")), (8, 32));
    assert_eq!((bound("SATMEGWO_MOST_COUNTS"), bound("SATMEGWO_MOST_CELLS")), (1 << 16, 255 * 128));
    assert_eq!((bound("SATMEGWO_PAIRS_OF_A_COMBINATION"), bound("SATMEGWO_PACKED_BYTES")), (256, 32 * 256 / 8));
    assert_eq!((bound("SATMEGWO_CATALOGUE_LEAST"), bound("SATMEGWO_CATALOGUE_MOST")), (catalogue::FIRST, 65_535));
    assert_eq!((bound("SATMEGWO_MOST_RECORDS"), bound("SATMEGWO_MOST_BOXES")), (catalogue::MOST_RECORDS, rounds::MOST));
    assert_eq!((bound("SATMEGWO_DESIGN_MARKS"), bound("SATMEGWO_SERVER_PLACES")), (MARKS, PLACES));
    let parts = ["MAJOR", "MINOR", "PATCH"].map(|part| bound(&format!("SATMEGWO_VERSION_{part}")));
    assert_eq!(bound("SATMEGWO_VERSION"), parts[0] * 10_000 + parts[1] * 100 + parts[2]);
    assert_eq!(satmegwo::version() as usize, bound("SATMEGWO_VERSION"));
}
