//! The field's names are where they are looked for: in the first sentence of what the headers and this
//! crate say of a call, and in the table at the head of each.
use satmegwo::Refusal;
use std::fs;
use std::path::Path;

/// Calls of the header, each with a name that its first sentence must have.
const CALLS: [(&str, &str); 14] = [
    ("spectrum", "Walsh spectrum"),
    ("inverse_spectrum", "Walsh transform"),
    ("component_spectrum", "component function"),
    ("component_spectrum", "linear approximation table (LAT)"),
    ("nonlinearity", "S-box"),
    ("nearest_pairs", "linear approximations"),
    ("add_to_column", "coordinate function"),
    ("xor_row", "difference distribution table (DDT)"),
    ("largest_cell", "differential uniformity"),
    ("autocorrelation", "absolute indicator"),
    ("dynamic_distance", "(BIC)"),
    ("normal_form", "algebraic normal form"),
    ("degree", "least algebraic degree"),
    ("bijective", "permutation"),
];

/// Methods of `Sbox`, likewise.
const FUNCTIONS: [(&str, &str); 10] = [
    ("component_spectrum", "linear approximation table (LAT)"),
    ("nonlinearity", "linearity"),
    ("nearest_pairs", "linear approximations"),
    ("add_to_column", "coordinate function"),
    ("xor_row", "difference distribution table (DDT)"),
    ("largest_cell", "differential uniformity"),
    ("autocorrelation", "absolute indicator"),
    ("dynamic_distance", "BIC"),
    ("degree", "least algebraic degree (Sage's `min_degree`)"),
    ("is_bijective", "permutation"),
];

fn text(path: &str) -> String {
    fs::read_to_string(Path::new(env!("CARGO_MANIFEST_DIR")).join(path)).expect("it can be read")
}

/// The words of a comment up to its first full stop, without the marks at the beginning of its lines.
fn first_sentence(lines: &[&str]) -> String {
    let words: Vec<&str> = lines.iter().map(|line| line.trim().trim_start_matches(['/', '*', ' '])).collect();
    let all = words.join(" ") + " ";
    all.split_once(". ").expect("a sentence ends").0.to_string()
}

/// The first sentence of the C comment that ends above a prototype.
fn of_header(header: &str, call: &str) -> String {
    let before = header.split_once(&format!(" {call}(\n")).unwrap_or_else(|| panic!("no {call}")).0;
    let comment = before.rsplit_once("/* ").expect("a comment begins").1.split_once("*/").expect("it ends").0;
    first_sentence(&comment.lines().collect::<Vec<&str>>())
}

/// The first sentence of the documentation above a function.
fn of_source(source: &str, function: &str) -> String {
    let lines: Vec<&str> = source.lines().collect();
    let place = lines.iter().position(|line| line.contains(&format!("pub fn {function}("))).unwrap_or_else(|| panic!("no {function}"));
    let first = lines[..place].iter().rposition(|line| !line.trim_start().starts_with("///")).expect("something stands above");
    first_sentence(&lines[first + 1..place])
}

#[test]
fn first_sentences_have_the_names_of_the_field() {
    let (header, sbox, table) = (text("../include/satmegwo.h"), text("src/sbox.rs"), text("src/table.rs"));
    for (call, name) in CALLS {
        let said = of_header(&header, &format!("satmegwo_{call}"));
        assert!(said.contains(name), "satmegwo_{call}: {said}");
    }
    for (function, name) in FUNCTIONS {
        let said = of_source(&sbox, function);
        assert!(said.contains(name), "{function}: {said}");
    }
    assert!(of_source(&table, "spectrum").contains("Walsh spectrum"));
}

#[test]
fn the_tables_have_the_names_of_the_field() {
    let header = text("../include/satmegwo.h");
    let head = header.split_once("THE FIELD'S NAMES").expect("it is there").1.split_once("*/").expect("it ends").0.replace("\n *", " ");
    let head = head.split_whitespace().collect::<Vec<&str>>().join(" ");
    let source = text("src/lib.rs");
    for name in [
        "S-box",
        "component function",
        "coordinate function",
        "Walsh spectrum",
        "(LAT)",
        "linearity",
        "(DDT)",
        "differential uniformity",
        "absolute indicator",
        "algebraic degree",
        "Webster and Tavares",
        "min_degree",
    ] {
        assert!(head.contains(name) && source.contains(name), "{name}");
    }
}

/// The header, this crate and the Python package have one sentence for each refusal.
#[test]
fn refusals_have_one_sentence_in_three_languages() {
    let header = text("../include/satmegwo.h").replace("\"\n                \"", "");
    let python = text("../python/satmegwo/refusals.py");
    for refusal in Refusal::ALL {
        let (number, sentence) = (refusal.number(), refusal.sentence());
        assert!(header.contains(&format!("/* {number} */ \"{sentence}\"")), "the header has another sentence than {refusal}");
        assert!(python.contains(&format!("{number}: \"{sentence}\"")), "Python has another sentence than {refusal}");
    }
}
