//! The box sheet, as documents 01 and 02 print it.
use crate::model::{self, Answer, FileBox};

/// How many outputs a combination has at most in three of the sheet's figures: all of them
/// up to 16 outputs, 4 above.
pub fn limit(m: u32) -> u32 {
    if m <= 16 {
        m
    } else {
        4
    }
}

/// A sheet goes to an array of so many bytes: no sheet is longer.
pub const BYTES: usize = 332;

/// The sheet, where the arrays for it and for its length have the right lengths. A file that is no box
/// file has a sheet too.
pub fn written(file: &[u8], text_len: usize, figures_len: usize) -> Answer<String> {
    model::check_written(text_len, BYTES)?;
    model::check_written(figures_len, 1)?;
    Ok(sheet(file))
}

/// The text for a box file: nine lines, or the one line of a refusal.
pub fn sheet(file: &[u8]) -> String {
    match model::parse_file(file).and_then(|read| lines(&read)) {
        Ok(text) => text,
        Err(number) => format!("refused {number}\n"),
    }
}

fn lines(read: &FileBox) -> Answer<String> {
    let FileBox { n, m, ref rows } = *read;
    let i = limit(m);
    let mut text = format!("box {n} {m}\n");
    text += &limited_line("nonlinearity", &model::nonlinearity(n, m, rows, i, 4)?, i);
    text += &line("xor", &model::largest_cell(n, m, rows, 3)?);
    text += &limited_line("autocorrelation", &model::autocorrelation(n, m, rows, i, 3)?, i);
    text += &line("sac", &model::dynamic_distance(n, m, rows, 1, 1, 3)?);
    text += &if m == 1 { "bic none\n".to_string() } else { line("bic", &model::dynamic_distance(n, m, rows, 2, 1, 3)?) };
    text += &limited_line("degree", &model::degree(n, m, rows, i, 2)?, i);
    text += &format!("complete {}\n", yes_or_no(model::complete(n, m, rows, 1)?));
    text += &format!("bijective {}\n", yes_or_no(model::bijective(n, m, rows, 1)?));
    Ok(text)
}

fn line(name: &str, figures: &[u32]) -> String {
    let mut text = name.to_string();
    for figure in figures {
        text += &format!(" {figure}");
    }
    text + "\n"
}

/// A line that ends with the limit.
fn limited_line(name: &str, figures: &[u32], i: u32) -> String {
    line(name, &[figures, &[i]].concat())
}

fn yes_or_no(figure: [u32; 1]) -> &'static str {
    if figure[0] == 1 {
        "yes"
    } else {
        "no"
    }
}

#[cfg(test)]
mod tests {
    use super::*;
    use crate::model::file_of;

    #[test]
    fn the_example_as_documents_01_and_02_print_it() {
        let text = "box 3 3\nnonlinearity 0 7 7 0 3\nxor 4 3 3\nautocorrelation 8 1 3 3\n\
                    sac 0 1 1\nbic 0 1 1\ndegree 1 7 3\ncomplete yes\nbijective yes\n";
        assert_eq!(sheet(&file_of(3, 3, &[3, 1, 4, 0, 2, 5, 6, 7])), text);
    }

    #[test]
    fn one_column_has_no_pairs() {
        let text = sheet(&file_of(2, 1, &[0, 0, 0, 1]));
        assert_eq!(text.lines().nth(5), Some("bic none"));
        assert_eq!(text.lines().count(), 9);
    }

    /// The last field of the three lines that have a limit.
    fn limits(text: &str) -> Vec<&str> {
        let limited = ["nonlinearity", "autocorrelation", "degree"];
        let lines = text.lines().filter(|line| limited.iter().any(|name| line.starts_with(name)));
        lines.filter_map(|line| line.split(' ').next_back()).collect()
    }

    #[test]
    fn the_limit_is_m_up_to_16_and_4_above() {
        for (m, i) in [(1, "1"), (4, "4"), (5, "5"), (15, "15"), (16, "16"), (17, "4"), (32, "4")] {
            assert_eq!(limits(&sheet(&file_of(1, m, &[0, 1]))), [i; 3], "m = {m}");
        }
    }

    #[test]
    fn the_lengths_of_both_arrays_are_looked_at() {
        assert_eq!(written(&[], BYTES, 1).as_deref(), Ok("refused 10\n"));
        for (text_len, figures_len) in [(BYTES - 1, 1), (BYTES + 1, 1), (BYTES, 0), (BYTES, 2), (0, 0)] {
            assert_eq!(written(&[], text_len, figures_len), Err(7));
        }
    }

    #[test]
    fn refused_files() {
        assert_eq!(sheet(&[]), "refused 10\n");
        assert_eq!(sheet(&[0, 0]), "refused 1\n");
        assert_eq!(sheet(&[8, 33, 0]), "refused 2\n");
        assert_eq!(sheet(&[1, 1, 0, 0, 0, 0, 0, 0, 0]), "refused 10\n");
        assert_eq!(sheet(&[1, 1, 0, 0, 0, 0, 1, 0, 0, 0, 0]), "refused 10\n");
        assert_eq!(sheet(&[1, 1, 0, 0, 0, 0, 1, 1, 0, 0]), "refused 4\n");
        assert_eq!(sheet(&[1, 31, 0, 0, 0, 0, 0, 0, 0, 128]), "refused 4\n");
    }
}
