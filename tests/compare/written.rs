//! Boxes that are checked alone, written as files, and read again; and the sheet by the library. The
//! sheets of many more files are compared in sheets.rs, beside what boxsheet prints.
use crate::calls::Run;
use satmegwo::slices as library;
use second_model::boxes::{self, KINDS};
use second_model::model::{self, Answer};
use second_model::published;
use second_model::sheet::{self, BYTES};

pub fn all(run: &mut Run) {
    the_version(run);
    there_and_back(run);
    checks_in_order(run);
    lengths(run);
    sheets_of_published_boxes(run);
}

impl Run {
    pub fn check_box(&mut self, n: u32, m: u32, rows: &[u32]) {
        self.calling("check_box");
        let read = self.copy(rows);
        let code = library::check_box(n, m, read.content());
        let wanted = model::check_box(n, m, rows);
        let (same, kept) = (code == wanted.err().unwrap_or(0), read.untouched());
        self.compared(wanted.is_err(), same && kept, || {
            format!("check_box n = {n}, m = {m}, rows = {rows:?}: {code}, kept {kept}; the model says {wanted:?}")
        });
    }

    pub fn write_box(&mut self, n: u32, m: u32, rows: &[u32], file_len: usize) -> Option<Vec<u8>> {
        self.calling("write_box");
        let (read, mut file) = (self.copy(rows), self.lend(file_len));
        let code = library::write_box(n, m, read.content(), file.part());
        let wanted = model::write_box(n, m, rows, file_len);
        self.judge(code, &[&read], &file, &wanted, || format!("n = {n}, m = {m}, rows = {rows:?}, file_len = {file_len}"))
    }

    fn sheet(&mut self, file: &[u8], text_len: usize, figures_len: usize) {
        let wanted = sheet::written(file, text_len, figures_len);
        self.sheet_known(file, text_len, figures_len, wanted);
    }

    /// The same where the model's answer is known already. The text's length is the figure, and the
    /// bytes past it stay.
    pub fn sheet_known(&mut self, file: &[u8], text_len: usize, figures_len: usize, wanted: Answer<String>) {
        self.calling("sheet");
        let (read, mut text, mut figures) = (self.copy(file), self.lend(text_len), self.lend(figures_len));
        let code = library::sheet(read.content(), text.part(), figures.part());
        let same = match &wanted {
            Ok(sheet) => {
                let begins = text.content().get(..sheet.len()) == Some(sheet.as_bytes());
                code == 0 && figures.holds(&[sheet.len() as u32]) && begins && text.untouched_from(sheet.len())
            }
            Err(number) => code == *number && text.untouched() && figures.untouched(),
        };
        let kept = read.untouched();
        self.compared(wanted.is_err(), same && kept, || {
            let (start, shown) = (&file[..file.len().min(600)], String::from_utf8_lossy(text.content()));
            format!("sheet of {start:?}, {text_len}, {figures_len}: {code}, kept {kept}, {shown}; the model says {wanted:?}")
        });
    }
}

fn the_version(run: &mut Run) {
    run.calling("version");
    let version = library::version();
    run.compared(false, version == 10_000, || format!("version {version}"));
}

/// A box that was written is read back by the library as it was, and a file that was read is written
/// back: every width, and files of random bytes.
fn there_and_back(run: &mut Run) {
    for (n, m) in (1..=8).flat_map(|n| (1..=32).map(move |m| (n, m))) {
        let kind = run.random.below(KINDS);
        let rows = boxes::of_kind(kind, n, m, &mut run.random);
        run.check_box(n, m, &rows);
        let Some(file) = run.write_box(n, m, &rows, 2 + (4 << n)) else { continue };
        run.read_box(&file, 1 << n, 2);
        let (mut back, mut widths) = (vec![0; 1 << n], [0; 2]);
        let code = library::read_box(&file, &mut back, &mut widths);
        run.law("a written box is read back", (code, widths, &back) == (0, [n, m], &rows), || {
            format!("{n} by {m}, {rows:?}: read back as {code}, {widths:?}, {back:?}")
        });
        let noise: Vec<u8> = (2..file.len()).map(|_| run.random.draw() as u8).collect();
        let file = [&[n as u8, 32][..], &noise].concat();
        let code = library::read_box(&file, &mut back, &mut widths);
        let again = run.write_box(widths[0], widths[1], &back, file.len());
        run.law("a read file is written back", code == 0 && again == Some(file), || {
            format!("a file of {n} inputs comes back as {again:?}")
        });
    }
}

/// 1, 2, 3, 4, 7: at first everything is wrong, then one argument after the other is put right.
fn checks_in_order(run: &mut Run) {
    for n in 1..=4u32 {
        for m in [1, 3, 16, 31] {
            for right in 0..=5 {
                let mut rows = boxes::random_rows(n, m, &mut run.random);
                if right < 4 {
                    rows[0] = 1 << m;
                }
                if right < 3 {
                    rows.push(0);
                }
                let (width, outputs) = (if right < 1 { 9 } else { n }, if right < 2 { 33 } else { m });
                run.check_box(width, outputs, &rows);
                run.write_box(width, outputs, &rows, 2 + (4 << n) + usize::from(right < 5));
            }
        }
    }
}

fn lengths(run: &mut Run) {
    for n in 1..=8u32 {
        let m = run.random.between(1, 6);
        let rows = boxes::random_rows(n, m, &mut run.random);
        let file = model::file_of(n, m, &rows);
        for length in [0, 1, 2, file.len() - 4, file.len() - 1, file.len() + 1, file.len() + 4, 2 * file.len(), 1026] {
            run.write_box(n, m, &rows, length);
        }
        for (text_len, figures_len) in [(0, 1), (1, 1), (331, 1), (333, 1), (664, 1), (BYTES, 0), (BYTES, 2), (0, 0), (BYTES, 1)] {
            run.sheet(&file, text_len, figures_len);
            run.sheet(&file[..file.len() - 1], text_len, figures_len);
            run.sheet(&[], text_len, figures_len);
        }
    }
}

/// The longest numbers that a sheet can have are those of wide boxes; a sheet of 332 bytes has none of
/// them shorter.
fn sheets_of_published_boxes(run: &mut Run) {
    for known in published::all() {
        run.sheet(&model::file_of(known.n, known.m, &known.rows), BYTES, 1);
    }
}
