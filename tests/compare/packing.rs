//! The calls of document 02, section 8, against the model: all widths, every refusal from
//! both sides and in its order, damaged arguments, and the way there and back.
use crate::calls::Run;
use satmegwo::slices as library;
use second_model::boxes::{self, KINDS};
use second_model::model::all_outputs;
use second_model::packing::{self, bytes_of_a_column};

/// How many damaged argument sets each call gets.
const DAMAGED: u64 = 1000;

pub fn all(run: &mut Run) {
    all_widths(run);
    wrong_widths(run);
    wrong_lengths(run);
    largest_rows(run);
    single_bits(run);
    checks_one_after_the_other(run);
    for _ in 0..DAMAGED {
        damaged_box(run);
        damaged_bytes(run);
    }
}

impl Run {
    fn pack(&mut self, n: u32, m: u32, rows: &[u32], out_len: usize) -> Option<Vec<u8>> {
        self.calling("pack_columns");
        let (read, mut out) = (self.copy(rows), self.lend(out_len));
        let code = library::pack_columns(n, m, read.content(), out.part());
        let wanted = packing::pack(n, m, rows, out_len);
        self.judge(code, &[&read], &out, &wanted, || format!("n = {n}, m = {m}, rows = {rows:?}, out_len = {out_len}"))
    }

    fn unpack(&mut self, n: u32, m: u32, packed: &[u8], out_len: usize) -> Option<Vec<u32>> {
        self.calling("unpack_columns");
        let (read, mut out) = (self.copy(packed), self.lend(out_len));
        let code = library::unpack_columns(n, m, read.content(), out.part());
        let wanted = packing::unpack(n, m, packed, out_len);
        self.judge(code, &[&read], &out, &wanted, || format!("n = {n}, m = {m}, packed = {packed:?}, out_len = {out_len}"))
    }
}

/// The packed form's length where that is an array one might lend, else 4.
fn packed_length(n: u32, m: u32) -> usize {
    match (n, m) {
        (0..=10, 0..=64) => m as usize * bytes_of_a_column(n.max(1)),
        _ => 4,
    }
}

/// 2^n where that is an array one might lend, else 4.
fn row_count(n: u32) -> usize {
    match n {
        0..=10 => 1 << n,
        _ => 4,
    }
}

/// Bytes that are taken with n inputs.
fn sound_bytes(run: &mut Run, n: u32, m: u32) -> Vec<u8> {
    let used = match n {
        1 => 3,
        2 => 15,
        _ => 255,
    };
    (0..packed_length(n, m)).map(|_| run.random.draw() as u8 & used).collect()
}

fn all_widths(run: &mut Run) {
    for (n, m) in (1..=8).flat_map(|n| (1..=32).map(move |m| (n, m))) {
        for kind in 0..KINDS {
            let rows = boxes::of_kind(kind, n, m, &mut run.random);
            rows_come_back(run, n, m, &rows);
        }
        for _ in 0..4 {
            let packed = sound_bytes(run, n, m);
            bytes_come_back(run, n, m, &packed);
        }
    }
}

/// What the library packs, it unpacks to the same rows.
fn rows_come_back(run: &mut Run, n: u32, m: u32, rows: &[u32]) {
    let packed = run.pack(n, m, rows, packed_length(n, m));
    let back = packed.and_then(|packed| run.unpack(n, m, &packed, 1 << n));
    run.law("packed rows come back", back.as_deref() == Some(rows), || format!("{n} by {m}: {rows:?} comes back as {back:?}"));
}

fn bytes_come_back(run: &mut Run, n: u32, m: u32, packed: &[u8]) {
    let rows = run.unpack(n, m, packed, 1 << n);
    let back = rows.and_then(|rows| run.pack(n, m, &rows, packed.len()));
    run.law("unpacked bytes come back", back.as_deref() == Some(packed), || format!("{n} by {m}: {packed:?} comes back as {back:?}"));
}

fn wrong_widths(run: &mut Run) {
    let wide = [0, 1, 2, 3, 8, 9, 10, 31, 32, 33, 64, 256 + 3, 65536 + 3, u32::MAX];
    let outputs = [0, 1, 2, 16, 17, 31, 32, 33, 34, 64, 256 + 3, 65536 + 3, u32::MAX];
    for n in wide {
        for m in outputs {
            let rows: Vec<u32> = (0..row_count(n)).map(|_| run.random.draw() as u32 & all_outputs(m.min(32))).collect();
            run.pack(n, m, &rows, packed_length(n, m));
            let packed = sound_bytes(run, n, m);
            run.unpack(n, m, &packed, row_count(n));
        }
    }
}

/// Lengths around the right one, which is at least 1; among them that of eight times as many
/// bytes, one for each truth value.
fn lengths_around(right: usize) -> [usize; 7] {
    [right, right - 1, right + 1, 0, right / 2, right * 2, right * 8]
}

fn wrong_lengths(run: &mut Run) {
    for (n, m) in (1..=8).flat_map(|n| [1, 2, 7, 8, 9, 31, 32].map(|m| (n, m))) {
        let rows = boxes::random_rows(n, m, &mut run.random);
        let packed = sound_bytes(run, n, m);
        for length in lengths_around(1 << n) {
            run.pack(n, m, &vec![1; length], packed_length(n, m));
            run.unpack(n, m, &packed, length);
        }
        for length in lengths_around(packed_length(n, m)) {
            run.pack(n, m, &rows, length);
            run.unpack(n, m, &vec![1; length], 1 << n);
        }
    }
}

/// Row 2^m - 1 is taken and 2^m is not, wherever it stands. With 32 outputs every row is.
fn largest_rows(run: &mut Run) {
    for (n, m) in (1..=8).flat_map(|n| (1..=32).map(move |m| (n, m))) {
        let largest = all_outputs(m);
        for place in [0, (1 << n) - 1, run.random.below(1 << n) as usize] {
            for row in [largest, largest.saturating_add(1), 1 << 31, u32::MAX] {
                let mut rows = boxes::random_rows(n, m, &mut run.random);
                rows[place] = row;
                run.pack(n, m, &rows, packed_length(n, m));
            }
        }
    }
}

/// Each bit of each byte alone, of a packed form that is 0 elsewhere: a used one gives one
/// row with one bit, and an unused one is refused.
fn single_bits(run: &mut Run) {
    for (n, m) in [(1, 1), (1, 32), (2, 1), (2, 9), (3, 3), (4, 8), (6, 17), (8, 32)] {
        for place in 0..8 * packed_length(n, m) {
            let mut packed = vec![0; packed_length(n, m)];
            packed[place / 8] = 1 << (place % 8);
            run.unpack(n, m, &packed, 1 << n);
        }
    }
}

/// At first everything is wrong, then one argument after the other is put right, in the order
/// of the checks: 1, 2, 3, 4 or 16, 7, and nothing.
fn checks_one_after_the_other(run: &mut Run) {
    for right in 0..=5 {
        for (inputs, outputs) in [(1, 1), (1, 31), (2, 1), (2, 16), (3, 8), (8, 31)] {
            let n = if right >= 1 { inputs } else { 9 };
            let m = if right >= 2 { outputs } else { 33 };
            let short = if right >= 3 { 0 } else { 1 };
            let more = if right >= 5 { 0 } else { 1 };
            let mut rows = boxes::random_rows(inputs, outputs, &mut run.random);
            let mut packed = sound_bytes(run, inputs, outputs);
            if right < 4 {
                rows[0] = 1 << outputs;
                packed[0] |= 128;
            }
            let (rows_len, packed_len) = (rows.len(), packed.len());
            run.pack(n, m, &rows[..rows_len - short], packed_len + more);
            run.unpack(n, m, &packed[..packed_len - short], rows_len + more);
        }
    }
}

/// Once in five times another number.
fn other(run: &mut Run, right: u32) -> u32 {
    match run.random.below(5) {
        0 => run.random.pick(&[0, right - 1, right + 1, 8, 9, 32, 33, 256 + right, u32::MAX]),
        _ => right,
    }
}

/// Once in six times another length.
fn length(run: &mut Run, right: usize) -> usize {
    match run.random.below(6) {
        0 => run.random.pick(&[0, right.saturating_sub(1), right + 1, right / 2, right * 2]),
        _ => right,
    }
}

fn damaged_box(run: &mut Run) {
    let (right_n, right_m, kind) = (run.random.between(1, 5), run.random.between(1, 32), run.random.below(KINDS));
    let mut rows = boxes::of_kind(kind, right_n, right_m, &mut run.random);
    let (n, m) = (other(run, right_n), other(run, right_m));
    let read = length(run, rows.len());
    rows.resize(read, 0);
    if run.random.one_in(6) && read > 0 {
        rows[run.random.below(read as u32) as usize] = all_outputs(right_m).saturating_add(1);
    }
    let written = length(run, packed_length(n, m));
    run.pack(n, m, &rows, written);
}

fn damaged_bytes(run: &mut Run) {
    let (right_n, right_m) = (run.random.between(1, 5), run.random.between(1, 32));
    let mut packed = sound_bytes(run, right_n, right_m);
    let (n, m) = (other(run, right_n), other(run, right_m));
    let read = length(run, packed.len());
    packed.resize(read, 0);
    if run.random.one_in(4) && read > 0 {
        packed[run.random.below(read as u32) as usize] |= 1 << run.random.below(8);
    }
    let written = length(run, row_count(n));
    run.unpack(n, m, &packed, written);
}
