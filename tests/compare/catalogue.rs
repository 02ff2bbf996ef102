//! `second catalogue`: every call on a catalogue against the model, in long histories, on
//! damaged and on forged catalogues, and at each bound.
use crate::calls::Run;
use crate::parts::Work;
use satmegwo::slices as library;
use second_model::boxes::{self, KINDS};
use second_model::catalogue::{self, Catalogue, Record, FIRST, LONGEST, MOST_RECORDS};
use second_model::model;
use second_model::random::Random;

pub const PARTS: &[(&str, Work)] = &[
    ("bounds", &bounds),
    ("histories", &histories),
    ("damaged bytes", &damaged_bytes),
    ("forged catalogues", &forged_catalogues),
    ("narrow gaps", &narrow_gaps),
    ("long catalogues", &long_catalogues),
    ("full catalogues", &full_catalogues),
];

/// How many calls the histories make.
const CALLS: u64 = 60_000;

// ---------------------------------------------------------------------------
// One call each. The bytes that stand afterwards are the library's.
// ---------------------------------------------------------------------------

fn described(bytes: &[u8]) -> String {
    let used: Vec<String> =
        bytes.iter().enumerate().filter(|(_, &byte)| byte != 0).map(|(place, byte)| format!("{place}:{byte}")).collect();
    format!("a buffer of {} bytes, not 0 at {}", bytes.len(), used.join(" "))
}

fn check(run: &mut Run, bytes: &[u8], figures_len: usize) {
    run.calling("check_catalogue");
    let (read, mut figures) = (run.copy(bytes), run.lend(figures_len));
    let code = library::check_catalogue(read.content(), figures.part());
    let wanted = catalogue::check(bytes, figures_len).map(Vec::from);
    run.judge(code, &[&read], &figures, &wanted, || described(bytes));
}

/// Also: an accepted addition, taken back by its index, leaves what was there before. Says whether
/// the library added the file.
fn add(run: &mut Run, bytes: &mut Vec<u8>, file: &[u8], figures_len: usize) -> bool {
    run.calling("add_record");
    let (mut lent, read, mut figures) = (run.copy(bytes), run.copy(file), run.lend(figures_len));
    let code = library::add_record(lent.part(), read.content(), figures.part());
    let wanted = catalogue::add(bytes, file, figures_len);
    let same = match &wanted {
        Ok((found, after)) => code == 0 && figures.holds(found) && lent.holds(after),
        Err(number) => code == *number && figures.untouched() && lent.untouched(),
    };
    run.compared(wanted.is_err(), same && read.untouched(), || {
        let (told, after) = (figures.content(), described(lent.content()));
        format!("add_record {file:?}: {code}, {told:?}; {} became {after}, and the file {:?}", described(bytes), read.content())
    });
    let after = lent.content().to_vec();
    if let Ok(([index], _)) = wanted {
        let back = removed(run, &after, index);
        run.law("a record added and removed", back.as_ref() == Some(bytes), || format!("add {file:?} and remove {index}: {back:?}"));
    }
    *bytes = after;
    code == 0
}

/// The library's bytes afterwards, if it removes the record.
fn removed(run: &mut Run, bytes: &[u8], index: u32) -> Option<Vec<u8>> {
    run.calling("remove_record");
    let mut lent = run.copy(bytes);
    let code = library::remove_record(lent.part(), index);
    let wanted = catalogue::remove(bytes, index);
    run.judge(code, &[], &lent, &wanted, || format!("index = {index}, {}", described(bytes)))
}

fn remove(run: &mut Run, bytes: &mut Vec<u8>, index: u32) {
    if let Some(after) = removed(run, bytes, index) {
        *bytes = after;
    }
}

/// Also: a fetched record is read as a box, and its rows are what the model reads.
fn fetch(run: &mut Run, bytes: &[u8], index: u32, figures_len: usize) {
    run.calling("fetch_record");
    let (read, mut figures) = (run.copy(bytes), run.lend(figures_len));
    let code = library::fetch_record(read.content(), index, figures.part());
    let wanted = catalogue::fetch(bytes, index, figures_len);
    run.judge(code, &[&read], &figures, &wanted.map(Vec::from), || format!("index = {index}, {}", described(bytes)));
    if let Ok([offset, length]) = wanted {
        let file = &bytes[offset as usize..(offset + length) as usize];
        run.read_box(file, 1 << file[0], 2);
    }
}

/// Also: right after it a file is added exactly if fewer than 64 records stand and the free
/// bytes in all are enough.
fn compact(run: &mut Run, bytes: &mut Vec<u8>) {
    run.calling("compact_catalogue");
    let mut lent = run.copy(bytes);
    let code = library::compact_catalogue(lent.part());
    let wanted = catalogue::compact(bytes);
    let compacted = run.judge(code, &[], &lent, &wanted, || described(bytes));
    drop(lent);
    if let Some(after) = compacted {
        *bytes = after;
        fills_all_gaps(run, bytes);
    }
}

fn fills_all_gaps(run: &mut Run, bytes: &[u8]) {
    if let Ok(compacted) = catalogue::read(bytes) {
        let file = sound_file(&mut run.random);
        let fits = compacted.records.len() < MOST_RECORDS && file.len() <= compacted.free();
        let added = add(run, &mut bytes.to_vec(), &file, 1);
        run.law("an addition after compaction", added == fits, || {
            format!("added after compaction: {added}, {} bytes to {}", file.len(), described(bytes))
        });
    }
}

// ---------------------------------------------------------------------------
// Files and buffers.
// ---------------------------------------------------------------------------

/// A file that is accepted; short ones come more often.
fn sound_file(random: &mut Random) -> Vec<u8> {
    let most = random.pick(&[1, 1, 2, 2, 3, 3, 4, 5, 8]);
    let (n, m) = (random.between(1, most), random.between(1, 32));
    let kind = random.below(KINDS);
    model::file_of(n, m, &boxes::of_kind(kind, n, m, random))
}

/// Now and then a file of another length, width or row.
fn any_file(random: &mut Random) -> Vec<u8> {
    let mut file = sound_file(random);
    match random.below(24) {
        0 => file.truncate(random.below(12) as usize),
        1 => file.push(0),
        2 => file[0] = random.pick(&[0, 9, 255, file[0] + 1]),
        3 => file[1] = random.pick(&[0, 33, 255]),
        4 => {
            file[1] = random.between(1, 31) as u8;
            file[5] = 255;
        }
        _ => {}
    }
    file
}

/// Lengths of buffers: at both bounds, tight, usual and longest.
fn size(random: &mut Random) -> usize {
    let tight = FIRST + 10 * random.below(70) as usize + 8 * random.below(3) as usize;
    let usual = FIRST + random.below(4000) as usize;
    let bound = random.pick(&[FIRST - 1, FIRST, FIRST + 1, FIRST + 9, FIRST + 10, LONGEST, LONGEST + 1]);
    random.pick(&[bound, tight, usual, usual])
}

/// An index that a record has, the first that none has, and now and then a far one.
fn index(random: &mut Random, bytes: &[u8]) -> u32 {
    let records = catalogue::read(bytes).map_or(1, |found| found.records.len() as u32);
    match random.below(12) {
        0 => records,
        1 => random.pick(&[records + 1, 63, 64, 65, 256, 65536, 1 << 31, u32::MAX]),
        _ => random.below(records.max(1)),
    }
}

/// The right length of the array for the figures, or now and then another one.
fn room(random: &mut Random, right: usize) -> usize {
    if random.one_in(20) {
        random.pick(&[0, 1, 2, 3])
    } else {
        right
    }
}

// ---------------------------------------------------------------------------
// The parts.
// ---------------------------------------------------------------------------

/// Histories that begin with an empty buffer and go on for a while; the longest are the shortest
/// buffers'. The calls after each other are of one kind for a while, so that catalogues fill up.
fn histories(run: &mut Run) {
    let mut made = 0;
    while made < CALLS {
        let length = size(&mut run.random);
        let steps = if length > 10_000 { 150 } else { 400 };
        let mut bytes = vec![0; length];
        let mut filling = true;
        for _ in 0..steps {
            if run.random.one_in(30) {
                filling = !filling;
            }
            step(run, &mut bytes, filling);
            made += 1;
        }
    }
}

fn step(run: &mut Run, bytes: &mut Vec<u8>, filling: bool) {
    let (adds, removes) = if filling { (12, 3) } else { (4, 12) };
    match run.random.below(24) {
        kind if kind < adds => {
            let file = any_file(&mut run.random);
            let figures_len = room(&mut run.random, 1);
            add(run, bytes, &file, figures_len);
        }
        kind if kind < adds + removes => {
            let index = index(&mut run.random, bytes);
            remove(run, bytes, index);
        }
        kind if kind < adds + removes + 1 => compact(run, bytes),
        kind if kind < adds + removes + 2 => {
            let figures_len = room(&mut run.random, 1);
            check(run, bytes, figures_len);
        }
        _ => {
            let (index, figures_len) = (index(&mut run.random, bytes), room(&mut run.random, 2));
            fetch(run, bytes, index, figures_len);
        }
    }
}

/// Every call on one buffer, which stays as it is.
fn every_call(run: &mut Run, bytes: &[u8]) {
    check(run, bytes, 1);
    let file = sound_file(&mut run.random);
    add(run, &mut bytes.to_vec(), &file, 1);
    let index = index(&mut run.random, bytes);
    remove(run, &mut bytes.to_vec(), index);
    fetch(run, bytes, index, 2);
    compact(run, &mut bytes.to_vec());
}

/// Both ends of the length, and no record, one, and one too many for the buffer.
fn bounds(run: &mut Run) {
    let file = model::file_of(1, 1, &[0, 1]);
    let around_the_first = [FIRST - 1, FIRST, FIRST + 9, FIRST + 10, FIRST + 19, FIRST + 20];
    let around_the_longest = [LONGEST - 1, LONGEST, LONGEST + 1, 2 * LONGEST];
    for length in [0, 1, 2, 256].into_iter().chain(around_the_first).chain(around_the_longest) {
        let mut bytes = vec![0; length];
        every_call(run, &bytes);
        for _ in 0..3 {
            add(run, &mut bytes, &file, 1);
            every_call(run, &bytes);
        }
    }
    checks_one_after_the_other(run);
}

/// At first everything is wrong, then one argument after the other is put right, in the order
/// of the checks: 13, the file's own, 7, 14, and nothing.
fn checks_one_after_the_other(run: &mut Run) {
    for right in 0..=4 {
        let length = if right >= 4 { FIRST + 10 } else { FIRST + 9 };
        let mut bytes = vec![0; length];
        bytes[0] = if right >= 1 { 0 } else { 65 };
        let mut file = model::file_of(1, 1, &[0, 1]);
        file[0] = if right >= 2 { 1 } else { 9 };
        let figures_len = if right >= 3 { 1 } else { 2 };
        add(run, &mut bytes.clone(), &file, figures_len);
        let index = if right >= 2 { 0 } else { 1 };
        fetch(run, &bytes, index, figures_len + 1);
        remove(run, &mut bytes, index);
    }
}

/// A small catalogue with gaps, whose files have few outputs or many.
fn gapped(random: &mut Random) -> Vec<u8> {
    let mut bytes = vec![0; FIRST + 400 + random.below(100) as usize];
    for _ in 0..9 {
        let (n, m) = (random.between(1, 4), random.pick(&[1, 3, 8, 9, 16, 17, 31, 32]));
        let file = model::file_of(n, m, &boxes::random_rows(n, m, random));
        if let Ok((_, after)) = catalogue::add(&bytes, &file, 1) {
            bytes = after;
        }
    }
    for _ in 0..3 {
        bytes = catalogue::remove(&bytes, random.below(3)).unwrap_or(bytes);
    }
    bytes
}

/// Every byte of a valid catalogue set to every other value, one at a time: 13, or still valid.
fn damaged_bytes(run: &mut Run) {
    for _ in 0..2 {
        let bytes = gapped(&mut run.random);
        for place in 0..bytes.len() {
            for change in 1..=255 {
                let mut damaged = bytes.clone();
                damaged[place] ^= change;
                check(run, &damaged, 1);
                if change.is_power_of_two() && run.random.one_in(4) {
                    every_call(run, &damaged);
                }
            }
        }
    }
    damaged_bytes_of_the_longest(run);
}

/// The directory of the longest catalogue, and one byte in some twenty behind it.
fn damaged_bytes_of_the_longest(run: &mut Run) {
    let bytes = full_records(&mut run.random, LONGEST);
    let mut place = 0;
    while place < bytes.len() {
        let mut damaged = bytes.clone();
        damaged[place] ^= run.random.between(1, 255) as u8;
        check(run, &damaged, 1);
        place += if place < FIRST { 1 } else { run.random.between(1, 40) as usize };
    }
}

/// As many records of eight inputs as the buffer takes.
fn full_records(random: &mut Random, length: usize) -> Vec<u8> {
    let mut found = Catalogue { size: length, records: Vec::new() };
    let mut offset = FIRST;
    while found.records.len() < MOST_RECORDS && offset + 1026 <= length {
        let m = random.pick(&[8, 16, 31, 32]);
        let file = model::file_of(8, m, &boxes::random_rows(8, m, random));
        found.records.push(Record { offset, file });
        offset += 1026;
    }
    found.bytes()
}

/// Catalogues whose directory says what is not so: records that overlap, out of order, one too
/// many or too few, of another length, outside the buffer, without a file.
fn forged_catalogues(run: &mut Run) {
    for _ in 0..4000 {
        let mut found = catalogue::read(&gapped(&mut run.random)).expect("it is made by the model");
        let bytes = found.bytes();
        let records = found.records.len();
        let random = &mut run.random;
        let which = random.below(records.max(1) as u32) as usize;
        let mut forged = bytes.clone();
        let place = 2 + 4 * which;
        match random.below(8) {
            0 => forged.swap(place, 2 + 4 * random.below(64) as usize),
            1 => {
                let other = 2 + 4 * random.below(records.max(1) as u32 + 1) as usize;
                for k in 0..4 {
                    forged.swap(place + k, other + k);
                }
            }
            2 => forged[0] = random.pick(&[records as u8 + 1, records.max(1) as u8 - 1, 64, 65]),
            3 => forged[place] = forged[place].wrapping_add(random.pick(&[1, 2, 8, 255, 254])),
            4 => forged[place + 2] = random.pick(&[0, 1, 2, 10, 18, 34, 66]),
            5 => forged[place + 1] = random.pick(&[0, 1, 2, 255]),
            6 => {
                // One byte up, or down where the buffer ends there.
                let record = &mut found.records[which];
                let at_the_end = record.offset + record.file.len() == bytes.len();
                record.offset = if at_the_end { record.offset - 1 } else { record.offset + 1 };
                forged = found.bytes();
            }
            _ => {
                let copied: Vec<u8> = bytes[place..place + 4].to_vec();
                let next = 2 + 4 * records.min(63);
                forged[next..next + 4].copy_from_slice(&copied);
                forged[0] = records as u8 + 1;
            }
        }
        every_call(run, &forged);
    }
}

/// A sound catalogue with gaps of none to three bytes before each record and at the end. All files
/// have even lengths, so that no history makes gaps like these.
fn narrowly_gapped(random: &mut Random) -> Vec<u8> {
    let mut found = Catalogue { size: FIRST, records: Vec::new() };
    for _ in 0..random.between(1, 12) {
        let file = sound_file(random);
        let offset = found.size + random.pick(&[0, 1, 1, 2, 3]);
        found.size = offset + file.len();
        found.records.push(Record { offset, file });
    }
    found.size += random.pick(&[0, 1, 2, 9, 10, 11]);
    found.bytes()
}

/// A long catalogue with one gap of this length, before the record of this index or behind all: the
/// longest files that fit, one after the other, of which at most 63 leave room for one more. What is left
/// over then lies before the records, as evenly as it can.
fn with_gap(random: &mut Random, size: usize, index: usize, gap: usize) -> Vec<u8> {
    let (mut files, mut left) = (Vec::new(), size - FIRST - gap);
    for n in (1..=8).rev() {
        while files.len() < MOST_RECORDS - 1 && 2 + (4 << n) <= left {
            files.push(model::file_of(n, 32, &boxes::random_rows(n, 32, random)));
            left -= 2 + (4 << n);
        }
    }
    let (mut found, mut end, number) = (Catalogue { size, records: Vec::new() }, FIRST, files.len());
    for (k, file) in files.into_iter().enumerate() {
        let narrow = left * (k + 1) / number - left * k / number;
        let offset = end + narrow + if k == index { gap } else { 0 };
        end = offset + file.len();
        found.records.push(Record { offset, file });
    }
    found.bytes()
}

/// Files of every length, each into a gap of just this length, of one byte more and of one less, at the
/// end of a long catalogue and before one of its records.
fn long_catalogues(run: &mut Run) {
    let other = run.random.between(40_001, 65_533) as usize;
    for size in [LONGEST, LONGEST - 1, 40_001, other] {
        for (n, behind_all) in (1..=8).flat_map(|n| [(n, true), (n, false)]) {
            let index = if behind_all { MOST_RECORDS } else { run.random.below(30) as usize };
            let file = model::file_of(n, 32, &boxes::random_rows(n, 32, &mut run.random));
            for gap in [file.len() - 1, file.len(), file.len() + 1] {
                let mut bytes = with_gap(&mut run.random, size, index, gap);
                add(run, &mut bytes, &file, 1);
            }
        }
    }
}

/// Every call on such catalogues, and short histories from them on.
fn narrow_gaps(run: &mut Run) {
    for round in 0..400 {
        let mut bytes = narrowly_gapped(&mut run.random);
        every_call(run, &bytes);
        for _ in 0..20 {
            step(run, &mut bytes, round % 2 == 0);
        }
    }
}

/// 64 records stand, and one more is refused whatever the room; 65 in the count are no catalogue.
fn full_catalogues(run: &mut Run) {
    for length in [FIRST + 640, FIRST + 650, 2000, LONGEST] {
        let mut bytes = vec![0; length];
        for round in 0..66u8 {
            let file = model::file_of(1, 8, &[u32::from(round), 3]);
            add(run, &mut bytes, &file, 1);
        }
        every_call(run, &bytes);
        for index in [63, 64, 65, 0, 62, 30] {
            remove(run, &mut bytes, index);
            let file = sound_file(&mut run.random);
            add(run, &mut bytes, &file, 1);
            fetch(run, &bytes, index, 2);
        }
        bytes[0] = 65;
        every_call(run, &bytes);
    }
    let mut longest = full_records(&mut run.random, LONGEST);
    every_call(run, &longest);
    remove(run, &mut longest, 0);
    compact(run, &mut longest);
}
