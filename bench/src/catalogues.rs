//! The calls on a catalogue: the check of the longest buffer with 63 records of eight inputs; adding,
//! removing and compacting on that buffer, held against a buffer that is half as long too, since they
//! are to be linear in it. The second program has a quick way to check alone; of the other calls its
//! answers are compared, and not its times.
use crate::peers;
use crate::rows::{Other, Row, Rows};
use satmegwo::slices as library;
use second_model::boxes::random_rows;
use second_model::catalogue::{self, Catalogue, Record, FIRST, LONGEST};
use second_model::model::file_of;
use second_model::random::Random;

/// The bytes of a file of eight inputs.
const FULL: usize = 2 + 4 * 256;

pub fn measure(rows: &Rows, random: &mut Random) -> Result<(), String> {
    for m in [8, 32] {
        rows.measure(&Row {
            size: format!("8x{m}"),
            name: "catalogue check, 63 records".to_string(),
            inputs: &[filled(LONGEST, m, random).bytes()],
            lent: 0,
            fresh: false,
            library: &|bytes, records| {
                let mut figures = [0];
                assert_eq!(library::check_catalogue(bytes, &mut figures), 0);
                *records = figures[0];
            },
            second: Some(&|bytes, records| *records = catalogue::quick_check(bytes).expect("it is valid")),
            peer: Some(&|bytes, records| assert_eq!(peers::check_catalogue(bytes, records), 0)),
            other: None,
            bar: None,
        })?;
    }
    let file = file_of(8, 32, &random_rows(8, 32, random));
    for call in &CALLS {
        call.measure(&file, rows, random)?;
    }
    Ok(())
}

/// One program's way to change a buffer, given the file to be added; returns the index of the record that
/// was added, and else 0.
type Way = fn(&[u8], &mut [u8]) -> u32;

/// A call that changes a buffer: its name, the records before it, and the three ways to it.
struct Change {
    name: &'static str,
    before: fn(&mut Catalogue),
    library: Way,
    second: Way,
    peer: Way,
}

/// Room for one record at the end to add it there; a full buffer; and every record one byte further up
/// than it need be, so that compaction moves them all.
const CALLS: [Change; 3] = [
    Change {
        name: "catalogue add",
        before: |found| drop(found.records.pop()),
        library: |file, bytes| {
            let mut index = [0];
            assert_eq!(library::add_record(bytes, file, &mut index), 0);
            index[0]
        },
        second: |file, bytes| {
            let ([index], after) = catalogue::add(bytes, file, 1).expect("there is room");
            bytes.copy_from_slice(&after);
            index
        },
        peer: |file, bytes| {
            let mut index = 0;
            assert_eq!(peers::add_record(bytes, file, &mut index), 0);
            index
        },
    },
    Change {
        name: "catalogue remove",
        before: |_| {},
        library: |_, bytes| library::remove_record(bytes, 0),
        second: |_, bytes| {
            bytes.copy_from_slice(&catalogue::remove(bytes, 0).expect("it is there"));
            0
        },
        peer: |_, bytes| peers::remove_record(bytes, 0),
    },
    Change {
        name: "catalogue compact",
        before: |found| found.records.iter_mut().for_each(|record| record.offset += 1),
        library: |_, bytes| library::compact_catalogue(bytes),
        second: |_, bytes| {
            bytes.copy_from_slice(&catalogue::compact(bytes).expect("it is valid"));
            0
        },
        peer: |_, bytes| peers::compact_catalogue(bytes),
    },
];

/// What a call is lent: the longest buffer, and one of half its length for the call that it is held against.
#[derive(Clone, PartialEq)]
struct Buffers {
    whole: Vec<u8>,
    half: Vec<u8>,
    index: u32,
}

impl Change {
    fn measure(&self, file: &Vec<u8>, rows: &Rows, random: &mut Random) -> Result<(), String> {
        let mut bytes = |size| {
            let mut found = filled(size, 32, random);
            (self.before)(&mut found);
            found.bytes()
        };
        let lent = Buffers { whole: bytes(LONGEST), half: bytes(LONGEST / 2), index: 0 };
        let [mut ours, mut theirs] = [lent.whole.clone(), lent.whole.clone()];
        if (self.library)(file, &mut ours) != (self.second)(file, &mut theirs) || ours != theirs {
            return Err(format!("8x32 {}: library and second program give different answers", self.name));
        }
        rows.measure(&Row {
            size: "8x32".to_string(),
            name: self.name.to_string(),
            inputs: std::slice::from_ref(file),
            lent,
            fresh: true,
            library: &|file, lent: &mut Buffers| lent.index = (self.library)(file, &mut lent.whole),
            second: None,
            peer: Some(&|file, lent| lent.index = (self.peer)(file, &mut lent.whole)),
            other: Some(Other {
                name: "half the buffer",
                call: &|file, lent| lent.index = (self.library)(file, &mut lent.half),
                same: false,
            }),
            bar: None,
        })
    }
}

/// As many records of eight inputs as the buffer takes, without gaps.
fn filled(size: usize, m: u32, random: &mut Random) -> Catalogue {
    let record = |k: usize, random: &mut Random| Record { offset: FIRST + k * FULL, file: file_of(8, m, &random_rows(8, m, random)) };
    let records = (0..(size - FIRST) / FULL).map(|k| record(k, random)).collect();
    Catalogue { size, records }
}
