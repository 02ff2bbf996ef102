//! The crate on the stored boxes of examples/, and its refusals. (The figures themselves are compared with
//! the second program in tests/, call by call; here it is what the types make of them.)
use satmegwo::{merged, sheet_of_bytes, sum_nonlinearity, sum_nonlinearity_between};
use satmegwo::{Catalogue, Design, Detail, FileError, Pair, Part, Refusal, Sbox, Server, TruthTable};
use std::fs;
use std::path::{Path, PathBuf};

fn stored() -> Vec<(PathBuf, Sbox)> {
    let directory = Path::new(env!("CARGO_MANIFEST_DIR")).join("../examples");
    let entries = fs::read_dir(&directory).expect("the examples are there").map(|entry| entry.expect("it can be read").path());
    let boxes: Vec<PathBuf> = entries.filter(|path| path.extension().is_some_and(|end| end == "box")).collect();
    assert!(boxes.len() >= 24);
    let read = |path: PathBuf| {
        let sbox = Sbox::from_path(&path).expect("it is a box file");
        (path, sbox)
    };
    boxes.into_iter().map(read).collect()
}

/// The refusal of what must be refused, with a detail or without.
fn refusal<T: std::fmt::Debug, E: Into<Refusal> + std::fmt::Debug>(result: Result<T, E>) -> Refusal {
    result.expect_err("it is refused").into()
}

fn example() -> Sbox {
    Sbox::new(3, 3, [3, 1, 4, 0, 2, 5, 6, 7]).expect("it is a box")
}

#[test]
fn files_and_packed_columns_go_there_and_back() {
    for (path, sbox) in stored() {
        assert_eq!(sbox.to_bytes(), fs::read(&path).expect("it can be read"));
        assert_eq!(Sbox::from_bytes(&sbox.to_bytes()), Ok(sbox.clone()));
        assert_eq!(Sbox::try_from(&sbox.to_bytes()[..]), Ok(sbox.clone()));
        assert_eq!(Sbox::from_packed(sbox.inputs(), sbox.outputs(), &sbox.to_packed()), Ok(sbox.clone()));
        assert_eq!(Sbox::new(sbox.inputs(), sbox.outputs(), sbox.rows()), Ok(sbox));
    }
}

/// Every figure by its method, put together as the sheet has them, is the sheet that is stored.
#[test]
fn figures_are_those_of_the_stored_sheets() {
    for (path, sbox) in stored() {
        let sheet = fs::read_to_string(path.with_extension("sheet")).expect("it is stored");
        assert_eq!(sbox.sheet(), sheet);
        assert_eq!(lines(&sbox).unwrap(), sheet, "{}", path.display());
    }
}

fn lines(sbox: &Sbox) -> Result<String, Refusal> {
    let i = if sbox.outputs() <= 16 { sbox.outputs() } else { 4 };
    let (l, x, a) = (sbox.nonlinearity(i)?, sbox.largest_cell(), sbox.autocorrelation(i)?);
    let (s, b, d) = (sbox.dynamic_distance(1, 1)?, sbox.dynamic_distance(2, 1)?, sbox.degree(i)?);
    let word = |yes| if yes { "yes" } else { "no" };
    Ok([
        format!("box {} {}\n", sbox.inputs(), sbox.outputs()),
        format!("nonlinearity {} {} {} {} {i}\n", l.figure, l.c, l.w, l.b),
        format!("xor {} {} {}\n", x.figure, x.a, x.beta),
        format!("autocorrelation {} {} {} {i}\n", a.figure, a.c, a.s),
        format!("sac {} {} {}\nbic {} {} {}\n", s.figure, s.c, s.d, b.figure, b.c, b.d),
        format!("degree {} {} {i}\n", d.figure, d.c),
        format!("complete {}\nbijective {}\n", word(sbox.is_complete()), word(sbox.is_bijective())),
    ]
    .concat())
}

/// The lists hold what the single figures begin with, and what a row or a spectrum counts.
#[test]
fn lists_agree_with_rows_and_spectra() {
    for (_, sbox) in stored().into_iter().filter(|(_, sbox)| sbox.outputs() <= 8) {
        let (largest, cells) = (sbox.largest_cell(), sbox.largest_cells());
        assert_eq!(cells.clone().next().map(|cell| (cell.a, cell.beta)), Some((largest.a, largest.beta)));
        for cell in cells {
            assert_eq!(u32::from(sbox.xor_row(cell.a).unwrap()[cell.beta as usize]), largest.figure);
        }
        let (least, pairs) = (sbox.nonlinearity(2).unwrap(), sbox.nearest_pairs(2).unwrap());
        assert_eq!(pairs.clone().next(), Some(Pair { c: least.c, w: least.w, b: least.b }));
        for Pair { c, w, b } in pairs {
            let value = sbox.component_spectrum(c).unwrap()[w as usize];
            let differing = (sbox.rows().len() / 2) as i32 - if b == 0 { value } else { -value };
            assert_eq!(differing, least.figure as i32);
        }
    }
}

/// 21 combinations with 256 pairs each: more than the first list has room for.
#[test]
fn a_long_list_of_pairs_is_found() {
    let bent = TruthTable::bent(8, &std::array::from_fn::<u8, 16, _>(|x| x as u8), &[0; 16]).unwrap();
    let rows: Vec<u32> = bent.values().iter().map(|&value| u32::from(value) * 0x1f_ffff).collect();
    let sbox = Sbox::new(8, 21, rows).unwrap();
    let odd = sbox.nearest_pairs(1).unwrap();
    assert_eq!((odd.len(), sbox.nonlinearity(1).unwrap().figure), (21 * 256, 120));
    assert!(odd.zip(0..).all(|(pair, k)| (pair.c, pair.w) == (1 << (k / 256), k % 256)));
}

#[test]
fn what_is_no_box_is_refused_by_its_number() {
    assert_eq!(refusal(Sbox::new(0, 1, [0])), Refusal::InputWidth);
    assert_eq!(refusal(Sbox::new(9, 1, vec![0; 512])), Refusal::InputWidth);
    assert_eq!(refusal(Sbox::new(1, 33, [0, 1])), Refusal::OutputWidth);
    assert_eq!(refusal(Sbox::new(1, 1, [0, 1, 0])), Refusal::ReadLength);
    assert_eq!(refusal(Sbox::new(1, 1, [0, 2])), Refusal::Value);
    assert_eq!(refusal(Sbox::from_bytes(&[])), Refusal::FileLength);
    assert_eq!(refusal(Sbox::from_bytes(&[0, 1])), Refusal::InputWidth);
    assert_eq!(refusal(Sbox::from_bytes(&[255, 1])), Refusal::InputWidth);
    assert_eq!(refusal(Sbox::from_bytes(&[8, 33])), Refusal::OutputWidth);
    assert_eq!(refusal(Sbox::from_bytes(&[1, 1, 0, 0, 0, 0, 2, 0, 0, 0])), Refusal::Value);
    assert_eq!(refusal(Sbox::from_packed(9, 1, &[0])), Refusal::InputWidth);
    assert_eq!(refusal(Sbox::from_packed(2, 1, &[16])), Refusal::UnusedBit);
    assert_eq!(sheet_of_bytes(&[3]), "refused 10\n");
}

#[test]
fn parameters_out_of_range_are_refused() {
    let sbox = example();
    assert_eq!(sbox.nonlinearity(0), Err(Refusal::Parameter));
    assert_eq!(sbox.autocorrelation(4), Err(Refusal::Parameter));
    assert_eq!(sbox.degree(4), Err(Refusal::Parameter));
    assert_eq!(sbox.dynamic_distance(1, 4), Err(Refusal::Parameter));
    assert_eq!(sbox.nearest_pairs(4).err(), Some(Refusal::Parameter));
    assert_eq!(sbox.component_spectrum(8), Err(Refusal::Parameter));
    assert_eq!(sbox.xor_row(8), Err(Refusal::Parameter));
    assert_eq!(sbox.add_to_column(1, 8, 0), Err(Refusal::Parameter));
    assert_eq!(sbox.enlarged(&TruthTable::new(2, [0; 4]).unwrap(), 1), Err(Refusal::ReadLength));
    let wide = Sbox::new(1, 17, [0, 1 << 16]).unwrap();
    assert_eq!(wide.xor_row(1), Err(Refusal::OutputWidth));
    assert_eq!(wide.raising_swap(), Err(Refusal::OutputWidth));
    assert_eq!(Sbox::new(8, 8, vec![0; 256]).unwrap().enlarged(&TruthTable::new(8, [0; 256]).unwrap(), 1), Err(Refusal::InputWidth));
}

#[test]
fn truth_tables_are_checked() {
    assert_eq!(refusal(TruthTable::new(0, [0])), Refusal::InputWidth);
    assert_eq!(refusal(TruthTable::new(1, [0])), Refusal::ReadLength);
    assert_eq!(refusal(TruthTable::new(1, [0, 2])), Refusal::Value);
    assert_eq!(TruthTable::from_spectrum(2, &[1; 3]), Err(Refusal::ReadLength));
    assert_eq!(TruthTable::bent(3, &[0, 1], &[0, 0]), Err(Refusal::InputWidth));
    assert_eq!(TruthTable::bent(2, &[0, 0], &[0, 0]), Err(Refusal::Permutation));
    let table = TruthTable::new(3, [1, 1, 0, 0, 0, 1, 0, 1]).unwrap();
    assert_eq!(table.enlarged(4, 0), Err(Refusal::Parameter));
    assert_eq!(table.normal_form().normal_form(), table);
    assert_eq!(TruthTable::from_spectrum(3, &table.spectrum()), Ok(table));
}

#[test]
fn sums_take_one_to_four_boxes() {
    let sbox = example();
    assert_eq!(sum_nonlinearity(&[], 1), Err(Refusal::BoxCount));
    assert_eq!(sum_nonlinearity(&[&sbox; 5], 1), Err(Refusal::BoxCount));
    assert_eq!(sum_nonlinearity(&[&sbox; 70], 1), Err(Refusal::BoxCount));
    assert_eq!(sum_nonlinearity(&[&sbox, &Sbox::new(1, 2, [0, 3]).unwrap()], 1), Err(Refusal::OutputWidths));
    let (alone, plain) = (sum_nonlinearity(&[&sbox], 2).unwrap(), sbox.nonlinearity(2).unwrap());
    assert_eq!((alone.figure, alone.c, alone.masks, alone.b), (plain.figure, plain.c, vec![plain.w], plain.b));
    assert_eq!(sum_nonlinearity(&[&sbox; 4], 3).unwrap().masks, [7; 4]);
}

#[test]
fn a_catalogue_keeps_all_boxes() {
    assert_eq!(Catalogue::empty(257), Err(Refusal::Catalogue));
    assert_eq!(Catalogue::from_bytes(vec![1; 300]), Err(Refusal::Catalogue));
    let boxes = stored();
    let mut catalogue = Catalogue::empty(65_535).unwrap();
    for (k, (_, sbox)) in boxes.iter().enumerate() {
        assert_eq!(catalogue.add_box(sbox), Ok(k as u32));
    }
    assert_eq!(catalogue.len() as usize, boxes.len());
    let kept = |catalogue: &Catalogue| catalogue.records().map(|file| Sbox::from_bytes(file).unwrap()).collect::<Vec<Sbox>>();
    assert!(kept(&catalogue).iter().eq(boxes.iter().map(|(_, sbox)| sbox)));
    catalogue.remove(0).unwrap();
    catalogue.compact();
    assert!(kept(&catalogue).iter().eq(boxes[1..].iter().map(|(_, sbox)| sbox)));
    assert_eq!(Catalogue::from_bytes(catalogue.bytes()), Ok(catalogue.clone()));
    assert_eq!(catalogue.remove(boxes.len() as u32 - 1), Err(Refusal::NoRecord));
    assert_eq!(catalogue.add(b"no box"), Err(Refusal::InputWidth));
}

/// Refused operations leave a design, and a refused call a server, as they were.
#[test]
fn designs_and_servers_own_their_value() {
    let mut design = Design::begin(&example());
    design.mark(16).unwrap();
    let before = design.clone();
    assert_eq!(design.swap(0, 8), Err(Refusal::Parameter));
    assert_eq!(design.add_to_column(4, 0, 0), Err(Refusal::Parameter));
    assert_eq!(design.mark(17), Err(Refusal::Parameter));
    assert_eq!(design.return_to(1), Err(Refusal::UnsetMark));
    assert_eq!(design, before);
    design.add_to_column(1, 0, 1).unwrap();
    assert_eq!(design.sbox(), example().add_to_column(1, 0, 1).unwrap());
    assert!(format!("{design:?}").ends_with("marks: [16] }"));
    design.return_to(16).unwrap();
    assert_eq!(design, before);

    let mut server = Server::begin();
    assert_eq!(server.last_served(), None);
    server.step();
    assert_eq!(server, Server::begin());
    assert_eq!(server.put(9, &example()), Err(Refusal::NoPlace));
    assert_eq!(server.put(1, &Sbox::new(1, 17, [0, 1]).unwrap()), Err(Refusal::OutputWidth));
    assert_eq!(server.ask(1), Err(Refusal::PlaceState));
    assert_eq!(server, Server::begin());
    let stored = stored();
    let boxes: Vec<&Sbox> = stored.iter().map(|(_, sbox)| sbox).filter(|sbox| sbox.outputs() <= 8).take(8).collect();
    for (place, sbox) in (1..).zip(&boxes) {
        server.put(place, sbox).unwrap();
    }
    server.run(u32::MAX);
    for (place, sbox) in (1..).zip(&boxes) {
        assert_eq!(server.ask(place), sbox.nonlinearity(sbox.outputs()).map(Some));
    }
}

/// What is found over 1 to 255 in several parts, merged from the last to the first.
fn in_parts<P: Part>(part: impl Fn(std::ops::RangeInclusive<u32>) -> Result<Option<P>, Refusal>) -> Result<Option<P>, Refusal> {
    let mut all = None;
    for k in (0..8).rev() {
        all = merged(&part(32 * k + 1..=(32 * k + 40).min(255))?, &all)?;
    }
    Ok(all)
}

/// Parts that overlap, and of which some have no combination within a limit, make the plain figures.
#[test]
fn parts_make_the_whole() {
    let (sbox, other) = (stored().into_iter().find(|(path, _)| path.ends_with("aes.box")).unwrap().1, Sbox::new(1, 8, [77, 200]).unwrap());
    for i in [1, 2, 8] {
        assert_eq!(in_parts(|part| sbox.nonlinearity_between(i, part)), sbox.nonlinearity(i).map(Some));
        assert_eq!(in_parts(|part| sbox.autocorrelation_between(i, part)), sbox.autocorrelation(i).map(Some));
        assert_eq!(in_parts(|part| sbox.dynamic_distance_between(i, 2, part)), sbox.dynamic_distance(i, 2).map(Some));
        let boxes = [&sbox, &other];
        assert_eq!(in_parts(|part| sum_nonlinearity_between(&boxes, i, part)), sum_nonlinearity(&boxes, i).map(Some));
    }
    assert_eq!(sbox.autocorrelation_between(1, 255..=255), Ok(None));
    assert_eq!(sum_nonlinearity_between(&[&sbox], 1, 255..=255), Ok(None));
}

#[test]
fn parts_are_refused_and_merged_by_the_library() {
    let sbox = example();
    for range in [(0, 1), (1, 8), (8, 8), (5, 4)].map(|(first, last)| first..=last) {
        assert_eq!(sbox.nonlinearity_between(1, range.clone()), Err(Refusal::Parameter), "{range:?}");
        assert_eq!(sum_nonlinearity_between(&[&sbox], 1, range), Err(Refusal::Parameter));
    }
    assert_eq!(sbox.autocorrelation_between(4, 1..=7), Err(Refusal::Parameter));
    assert_eq!(sbox.dynamic_distance_between(1, 4, 1..=7), Err(Refusal::Parameter));
    assert_eq!(sum_nonlinearity_between(&[], 1, 1..=7), Err(Refusal::BoxCount));
    assert_eq!(sum_nonlinearity_between(&[&sbox; 5], 1, 1..=7), Err(Refusal::BoxCount));
    // Of equal figures 4 comes before 3: it has fewer ones.
    let found = |c| Some(satmegwo::Nonlinearity { figure: 2, c, w: 0, b: 0, limit: 2 });
    assert_eq!([merged(&found(3), &found(4)), merged(&found(4), &found(3))], [Ok(found(4)), Ok(found(4))]);
    assert_eq!([merged(&None, &found(3)), merged(&found(3), &None)], [Ok(found(3)), Ok(found(3))]);
    assert_eq!(merged::<satmegwo::Nonlinearity>(&None, &None), Ok(None));
    let (one, two) = (sum_nonlinearity(&[&sbox], 1).ok(), sum_nonlinearity(&[&sbox; 2], 1).ok());
    assert_eq!([merged(&one, &two), merged(&two, &one)], [Err(Refusal::ReadLength), Err(Refusal::ReadLength)]);
    assert_eq!(merged(&None, &two), Ok(two));
}

/// Parts of one figure have one limit, and of a dynamic distance one order: others are no parts of it.
#[test]
fn parts_of_different_limits_are_not_merged() {
    let sbox = example();
    let least = |i| sbox.nonlinearity_between(i, 1..=7).unwrap();
    assert_eq!(merged(&least(2), &least(3)), Err(Refusal::Parameter));
    assert_eq!(merged(&least(2), &least(2)), Ok(least(2)));
    let distance = |i, j| sbox.dynamic_distance_between(i, j, 1..=7).unwrap();
    assert_eq!(merged(&distance(2, 1), &distance(2, 2)), Err(Refusal::Parameter));
    assert_eq!(merged(&distance(2, 2), &None), Ok(distance(2, 2)));
}

/// Each figure says the limit that it was asked for with, in parts and on a server too.
#[test]
fn figures_carry_their_limit() {
    let sbox = example();
    for i in 1..=3 {
        let limits = [
            sbox.nonlinearity(i).unwrap().limit,
            sbox.autocorrelation(i).unwrap().limit,
            sbox.degree(i).unwrap().limit,
            sbox.dynamic_distance(i, 2).unwrap().limit,
            sum_nonlinearity(&[&sbox], i).unwrap().limit,
            sbox.nonlinearity_between(i, 1..=7).unwrap().unwrap().limit,
            sbox.autocorrelation_between(i, 1..=7).unwrap().unwrap().limit,
            sum_nonlinearity_between(&[&sbox], i, 1..=7).unwrap().unwrap().limit,
        ];
        assert_eq!(limits, [i; 8]);
        let distance = sbox.dynamic_distance_between(i, 2, 1..=7).unwrap().unwrap();
        assert_eq!((distance.limit, distance.flips, sbox.dynamic_distance(3, i).unwrap().flips), (i, 2, i));
    }
    let mut server = Server::begin();
    server.put(8, &Sbox::new(2, 1, [0, 0, 0, 1]).unwrap()).unwrap();
    server.run(1);
    assert_eq!(server.ask(8).unwrap().unwrap().limit, 1);
}

/// A refused box, file or table says which number, row or value met the condition.
#[test]
fn refusals_say_what_met_their_condition() {
    let said = |result: Result<Sbox, satmegwo::DetailedRefusal>| result.unwrap_err().detail;
    assert_eq!(said(Sbox::new(9, 3, [0])), Detail::Inputs(9));
    assert_eq!(said(Sbox::new(3, 33, [0])), Detail::Outputs(33));
    assert_eq!(said(Sbox::new(3, 3, [0; 7])), Detail::Rows { given: 7, inputs: 3 });
    assert_eq!(said(Sbox::new(1, 31, [1 << 31, u32::MAX])), Detail::Row { input: 0, value: 1 << 31, outputs: 31 });
    assert_eq!(said(Sbox::from_bytes(&[3])), Detail::Bytes { given: 1, inputs: None });
    assert_eq!(said(Sbox::from_bytes(&[8, 1, 0])), Detail::Bytes { given: 3, inputs: Some(8) });
    assert_eq!(said(Sbox::from_bytes(&[0, 1, 0])), Detail::Inputs(0));
    assert_eq!(said(Sbox::from_bytes(&[8, 33, 0])), Detail::Outputs(33));
    assert_eq!(said(Sbox::from_bytes(&[1, 9, 1, 0, 0, 0, 0, 2, 0, 0])), Detail::Row { input: 1, value: 512, outputs: 9 });
    let table = |n, values: &[u8]| TruthTable::new(n, values).unwrap_err().detail;
    assert_eq!(table(0, &[0]), Detail::Inputs(0));
    assert_eq!(table(2, &[0; 3]), Detail::TruthValues { given: 3, inputs: 2 });
    assert_eq!(table(2, &[0, 1, 0, 7]), Detail::TruthValue { input: 3, value: 7 });
    for (detail, text) in [
        (Detail::Inputs(9), "n is 9"),
        (Detail::Outputs(33), "m is 33"),
        (Detail::Rows { given: 7, inputs: 3 }, "7 rows are given, and 3 inputs need 8"),
        (Detail::Row { input: 0, value: 1 << 31, outputs: 31 }, "the row for input 0 is 2147483648, and 31 outputs end at 2147483647"),
        (Detail::TruthValues { given: 3, inputs: 2 }, "3 truth values are given, and 2 inputs need 4"),
        (Detail::TruthValue { input: 3, value: 7 }, "the truth value for input 3 is 7"),
        (Detail::Bytes { given: 3, inputs: Some(8) }, "3 bytes are given, and a box file of 8 inputs has 1026"),
        (Detail::Bytes { given: 1, inputs: None }, "1 bytes are given, and a box file has 10 or more"),
    ] {
        assert_eq!(detail.to_string(), text);
    }
    let whole = Sbox::new(3, 3, [0; 7]).unwrap_err();
    assert_eq!(whole.to_string(), format!("7 rows are given, and 3 inputs need 8 ({})", Refusal::ReadLength));
}

/// A file that gives no box is named, with what is wrong with it; the longest is not read whole.
#[test]
fn a_file_that_gives_no_box_is_named() {
    let missing = Sbox::from_path("nowhere/a.box").unwrap_err();
    assert!(matches!(missing, FileError::Unreadable { .. }) && missing.to_string().starts_with("nowhere/a.box: "));
    let text = Sbox::from_path(concat!(env!("CARGO_MANIFEST_DIR"), "/Cargo.toml")).unwrap_err();
    assert!(text.path().ends_with("Cargo.toml") && text.to_string().contains("Cargo.toml: n is 91 (refused 1: "), "{text}");
    let endless = Sbox::from_path("/dev/zero").unwrap_err();
    assert!(matches!(endless, FileError::Refused { error, .. } if error.refusal == Refusal::InputWidth));
}

/// A box and a truth table are looked up, counted and looped over like slices.
#[test]
fn tables_are_looked_up_by_their_input() {
    let sbox = example();
    assert_eq!((sbox[0], sbox[7], sbox.len()), (3, 7, 8));
    assert_eq!(sbox.iter().rev().collect::<Vec<u32>>(), [7, 6, 5, 2, 0, 4, 1, 3]);
    let mut sum = 0;
    for row in &sbox {
        sum += row;
    }
    assert_eq!((sum, AsRef::<[u32]>::as_ref(&sbox)), (28, sbox.rows()));
    let table = TruthTable::new(1, [0, 1]).unwrap();
    assert_eq!((table[1], table.len(), table.iter().sum::<u8>(), table.into_iter().count()), (1, 2, 1, 2));
    assert!(std::panic::catch_unwind(|| example()[8]).is_err());
}

/// Calls share nothing: the same from many threads at once.
#[test]
fn calls_run_side_by_side() {
    let boxes = stored();
    std::thread::scope(|scope| {
        for _ in 0..4 {
            scope.spawn(|| {
                boxes.iter().for_each(|(path, sbox)| assert_eq!(sbox.sheet(), fs::read_to_string(path.with_extension("sheet")).unwrap()))
            });
        }
    });
}
