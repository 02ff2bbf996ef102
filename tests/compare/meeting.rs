//! Calls that meet: two threads make one call again and again, each with arrays of its own, and each must
//! answer as it does alone. What one of them kept where the other finds it would show here.
use crate::calls::Run;
use crate::pages::processor_time;
use satmegwo::slices::{self as library, design, server};
use second_model::boxes;
use second_model::catalogue::FIRST;
use second_model::model::{self, all_outputs};
use second_model::sheet;
use std::fmt::Debug;
use std::sync::atomic::{AtomicBool, Ordering::Relaxed};
use std::sync::Barrier;

/// How long a thread makes one call at least, in seconds of its own.
const LONG: f64 = 0.03;

pub fn all(run: &mut Run) {
    let rows = [boxes::random_rows(8, 8, &mut run.random), boxes::affine_columns(8, 8, &mut run.random)];
    figures(run, &rows);
    lists(run, &rows);
    made_boxes(run, &rows);
    truth_tables(run);
    files(run, &rows);
    catalogues(run, &rows);
    designs(run, &rows);
    servers(run, &rows);
}

/// The call of this name, made by two threads: 0 and 1 choose what each hands over.
fn meet<A: PartialEq + Debug + Send + Sync>(run: &mut Run, name: &'static str, call: impl Fn(usize) -> A + Sync) {
    run.calling(name);
    let alone = [call(0), call(1)];
    let (start, done) = (Barrier::new(2), [AtomicBool::new(false), AtomicBool::new(false)]);
    let other_answer = |k: usize| {
        start.wait();
        let began = processor_time();
        // Whoever has made the call long enough goes on until the other has, too.
        while !done.iter().all(|one| one.load(Relaxed)) {
            for _ in 0..10 {
                let answer = call(k);
                if answer != alone[k] {
                    done.iter().for_each(|one| one.store(true, Relaxed));
                    return Some(answer);
                }
            }
            if processor_time() - began >= LONG {
                done[k].store(true, Relaxed);
            }
        }
        None
    };
    let beside = std::thread::scope(|scope| {
        let other_answer = &other_answer;
        let threads = [0, 1].map(|k| scope.spawn(move || other_answer(k)));
        threads.map(|thread| thread.join().expect("no call ends a thread"))
    });
    for (answer, alone) in beside.into_iter().zip(&alone) {
        run.law("a call that meets another", answer.is_none(), || format!("{name}: {alone:?} alone, and beside another {answer:?}"));
    }
}

/// Boxes of 8 by 8: one at random, and one whose figures are the worst that there are, so that the first
/// cannot be taken for it in the middle of a call and answer as before.
type Two = [Vec<u32>; 2];

fn figures(run: &mut Run, rows: &Two) {
    fn told<const LENGTH: usize>(call: impl Fn(&mut [u32]) -> u32) -> (u32, [u32; LENGTH]) {
        let mut figures = [0; LENGTH];
        (call(&mut figures), figures)
    }
    meet(run, "check_box", |k| library::check_box(8, 8, &rows[k][..255 + k]));
    meet(run, "nonlinearity", |k| told::<4>(|figures| library::nonlinearity(8, 8, &rows[k], 3, figures)));
    meet(run, "largest_cell", |k| told::<3>(|figures| library::largest_cell(8, 8, &rows[k], figures)));
    meet(run, "autocorrelation", |k| told::<3>(|figures| library::autocorrelation(8, 8, &rows[k], 2, figures)));
    meet(run, "dynamic_distance", |k| told::<3>(|figures| library::dynamic_distance(8, 8, &rows[k], 2, 3, figures)));
    meet(run, "degree", |k| told::<2>(|figures| library::degree(8, 8, &rows[k], 8, figures)));
    let identity: Vec<u32> = (0..256).collect();
    let unlike = [&rows[0], &identity];
    meet(run, "complete", |k| told::<1>(|figures| library::complete(8, 8, unlike[k], figures)));
    meet(run, "bijective", |k| told::<1>(|figures| library::bijective(8, 8, unlike[k], figures)));
    meet(run, "raising_swap", |k| told::<4>(|figures| library::raising_swap(4, 8, &rows[k][..16], figures)));
    meet(run, "nonlinearity_between", |k| told::<5>(|part| library::nonlinearity_between(8, 8, &rows[k], 3, 20, 90, part)));
    meet(run, "autocorrelation_between", |k| told::<4>(|part| library::autocorrelation_between(8, 8, &rows[k], 3, 20, 60, part)));
    meet(run, "dynamic_distance_between", |k| told::<4>(|part| library::dynamic_distance_between(8, 8, &rows[k], 3, 3, 20, 60, part)));
    meet(run, "sum_nonlinearity_between", |k| {
        told::<8>(|part| library::sum_nonlinearity_between(4, [(8, 8, &rows[k]); 4], 3, 20, 40, part))
    });
    let found = [[1, 7, 3, 9, 1], [1, 7, 4, 200, 0]];
    meet(run, "merge_least", |k| told::<5>(|merged| library::merge_least(&found[k], &[1, 7, 5, 1, 1], merged)));
    meet(run, "merge_largest", |k| told::<5>(|merged| library::merge_largest(&found[k], &[1, 7, 5, 1, 1], merged)));
    meet(run, "sum_nonlinearity", |k| told::<7>(|figures| library::sum_nonlinearity(4, [(8, 8, &rows[k]); 4], 2, figures)));
}

fn lists(run: &mut Run, rows: &Two) {
    meet(run, "nearest_pairs", |k| {
        let (mut list, mut number) = (vec![0; 1 << 12], [0]);
        (library::nearest_pairs(8, 8, &rows[k], 2, &mut list, &mut number), list, number)
    });
    meet(run, "largest_cells", |k| {
        let (mut list, mut number) = (vec![0; 1 << 9], [0]);
        (library::largest_cells(8, 8, &rows[k], &mut list, &mut number), list, number)
    });
    meet(run, "xor_row", |k| {
        let mut counts = [0; 256];
        (library::xor_row(8, 8, &rows[k], 77, &mut counts), counts)
    });
    meet(run, "component_spectrum", |k| {
        let mut values = [0; 256];
        (library::component_spectrum(8, 8, &rows[k], 77, &mut values), values)
    });
}

fn made_boxes(run: &mut Run, rows: &Two) {
    meet(run, "add_to_column", |k| {
        let mut out = [0; 256];
        (library::add_to_column(8, 8, &rows[k], 3, 77, 1, &mut out), out)
    });
    meet(run, "pack_columns", |k| {
        let mut packed = [0; 256];
        (library::pack_columns(8, 8, &rows[k], &mut packed), packed)
    });
    let bytes = rows.each_ref().map(|one| one.iter().map(|&row| row as u8).collect::<Vec<u8>>());
    meet(run, "unpack_columns", |k| {
        let mut out = [0; 256];
        (library::unpack_columns(8, 8, &bytes[k], &mut out), out)
    });
    let (narrow, table) = (rows.each_ref().map(|one| one[..128].iter().map(|row| row % 128).collect::<Vec<u32>>()), [1; 128]);
    meet(run, "enlarge_box", |k| {
        let mut out = [0; 256];
        (library::enlarge_box(7, &narrow[k], &table, 3, &mut out), out)
    });
}

fn truth_tables(run: &mut Run) {
    let tables = [(), ()].map(|()| boxes::random_table(8, &mut run.random));
    meet(run, "spectrum", |k| {
        let mut values = [0; 256];
        (library::spectrum(8, &tables[k], &mut values), values)
    });
    let values = tables.each_ref().map(|table| model::spectrum(8, table, 256).expect("nothing to refuse"));
    meet(run, "inverse_spectrum", |k| {
        let mut table = [0; 256];
        (library::inverse_spectrum(8, &values[k], &mut table), table)
    });
    meet(run, "normal_form", |k| {
        let mut form = [0; 256];
        (library::normal_form(8, &tables[k], &mut form), form)
    });
    meet(run, "enlarge_column", |k| {
        let mut out = [0; 256];
        (library::enlarge_column(7, &tables[k][..128], 2, 1, &mut out), out)
    });
    let permutations = [(), ()].map(|()| boxes::random_permutation(4, &mut run.random));
    meet(run, "bent_function", |k| {
        let mut out = [0; 256];
        (library::bent_function(8, &permutations[k], &tables[k][..16], &mut out), out)
    });
}

fn files(run: &mut Run, rows: &Two) {
    meet(run, "version", |_| library::version());
    meet(run, "write_box", |k| {
        let mut file = [0; 1026];
        (library::write_box(8, 8, &rows[k], &mut file), file)
    });
    let files = rows.each_ref().map(|one| model::file_of(8, 8, one));
    meet(run, "read_box", |k| {
        let (mut out, mut widths) = ([0; 256], [0; 2]);
        (library::read_box(&files[k], &mut out, &mut widths), out, widths)
    });
    meet(run, "sheet", |k| {
        let (mut text, mut length) = ([0; sheet::BYTES], [0]);
        (library::sheet(&files[k], &mut text, &mut length), text, length)
    });
}

fn catalogues(run: &mut Run, rows: &Two) {
    let files = rows.each_ref().map(|one| model::file_of(5, 8, &one[..32]));
    let added = |k: usize| {
        let (mut catalogue, mut index) = (vec![0; FIRST + 300 + k], [7]);
        (library::add_record(&mut catalogue, &files[k], &mut index), catalogue, index)
    };
    meet(run, "add_record", added);
    let catalogues = [added(0).1, vec![0; FIRST]];
    meet(run, "check_catalogue", |k| {
        let mut number = [7];
        (library::check_catalogue(&catalogues[k], &mut number), number)
    });
    meet(run, "fetch_record", |k| {
        let mut place = [7; 2];
        (library::fetch_record(&catalogues[k], 0, &mut place), place)
    });
    meet(run, "remove_record", |k| {
        let mut catalogue = catalogues[k].clone();
        (library::remove_record(&mut catalogue, 0), catalogue)
    });
    meet(run, "compact_catalogue", |k| {
        let mut catalogue = catalogues[k].clone();
        (library::compact_catalogue(&mut catalogue), catalogue)
    });
}

fn designs(run: &mut Run, rows: &Two) {
    meet(run, "design_begin", |k| design::begin(8, 8, &rows[k]));
    let begun = rows.each_ref().map(|one| design::begin(8, 8, one).design);
    meet(run, "design_swap", |k| design::swap(begun[k], 3, 200));
    meet(run, "design_add", |k| design::add(begun[k], 3, 77, 1));
    meet(run, "design_mark", |k| design::mark(begun[k], 4));
    let marked = begun.map(|one| design::swap(design::mark(one, 4).design, 3, 200).design);
    meet(run, "design_return", |k| design::return_to(marked[k], 4));
    meet(run, "design_read", |k| {
        let (mut out, mut widths) = ([0; 256], [0; 2]);
        (design::read(begun[k], &mut out, &mut widths), out, widths)
    });
}

fn servers(run: &mut Run, rows: &Two) {
    meet(run, "server_begin", |_| server::begin());
    meet(run, "server_put", |k| server::put(server::begin(), 2, 8, 8, &rows[k]));
    let served = rows.each_ref().map(|one| server::put(server::begin(), 2, 8, 8, one).server);
    meet(run, "server_step", |k| server::step(served[k]));
    meet(run, "server_run", |k| server::run(served[k], 20));
    meet(run, "server_withdraw", |k| server::withdraw(served[k], 2));
    let finished = served.map(|one| server::run(one, all_outputs(8)));
    meet(run, "server_ask", |k| {
        let mut figures = [0; 5];
        (server::ask(finished[k], 2, &mut figures), figures)
    });
}
