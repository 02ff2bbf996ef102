//! The plain C peers of peers/, and safe faces for them. A face makes sure of the lengths; that rows
//! lie below 2^m and limits in their ranges is for the caller, as in C.
use satmegwo::raw::Server;
use std::mem::MaybeUninit;

#[rustfmt::skip]
mod raw {
    use satmegwo::raw::Server;

    #[link(name = "peers", kind = "static")]
    extern "C" {
        pub fn peer_prepare();
        pub fn peer_nonlinearity(n: u32, m: u32, rows: *const u32, i: u32, figures: *mut u32);
        pub fn peer_autocorrelation(n: u32, m: u32, rows: *const u32, i: u32, figures: *mut u32);
        pub fn peer_distance(n: u32, m: u32, rows: *const u32, i: u32, j: u32, figures: *mut u32);
        pub fn peer_largest_cell(n: u32, m: u32, rows: *const u32, figures: *mut u32);
        pub fn peer_largest_cells(n: u32, m: u32, rows: *const u32, list: *mut u64) -> u32;
        pub fn peer_degree(n: u32, m: u32, rows: *const u32, i: u32, figures: *mut u32);
        pub fn peer_degree_by_equations(n: u32, m: u32, rows: *const u32, figures: *mut u32);
        pub fn peer_complete(n: u32, m: u32, rows: *const u32) -> u32;
        pub fn peer_bijective(n: u32, m: u32, rows: *const u32) -> u32;
        pub fn peer_sum_of_four(n: u32, m: u32, rows: *const u32, i: u32, figures: *mut u32);
        pub fn peer_raising_swap(n: u32, m: u32, rows: *const u32, figures: *mut u32);
        pub fn peer_pack(n: u32, m: u32, rows: *const u32, packed: *mut u8);
        pub fn peer_unpack(n: u32, m: u32, packed: *const u8, rows: *mut u32);
        pub fn peer_check_catalogue(catalogue: *const u8, size: usize, records: *mut u32) -> u32;
        pub fn peer_add_record(catalogue: *mut u8, size: usize, file: *const u8, length: usize, index: *mut u32) -> u32;
        pub fn peer_remove_record(catalogue: *mut u8, size: usize, index: u32) -> u32;
        pub fn peer_compact_catalogue(catalogue: *mut u8, size: usize) -> u32;
        pub fn peer_server_begin(server: *mut Server);
        pub fn peer_server_put(server: *mut Server, place: u32, n: u32, m: u32, rows: *const u32);
        pub fn peer_server_run(server: *mut Server, steps: u32);
        pub fn peer_server_ask(server: *const Server, place: u32, figures: *mut u32);
    }
}

/// The entries of the longest list of cells: one for each pair of inputs and each difference.
pub const MOST_CELLS: usize = 255 * 128;

/// To be called before any other peer.
pub fn prepare() {
    unsafe { raw::peer_prepare() }
}

/// Where an array begins that must have so many entries.
fn read<T>(lent: &[T], length: usize) -> *const T {
    assert_eq!(lent.len(), length, "a peer was lent an array of another length");
    lent.as_ptr()
}

fn written<T>(lent: &mut [T], length: usize) -> *mut T {
    assert_eq!(lent.len(), length, "a peer was lent an array of another length");
    lent.as_mut_ptr()
}

// The pointers below come from slices that live for the whole call; the peers keep none of them.

pub fn nonlinearity(n: u32, m: u32, rows: &[u32], i: u32, figures: &mut [u32]) {
    unsafe { raw::peer_nonlinearity(n, m, read(rows, 1 << n), i, written(figures, 4)) }
}

pub fn autocorrelation(n: u32, m: u32, rows: &[u32], i: u32, figures: &mut [u32]) {
    unsafe { raw::peer_autocorrelation(n, m, read(rows, 1 << n), i, written(figures, 3)) }
}

pub fn distance(n: u32, m: u32, rows: &[u32], i: u32, j: u32, figures: &mut [u32]) {
    unsafe { raw::peer_distance(n, m, read(rows, 1 << n), i, j, written(figures, 3)) }
}

pub fn largest_cell(n: u32, m: u32, rows: &[u32], figures: &mut [u32]) {
    unsafe { raw::peer_largest_cell(n, m, read(rows, 1 << n), written(figures, 3)) }
}

pub fn largest_cells(n: u32, m: u32, rows: &[u32], list: &mut [u64]) -> u32 {
    unsafe { raw::peer_largest_cells(n, m, read(rows, 1 << n), written(list, MOST_CELLS)) }
}

pub fn degree(n: u32, m: u32, rows: &[u32], i: u32, figures: &mut [u32]) {
    unsafe { raw::peer_degree(n, m, read(rows, 1 << n), i, written(figures, 2)) }
}

pub fn degree_by_equations(n: u32, m: u32, rows: &[u32], figures: &mut [u32]) {
    unsafe { raw::peer_degree_by_equations(n, m, read(rows, 1 << n), written(figures, 2)) }
}

pub fn complete(n: u32, m: u32, rows: &[u32]) -> u32 {
    unsafe { raw::peer_complete(n, m, read(rows, 1 << n)) }
}

pub fn bijective(n: u32, m: u32, rows: &[u32]) -> u32 {
    unsafe { raw::peer_bijective(n, m, read(rows, 1 << n)) }
}

/// The rows of four boxes stand one after the other.
pub fn sum_of_four(n: u32, m: u32, rows: &[u32], i: u32, figures: &mut [u32]) {
    unsafe { raw::peer_sum_of_four(n, m, read(rows, 4 << n), i, written(figures, 7)) }
}

pub fn raising_swap(n: u32, m: u32, rows: &[u32], figures: &mut [u32]) {
    unsafe { raw::peer_raising_swap(n, m, read(rows, 1 << n), written(figures, 4)) }
}

fn packed_length(n: u32, m: u32) -> usize {
    m as usize * (1 << n.saturating_sub(3))
}

pub fn pack(n: u32, m: u32, rows: &[u32], packed: &mut [u8]) {
    unsafe { raw::peer_pack(n, m, read(rows, 1 << n), written(packed, packed_length(n, m))) }
}

pub fn unpack(n: u32, m: u32, packed: &[u8], rows: &mut [u32]) {
    unsafe { raw::peer_unpack(n, m, read(packed, packed_length(n, m)), written(rows, 1 << n)) }
}

pub fn check_catalogue(catalogue: &[u8], records: &mut u32) -> u32 {
    unsafe { raw::peer_check_catalogue(catalogue.as_ptr(), catalogue.len(), records) }
}

pub fn add_record(catalogue: &mut [u8], file: &[u8], index: &mut u32) -> u32 {
    unsafe { raw::peer_add_record(catalogue.as_mut_ptr(), catalogue.len(), file.as_ptr(), file.len(), index) }
}

pub fn remove_record(catalogue: &mut [u8], index: u32) -> u32 {
    unsafe { raw::peer_remove_record(catalogue.as_mut_ptr(), catalogue.len(), index) }
}

pub fn compact_catalogue(catalogue: &mut [u8]) -> u32 {
    unsafe { raw::peer_compact_catalogue(catalogue.as_mut_ptr(), catalogue.len()) }
}

pub fn server_begin() -> Server {
    let mut server = MaybeUninit::uninit();
    // The peer writes every byte of it.
    unsafe {
        raw::peer_server_begin(server.as_mut_ptr());
        server.assume_init()
    }
}

pub fn server_put(server: &mut Server, place: u32, n: u32, m: u32, rows: &[u32]) {
    assert!((1..=8).contains(&place));
    unsafe { raw::peer_server_put(server, place, n, m, read(rows, 1 << n)) }
}

pub fn server_run(server: &mut Server, steps: u32) {
    unsafe { raw::peer_server_run(server, steps) }
}

pub fn server_ask(server: &Server, place: u32, figures: &mut [u32]) {
    assert!((1..=8).contains(&place));
    unsafe { raw::peer_server_ask(server, place, written(figures, 5)) }
}
