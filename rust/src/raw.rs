//! The library's calls as the headers declare them, and nothing else: pointers, lengths and structs.
//!
//! What each of them reads and writes, and which refusals it gives, stands in `include/satmegwo.h`,
//! `include/satmegwo_parts.h`, `include/satmegwo_design.h` and `include/satmegwo_server.h`.
//! [`crate::slices`] has the same calls without pointers, and [`crate::Sbox`] and its neighbours have
//! them with results.
//!
//! # Safety
//!
//! For every call below: a pointer and the length behind it are an array that may be read, or where
//! the pointer is `*mut` written, for the whole call (with the length 0 any pointer will do), and an
//! array that is written overlaps no other of the same call. No call keeps a pointer.
#![allow(missing_docs, clippy::missing_safety_doc)]

/// The most rows of a box, and so the length of the arrays in a design and a server.
pub const MOST_ROWS: usize = 256;
/// Marks of a design are numbered from 1 to this.
pub const MARKS: usize = 16;
/// Places of a server are numbered from 1 to this.
pub const PLACES: usize = 8;

/// What a mark keeps: `satmegwo_design_snapshot`.
#[repr(C)]
#[derive(Clone, Copy, Debug, PartialEq, Eq)]
pub struct DesignSnapshot {
    pub taken: u32,
    pub rows: [u32; MOST_ROWS],
}

/// `satmegwo_design`.
#[repr(C)]
#[derive(Clone, Copy, Debug, PartialEq, Eq)]
pub struct Design {
    pub n: u32,
    pub m: u32,
    pub rows: [u32; MOST_ROWS],
    pub marks: [DesignSnapshot; MARKS],
}

/// `satmegwo_design_outcome`.
#[repr(C)]
#[derive(Clone, Copy, Debug, PartialEq, Eq)]
pub struct DesignOutcome {
    pub design: Design,
    pub status: u32,
}

/// What a place holds: `satmegwo_server_place`.
#[repr(C)]
#[derive(Clone, Copy, Debug, PartialEq, Eq)]
pub struct ServerPlace {
    pub taken: u32,
    pub n: u32,
    pub m: u32,
    pub rows: [u32; MOST_ROWS],
    pub examined: u32,
    pub count: u32,
    pub c: u32,
    pub w: u32,
    pub b: u32,
}

/// `satmegwo_server`.
#[repr(C)]
#[derive(Clone, Copy, Debug, PartialEq, Eq)]
pub struct Server {
    pub places: [ServerPlace; PLACES],
    pub last: u32,
}

/// `satmegwo_server_outcome`.
#[repr(C)]
#[derive(Clone, Copy, Debug, PartialEq, Eq)]
pub struct ServerOutcome {
    pub server: Server,
    pub status: u32,
}

#[link(name = "satmegwo", kind = "static")]
extern "C" {
    pub fn satmegwo_version() -> u32;
    pub fn satmegwo_spectrum(n: u32, table: *const u8, table_len: usize, out: *mut i32, out_len: usize) -> u32;
    pub fn satmegwo_inverse_spectrum(n: u32, values: *const i32, values_len: usize, table: *mut u8, table_len: usize) -> u32;
    pub fn satmegwo_component_spectrum(n: u32, m: u32, rows: *const u32, rows_len: usize, c: u32, out: *mut i32, out_len: usize) -> u32;
    pub fn satmegwo_nonlinearity(n: u32, m: u32, rows: *const u32, rows_len: usize, i: u32, figures: *mut u32, figures_len: usize) -> u32;
    pub fn satmegwo_nearest_pairs(
        n: u32,
        m: u32,
        rows: *const u32,
        rows_len: usize,
        i: u32,
        list: *mut u64,
        list_len: usize,
        figures: *mut u64,
        figures_len: usize,
    ) -> u32;
    pub fn satmegwo_add_to_column(
        n: u32,
        m: u32,
        rows: *const u32,
        rows_len: usize,
        j: u32,
        w: u32,
        b: u32,
        out: *mut u32,
        out_len: usize,
    ) -> u32;
    pub fn satmegwo_xor_row(n: u32, m: u32, rows: *const u32, rows_len: usize, a: u32, counts: *mut u16, counts_len: usize) -> u32;
    pub fn satmegwo_largest_cell(n: u32, m: u32, rows: *const u32, rows_len: usize, figures: *mut u32, figures_len: usize) -> u32;
    pub fn satmegwo_largest_cells(
        n: u32,
        m: u32,
        rows: *const u32,
        rows_len: usize,
        list: *mut u64,
        list_len: usize,
        figures: *mut u32,
        figures_len: usize,
    ) -> u32;
    pub fn satmegwo_autocorrelation(
        n: u32,
        m: u32,
        rows: *const u32,
        rows_len: usize,
        i: u32,
        figures: *mut u32,
        figures_len: usize,
    ) -> u32;
    pub fn satmegwo_dynamic_distance(
        n: u32,
        m: u32,
        rows: *const u32,
        rows_len: usize,
        i: u32,
        j: u32,
        figures: *mut u32,
        figures_len: usize,
    ) -> u32;
    pub fn satmegwo_normal_form(n: u32, table: *const u8, table_len: usize, out: *mut u8, out_len: usize) -> u32;
    pub fn satmegwo_degree(n: u32, m: u32, rows: *const u32, rows_len: usize, i: u32, figures: *mut u32, figures_len: usize) -> u32;
    pub fn satmegwo_complete(n: u32, m: u32, rows: *const u32, rows_len: usize, figures: *mut u32, figures_len: usize) -> u32;
    pub fn satmegwo_bijective(n: u32, m: u32, rows: *const u32, rows_len: usize, figures: *mut u32, figures_len: usize) -> u32;
    pub fn satmegwo_enlarge_column(n: u32, table: *const u8, table_len: usize, k: u32, a: u32, out: *mut u8, out_len: usize) -> u32;
    pub fn satmegwo_enlarge_box(
        n: u32,
        rows: *const u32,
        rows_len: usize,
        table: *const u8,
        table_len: usize,
        k: u32,
        out: *mut u32,
        out_len: usize,
    ) -> u32;
    pub fn satmegwo_bent_function(
        n: u32,
        permutation: *const u8,
        permutation_len: usize,
        table: *const u8,
        table_len: usize,
        out: *mut u8,
        out_len: usize,
    ) -> u32;
    pub fn satmegwo_check_box(n: u32, m: u32, rows: *const u32, rows_len: usize) -> u32;
    pub fn satmegwo_read_box(
        file: *const u8,
        file_len: usize,
        rows: *mut u32,
        rows_len: usize,
        figures: *mut u32,
        figures_len: usize,
    ) -> u32;
    pub fn satmegwo_write_box(n: u32, m: u32, rows: *const u32, rows_len: usize, file: *mut u8, file_len: usize) -> u32;
    pub fn satmegwo_sheet(file: *const u8, file_len: usize, text: *mut u8, text_len: usize, figures: *mut u32, figures_len: usize) -> u32;
    pub fn satmegwo_sum_nonlinearity(
        count: u32,
        n1: u32,
        m1: u32,
        rows1: *const u32,
        rows1_len: usize,
        n2: u32,
        m2: u32,
        rows2: *const u32,
        rows2_len: usize,
        n3: u32,
        m3: u32,
        rows3: *const u32,
        rows3_len: usize,
        n4: u32,
        m4: u32,
        rows4: *const u32,
        rows4_len: usize,
        i: u32,
        figures: *mut u32,
        figures_len: usize,
    ) -> u32;
    pub fn satmegwo_check_catalogue(catalogue: *const u8, catalogue_len: usize, figures: *mut u32, figures_len: usize) -> u32;
    pub fn satmegwo_add_record(
        catalogue: *mut u8,
        catalogue_len: usize,
        file: *const u8,
        file_len: usize,
        figures: *mut u32,
        figures_len: usize,
    ) -> u32;
    pub fn satmegwo_remove_record(catalogue: *mut u8, catalogue_len: usize, index: u32) -> u32;
    pub fn satmegwo_fetch_record(catalogue: *const u8, catalogue_len: usize, index: u32, figures: *mut u32, figures_len: usize) -> u32;
    pub fn satmegwo_compact_catalogue(catalogue: *mut u8, catalogue_len: usize) -> u32;
    pub fn satmegwo_pack_columns(n: u32, m: u32, rows: *const u32, rows_len: usize, packed: *mut u8, packed_len: usize) -> u32;
    pub fn satmegwo_unpack_columns(n: u32, m: u32, packed: *const u8, packed_len: usize, rows: *mut u32, rows_len: usize) -> u32;
    pub fn satmegwo_raising_swap(n: u32, m: u32, rows: *const u32, rows_len: usize, figures: *mut u32, figures_len: usize) -> u32;
}

#[link(name = "satmegwo_parts", kind = "static")]
extern "C" {
    pub fn satmegwo_nonlinearity_between(
        n: u32,
        m: u32,
        rows: *const u32,
        rows_len: usize,
        i: u32,
        first: u32,
        last: u32,
        part: *mut u32,
        part_len: usize,
    ) -> u32;
    pub fn satmegwo_autocorrelation_between(
        n: u32,
        m: u32,
        rows: *const u32,
        rows_len: usize,
        i: u32,
        first: u32,
        last: u32,
        part: *mut u32,
        part_len: usize,
    ) -> u32;
    pub fn satmegwo_dynamic_distance_between(
        n: u32,
        m: u32,
        rows: *const u32,
        rows_len: usize,
        i: u32,
        j: u32,
        first: u32,
        last: u32,
        part: *mut u32,
        part_len: usize,
    ) -> u32;
    pub fn satmegwo_sum_nonlinearity_between(
        count: u32,
        n1: u32,
        m1: u32,
        rows1: *const u32,
        rows1_len: usize,
        n2: u32,
        m2: u32,
        rows2: *const u32,
        rows2_len: usize,
        n3: u32,
        m3: u32,
        rows3: *const u32,
        rows3_len: usize,
        n4: u32,
        m4: u32,
        rows4: *const u32,
        rows4_len: usize,
        i: u32,
        first: u32,
        last: u32,
        part: *mut u32,
        part_len: usize,
    ) -> u32;
    pub fn satmegwo_merge_least(x: *const u32, x_len: usize, y: *const u32, y_len: usize, merged: *mut u32, merged_len: usize) -> u32;
    pub fn satmegwo_merge_largest(x: *const u32, x_len: usize, y: *const u32, y_len: usize, merged: *mut u32, merged_len: usize) -> u32;
}

#[link(name = "satmegwo_design", kind = "static")]
extern "C" {
    pub fn satmegwo_design_begin(n: u32, m: u32, rows: *const u32, rows_len: usize) -> DesignOutcome;
    pub fn satmegwo_design_swap(design: Design, x: u32, y: u32) -> DesignOutcome;
    pub fn satmegwo_design_add(design: Design, j: u32, w: u32, b: u32) -> DesignOutcome;
    pub fn satmegwo_design_mark(design: Design, k: u32) -> DesignOutcome;
    pub fn satmegwo_design_return(design: Design, k: u32) -> DesignOutcome;
    pub fn satmegwo_design_read(design: Design, rows: *mut u32, rows_len: usize, figures: *mut u32, figures_len: usize) -> u32;
}

#[link(name = "satmegwo_server", kind = "static")]
extern "C" {
    pub fn satmegwo_server_begin() -> Server;
    pub fn satmegwo_server_put(server: Server, place: u32, n: u32, m: u32, rows: *const u32, rows_len: usize) -> ServerOutcome;
    pub fn satmegwo_server_withdraw(server: Server, place: u32) -> ServerOutcome;
    pub fn satmegwo_server_step(server: Server) -> Server;
    pub fn satmegwo_server_run(server: Server, budget: u32) -> Server;
    pub fn satmegwo_server_ask(server: Server, place: u32, figures: *mut u32, figures_len: usize) -> u32;
}
