//! One function for each of the library's calls, with slices in place of pointers and lengths. Each
//! returns 0, or the number of a refusal, and has written to no slice then.
//!
//! Nothing is allocated here and every argument may be wrong: this is what C callers have, with the
//! lifetimes checked. `include/satmegwo.h` and the headers beside it say what each reads and writes.
//! [`crate::Sbox`] and its neighbours have the same calls with results in place of numbers.
//!
//! ```
//! let mut figures = [0; 4];
//! let number = satmegwo::slices::nonlinearity(3, 3, &[3, 1, 4, 0, 2, 5, 6, 7], 2, &mut figures);
//! assert_eq!((number, figures), (0, [2, 1, 1, 0]));
//! let number = satmegwo::slices::nonlinearity(3, 3, &[3, 1, 4, 0, 2, 5, 6, 7], 2, &mut figures[..3]);
//! assert_eq!(number, 7);
//! ```
#![allow(missing_docs)] // the header has a paragraph on each
#![allow(unsafe_code)]
// The pointers below come from slices that live for the whole call and are passed with their own
// lengths; what is written is borrowed for that alone, so that it overlaps nothing; and the library
// keeps no pointer.
use crate::raw;

#[inline]
pub fn version() -> u32 {
    unsafe { raw::satmegwo_version() }
}

#[inline]
pub fn spectrum(n: u32, table: &[u8], out: &mut [i32]) -> u32 {
    unsafe { raw::satmegwo_spectrum(n, table.as_ptr(), table.len(), out.as_mut_ptr(), out.len()) }
}

#[inline]
pub fn inverse_spectrum(n: u32, values: &[i32], table: &mut [u8]) -> u32 {
    unsafe { raw::satmegwo_inverse_spectrum(n, values.as_ptr(), values.len(), table.as_mut_ptr(), table.len()) }
}

#[inline]
pub fn component_spectrum(n: u32, m: u32, rows: &[u32], c: u32, out: &mut [i32]) -> u32 {
    unsafe { raw::satmegwo_component_spectrum(n, m, rows.as_ptr(), rows.len(), c, out.as_mut_ptr(), out.len()) }
}

#[inline]
pub fn nonlinearity(n: u32, m: u32, rows: &[u32], i: u32, figures: &mut [u32]) -> u32 {
    unsafe { raw::satmegwo_nonlinearity(n, m, rows.as_ptr(), rows.len(), i, figures.as_mut_ptr(), figures.len()) }
}

#[inline]
pub fn nearest_pairs(n: u32, m: u32, rows: &[u32], i: u32, list: &mut [u64], figures: &mut [u64]) -> u32 {
    unsafe {
        raw::satmegwo_nearest_pairs(n, m, rows.as_ptr(), rows.len(), i, list.as_mut_ptr(), list.len(), figures.as_mut_ptr(), figures.len())
    }
}

#[inline]
pub fn add_to_column(n: u32, m: u32, rows: &[u32], j: u32, w: u32, b: u32, out: &mut [u32]) -> u32 {
    unsafe { raw::satmegwo_add_to_column(n, m, rows.as_ptr(), rows.len(), j, w, b, out.as_mut_ptr(), out.len()) }
}

#[inline]
pub fn xor_row(n: u32, m: u32, rows: &[u32], a: u32, counts: &mut [u16]) -> u32 {
    unsafe { raw::satmegwo_xor_row(n, m, rows.as_ptr(), rows.len(), a, counts.as_mut_ptr(), counts.len()) }
}

#[inline]
pub fn largest_cell(n: u32, m: u32, rows: &[u32], figures: &mut [u32]) -> u32 {
    unsafe { raw::satmegwo_largest_cell(n, m, rows.as_ptr(), rows.len(), figures.as_mut_ptr(), figures.len()) }
}

#[inline]
pub fn largest_cells(n: u32, m: u32, rows: &[u32], list: &mut [u64], figures: &mut [u32]) -> u32 {
    unsafe {
        raw::satmegwo_largest_cells(n, m, rows.as_ptr(), rows.len(), list.as_mut_ptr(), list.len(), figures.as_mut_ptr(), figures.len())
    }
}

#[inline]
pub fn autocorrelation(n: u32, m: u32, rows: &[u32], i: u32, figures: &mut [u32]) -> u32 {
    unsafe { raw::satmegwo_autocorrelation(n, m, rows.as_ptr(), rows.len(), i, figures.as_mut_ptr(), figures.len()) }
}

#[inline]
pub fn dynamic_distance(n: u32, m: u32, rows: &[u32], i: u32, j: u32, figures: &mut [u32]) -> u32 {
    unsafe { raw::satmegwo_dynamic_distance(n, m, rows.as_ptr(), rows.len(), i, j, figures.as_mut_ptr(), figures.len()) }
}

#[inline]
pub fn normal_form(n: u32, table: &[u8], out: &mut [u8]) -> u32 {
    unsafe { raw::satmegwo_normal_form(n, table.as_ptr(), table.len(), out.as_mut_ptr(), out.len()) }
}

#[inline]
pub fn degree(n: u32, m: u32, rows: &[u32], i: u32, figures: &mut [u32]) -> u32 {
    unsafe { raw::satmegwo_degree(n, m, rows.as_ptr(), rows.len(), i, figures.as_mut_ptr(), figures.len()) }
}

#[inline]
pub fn complete(n: u32, m: u32, rows: &[u32], figures: &mut [u32]) -> u32 {
    unsafe { raw::satmegwo_complete(n, m, rows.as_ptr(), rows.len(), figures.as_mut_ptr(), figures.len()) }
}

#[inline]
pub fn bijective(n: u32, m: u32, rows: &[u32], figures: &mut [u32]) -> u32 {
    unsafe { raw::satmegwo_bijective(n, m, rows.as_ptr(), rows.len(), figures.as_mut_ptr(), figures.len()) }
}

#[inline]
pub fn enlarge_column(n: u32, table: &[u8], k: u32, a: u32, out: &mut [u8]) -> u32 {
    unsafe { raw::satmegwo_enlarge_column(n, table.as_ptr(), table.len(), k, a, out.as_mut_ptr(), out.len()) }
}

#[inline]
pub fn enlarge_box(n: u32, rows: &[u32], table: &[u8], k: u32, out: &mut [u32]) -> u32 {
    unsafe { raw::satmegwo_enlarge_box(n, rows.as_ptr(), rows.len(), table.as_ptr(), table.len(), k, out.as_mut_ptr(), out.len()) }
}

#[inline]
pub fn bent_function(n: u32, permutation: &[u8], table: &[u8], out: &mut [u8]) -> u32 {
    unsafe {
        raw::satmegwo_bent_function(n, permutation.as_ptr(), permutation.len(), table.as_ptr(), table.len(), out.as_mut_ptr(), out.len())
    }
}

#[inline]
pub fn check_box(n: u32, m: u32, rows: &[u32]) -> u32 {
    unsafe { raw::satmegwo_check_box(n, m, rows.as_ptr(), rows.len()) }
}

#[inline]
pub fn read_box(file: &[u8], rows: &mut [u32], figures: &mut [u32]) -> u32 {
    unsafe { raw::satmegwo_read_box(file.as_ptr(), file.len(), rows.as_mut_ptr(), rows.len(), figures.as_mut_ptr(), figures.len()) }
}

#[inline]
pub fn write_box(n: u32, m: u32, rows: &[u32], file: &mut [u8]) -> u32 {
    unsafe { raw::satmegwo_write_box(n, m, rows.as_ptr(), rows.len(), file.as_mut_ptr(), file.len()) }
}

#[inline]
pub fn sheet(file: &[u8], text: &mut [u8], figures: &mut [u32]) -> u32 {
    unsafe { raw::satmegwo_sheet(file.as_ptr(), file.len(), text.as_mut_ptr(), text.len(), figures.as_mut_ptr(), figures.len()) }
}

/// One box as it is handed over: n, m and the rows.
pub type BoxLent<'a> = (u32, u32, &'a [u32]);

#[inline]
#[rustfmt::skip]
pub fn sum_nonlinearity(count: u32, boxes: [BoxLent; 4], i: u32, figures: &mut [u32]) -> u32 {
    let [(n1, m1, rows1), (n2, m2, rows2), (n3, m3, rows3), (n4, m4, rows4)] = boxes;
    unsafe {
        raw::satmegwo_sum_nonlinearity(
            count,
            n1, m1, rows1.as_ptr(), rows1.len(),
            n2, m2, rows2.as_ptr(), rows2.len(),
            n3, m3, rows3.as_ptr(), rows3.len(),
            n4, m4, rows4.as_ptr(), rows4.len(),
            i, figures.as_mut_ptr(), figures.len(),
        )
    }
}

#[inline]
pub fn check_catalogue(catalogue: &[u8], figures: &mut [u32]) -> u32 {
    unsafe { raw::satmegwo_check_catalogue(catalogue.as_ptr(), catalogue.len(), figures.as_mut_ptr(), figures.len()) }
}

#[inline]
pub fn add_record(catalogue: &mut [u8], file: &[u8], figures: &mut [u32]) -> u32 {
    unsafe {
        raw::satmegwo_add_record(catalogue.as_mut_ptr(), catalogue.len(), file.as_ptr(), file.len(), figures.as_mut_ptr(), figures.len())
    }
}

#[inline]
pub fn remove_record(catalogue: &mut [u8], index: u32) -> u32 {
    unsafe { raw::satmegwo_remove_record(catalogue.as_mut_ptr(), catalogue.len(), index) }
}

#[inline]
pub fn fetch_record(catalogue: &[u8], index: u32, figures: &mut [u32]) -> u32 {
    unsafe { raw::satmegwo_fetch_record(catalogue.as_ptr(), catalogue.len(), index, figures.as_mut_ptr(), figures.len()) }
}

#[inline]
pub fn compact_catalogue(catalogue: &mut [u8]) -> u32 {
    unsafe { raw::satmegwo_compact_catalogue(catalogue.as_mut_ptr(), catalogue.len()) }
}

#[inline]
pub fn pack_columns(n: u32, m: u32, rows: &[u32], packed: &mut [u8]) -> u32 {
    unsafe { raw::satmegwo_pack_columns(n, m, rows.as_ptr(), rows.len(), packed.as_mut_ptr(), packed.len()) }
}

#[inline]
pub fn unpack_columns(n: u32, m: u32, packed: &[u8], rows: &mut [u32]) -> u32 {
    unsafe { raw::satmegwo_unpack_columns(n, m, packed.as_ptr(), packed.len(), rows.as_mut_ptr(), rows.len()) }
}

#[inline]
pub fn raising_swap(n: u32, m: u32, rows: &[u32], figures: &mut [u32]) -> u32 {
    unsafe { raw::satmegwo_raising_swap(n, m, rows.as_ptr(), rows.len(), figures.as_mut_ptr(), figures.len()) }
}

#[inline]
pub fn nonlinearity_between(n: u32, m: u32, rows: &[u32], i: u32, first: u32, last: u32, part: &mut [u32]) -> u32 {
    unsafe { raw::satmegwo_nonlinearity_between(n, m, rows.as_ptr(), rows.len(), i, first, last, part.as_mut_ptr(), part.len()) }
}

#[inline]
pub fn autocorrelation_between(n: u32, m: u32, rows: &[u32], i: u32, first: u32, last: u32, part: &mut [u32]) -> u32 {
    unsafe { raw::satmegwo_autocorrelation_between(n, m, rows.as_ptr(), rows.len(), i, first, last, part.as_mut_ptr(), part.len()) }
}

#[inline]
#[allow(clippy::too_many_arguments)] // those of the call
pub fn dynamic_distance_between(n: u32, m: u32, rows: &[u32], i: u32, j: u32, first: u32, last: u32, part: &mut [u32]) -> u32 {
    unsafe { raw::satmegwo_dynamic_distance_between(n, m, rows.as_ptr(), rows.len(), i, j, first, last, part.as_mut_ptr(), part.len()) }
}

#[inline]
#[rustfmt::skip]
pub fn sum_nonlinearity_between(count: u32, boxes: [BoxLent; 4], i: u32, first: u32, last: u32, part: &mut [u32]) -> u32 {
    let [(n1, m1, rows1), (n2, m2, rows2), (n3, m3, rows3), (n4, m4, rows4)] = boxes;
    unsafe {
        raw::satmegwo_sum_nonlinearity_between(
            count,
            n1, m1, rows1.as_ptr(), rows1.len(),
            n2, m2, rows2.as_ptr(), rows2.len(),
            n3, m3, rows3.as_ptr(), rows3.len(),
            n4, m4, rows4.as_ptr(), rows4.len(),
            i, first, last, part.as_mut_ptr(), part.len(),
        )
    }
}

#[inline]
pub fn merge_least(x: &[u32], y: &[u32], merged: &mut [u32]) -> u32 {
    unsafe { raw::satmegwo_merge_least(x.as_ptr(), x.len(), y.as_ptr(), y.len(), merged.as_mut_ptr(), merged.len()) }
}

#[inline]
pub fn merge_largest(x: &[u32], y: &[u32], merged: &mut [u32]) -> u32 {
    unsafe { raw::satmegwo_merge_largest(x.as_ptr(), x.len(), y.as_ptr(), y.len(), merged.as_mut_ptr(), merged.len()) }
}

/// The calls on a design, which goes in by value and comes out beside 0 or the number of a refusal.
pub mod design {
    use crate::raw::{self, Design, DesignOutcome};

    #[inline]
    pub fn begin(n: u32, m: u32, rows: &[u32]) -> DesignOutcome {
        unsafe { raw::satmegwo_design_begin(n, m, rows.as_ptr(), rows.len()) }
    }

    #[inline]
    pub fn swap(design: Design, x: u32, y: u32) -> DesignOutcome {
        unsafe { raw::satmegwo_design_swap(design, x, y) }
    }

    #[inline]
    pub fn add(design: Design, j: u32, w: u32, b: u32) -> DesignOutcome {
        unsafe { raw::satmegwo_design_add(design, j, w, b) }
    }

    #[inline]
    pub fn mark(design: Design, k: u32) -> DesignOutcome {
        unsafe { raw::satmegwo_design_mark(design, k) }
    }

    #[inline]
    pub fn return_to(design: Design, k: u32) -> DesignOutcome {
        unsafe { raw::satmegwo_design_return(design, k) }
    }

    #[inline]
    pub fn read(design: Design, rows: &mut [u32], figures: &mut [u32]) -> u32 {
        unsafe { raw::satmegwo_design_read(design, rows.as_mut_ptr(), rows.len(), figures.as_mut_ptr(), figures.len()) }
    }
}

/// The calls on a server, which goes in by value and comes out.
pub mod server {
    use crate::raw::{self, Server, ServerOutcome};

    #[inline]
    pub fn begin() -> Server {
        unsafe { raw::satmegwo_server_begin() }
    }

    #[inline]
    pub fn put(server: Server, place: u32, n: u32, m: u32, rows: &[u32]) -> ServerOutcome {
        unsafe { raw::satmegwo_server_put(server, place, n, m, rows.as_ptr(), rows.len()) }
    }

    #[inline]
    pub fn withdraw(server: Server, place: u32) -> ServerOutcome {
        unsafe { raw::satmegwo_server_withdraw(server, place) }
    }

    #[inline]
    pub fn step(server: Server) -> Server {
        unsafe { raw::satmegwo_server_step(server) }
    }

    #[inline]
    pub fn run(server: Server, budget: u32) -> Server {
        unsafe { raw::satmegwo_server_run(server, budget) }
    }

    #[inline]
    pub fn ask(server: Server, place: u32, figures: &mut [u32]) -> u32 {
        unsafe { raw::satmegwo_server_ask(server, place, figures.as_mut_ptr(), figures.len()) }
    }
}
