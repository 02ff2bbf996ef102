//! Satmegwo analyses the substitution boxes (S-boxes) of ciphers: tables of n input bits (1 to 8) and m
//! output bits (1 to 32). Every reported value is proved to equal its published definition. This crate
//! calls that library from Rust, and computes no figure itself.
//!
//! ```
//! use satmegwo::Sbox;
//!
//! let sbox = Sbox::new(3, 3, [3, 1, 4, 0, 2, 5, 6, 7])?;
//! let nonlinearity = sbox.nonlinearity(sbox.outputs())?;
//! println!("nonlinearity {}, reached by combination {}", nonlinearity.figure, nonlinearity.c);
//! for cell in sbox.largest_cells() {
//!     println!("{} times: a = {}, beta = {}", sbox.largest_cell().figure, cell.a, cell.beta);
//! }
//! print!("{}", sbox.sheet());
//! # assert_eq!(sbox.sheet().lines().count(), 9);
//! # Ok::<(), satmegwo::Refusal>(())
//! ```
//!
//! The field's names, and what they are called here:
//!
//! | elsewhere | here |
//! |---|---|
//! | S-box | [`Sbox`], "box" |
//! | component function | combination `c`, its output mask |
//! | coordinate function | column |
//! | Walsh spectrum | [`TruthTable::spectrum`], whose values are half of Walsh's |
//! | linear approximation table (LAT) | [`Sbox::component_spectrum`]: the entries for one output mask |
//! | linearity | 2^n − 2d, where d is [`Sbox::nonlinearity`] |
//! | difference distribution table (DDT) | XOR table: [`Sbox::xor_row`] |
//! | differential uniformity | [`Sbox::largest_cell`] |
//! | absolute indicator | [`Sbox::autocorrelation`] |
//! | algebraic degree | [`Sbox::degree`], but the least over the combinations (Sage's `min_degree`) |
//! | SAC, BIC | [`Sbox::dynamic_distance`] of order (1, 1) and (2, 1); not the correlation of Webster and Tavares |
//! | error code | [`Refusal`] |
//!
//! A call either gives its whole result or ends with a [`Refusal`], which has a number and a sentence;
//! [`Sbox::new`] and its neighbours add which row and value met the condition ([`DetailedRefusal`]).
//! Where a type holds what was checked before ([`Sbox`], [`TruthTable`], [`Catalogue`], [`Design`],
//! [`Server`]) a method names the refusals that are left.
//!
//! Calls share nothing: several may run at once, in any threads. A call cannot be stopped; one over
//! combinations takes about a tenth of a microsecond for each at 8 inputs. A long sweep is divided into
//! parts ([`Sbox::nonlinearity_between`]), in as many threads as there are cores, and what they find is
//! [`merged`].
//!
//! The archives of the library must have been built: `make` in the root of its repository does it. They
//! are looked for in `target/staticlib` there, or where the environment variable `SATMEGWO_STATICLIB`
//! says.
#![deny(missing_docs, unsafe_code)]
mod catalogue;
mod design;
mod detail;
mod figures;
mod lists;
mod parts;
pub mod raw;
mod refusal;
mod sbox;
mod sequence;
mod server;
pub mod slices;
mod table;

pub use catalogue::Catalogue;
pub use design::Design;
pub use detail::{Detail, DetailedRefusal, FileError};
pub use figures::{Autocorrelation, Degree, DynamicDistance, LargestCell, Nonlinearity, RaisingSwap, SumNonlinearity};
pub use lists::{Cell, Cells, List, NearestPairs, Pair};
pub use parts::{merged, sum_nonlinearity_between, Part};
pub use refusal::Refusal;
pub use sbox::{sheet_of_bytes, sum_nonlinearity, Sbox};
pub use server::Server;
pub use table::TruthTable;

/// The version of the library: 10000 × the major number, 100 × the minor one, and the patch's. 1.0.0 is
/// 10000.
///
/// ```
/// assert_eq!(satmegwo::version(), 10000);
/// ```
pub fn version() -> u32 {
    slices::version()
}
