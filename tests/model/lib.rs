//! A second program for the measures of substitution boxes. None of it uses the library.
//!
//! It was written from documents 01 and 02 and from the papers that they name, and not from the
//! library's code. Where the documents leave a convention open it has the headers': in which order
//! figures stand, and how long their arrays are; that a raising swap is 1, low, high and the new
//! figure, and "none" four zeros; that a finished box is 1 and its four figures; that 7 is told of a
//! server's array after 18 and 19, and of a file's or a design's after everything else; that a
//! server examines the combinations 1, 2, 3 and so on, and what its fields hold. Calls that no document
//! asks for are the headers' alone: a box that is checked or written, a sheet in an array of 332 bytes, all
//! nearest pairs.
//!
//! `model` follows the definitions word for word, value by value; `counted` counts the same by packed
//! words, and takes its place for wide boxes. Up to 16 outputs, and up to the limit 4 above, every
//! figure that is compared is counted in one of these two ways, and so are swaps, and sums whose
//! inputs can be counted over. `fast` transforms spectra, as the library does: the model needs it
//! for the higher limits above 16 outputs and, with the rule of products, for wider sums; the unit
//! tests hold it to the counts. It is also what the benchmark measures, with `fast_cells`.
//!
//! `between` has four figures over a part of the combinations, and merges them, from the text of the calls
//! alone.
//!
//! `sheet` prints the box sheet, and `printed` what the example programs print; `catalogue` keeps
//! boxes in one buffer; `design` tunes one box; `server` has several boxes under analysis.
pub mod additions;
pub mod between;
pub mod boxes;
pub mod cast;
pub mod catalogue;
pub mod combinations;
pub mod counted;
pub mod design;
pub mod fast;
pub mod fast_cells;
pub mod maximal;
pub mod model;
pub mod packing;
pub mod printed;
pub mod published;
pub mod random;
pub mod rounds;
pub mod server;
pub mod sheet;
pub mod swaps;
