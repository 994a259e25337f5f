//! An ordinary evaluator and screener for FCode ROMs, written to be fast and proved nowhere: the yardstick for the library, and a second
//! reading of documents 01 and 02 that the library's answers are compared with. Requests (i), (iv), (vi) and (vii) of document 02 are in
//! force.
#![deny(unsafe_code)]

mod evaluator;
mod header;
pub mod host;
mod numbers;
mod screener;
mod sums;
mod tokens;
mod tree;

pub use evaluator::run;
pub use header::check;
pub use screener::screen;

/// A ROM has at most so many bytes.
pub const ROM_MOST: usize = 65_536;

/// So many bytes the mark buffer has, work memory, and the property store.
pub const MARKS_SIZE: usize = 65_536;
pub const WORK_SIZE: usize = 16_384;
pub const STORE_SIZE: usize = 16_384;

/// The first place behind the header.
pub const FIRST_PLACE: usize = 8;

pub const DATA_MOST: usize = 64;
pub const RETURN_MOST: usize = 32;
pub const FRAMES_MOST: usize = 16;
pub const NUMBERS_MOST: usize = 256;
pub const NODES_MOST: usize = 32;
pub const PROPERTIES_MOST: usize = 128;

/// A run that carried out as many tokens as it was allowed.
pub const SPENT: u32 = 28;

/// A ROM to which no heights can be assigned.
pub const NO_HEIGHTS: u32 = 31;
