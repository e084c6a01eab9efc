//! An independent implementation of document 01: the table check, addition, the digit edit, lists of edits, the value of a row and the midpoint;
//! and of what jobs of document 02 add: subtraction, with input digits beyond the sums (job 2), the reach (job 7), rings of degree three
//! and four (job 8), the forecast (job 13), the row that refusal 14 is about (job 5), which tables are mirrored (job 3), and which lists of edits
//! are reorderings that keep the edits of each target in their order (job 10).
//!
//! It exists to be compared with the proved library, so it shares nothing with it. It was written from the papers alone, and where
//! there was a choice it takes the way that is easiest to believe and not the fastest: words in a hash map, sums in a set, rule 12 by
//! counting strings, rule 14 by trying every two leaves, each weight looked up from scratch, the reach by a search of its own, products as
//! those of polynomials, determinants by elimination.
#![forbid(unsafe_code)]

pub mod answer;
pub mod bad_row;
pub mod by_table;
pub mod calls;
pub mod carried;
pub mod conversion;
pub mod element;
pub mod file;
pub mod mirrored;
pub mod reach;
pub mod reorderings;
pub mod ring;
pub mod table;

/// The degrees of a ring that rule 3 lets pass (job 8).
pub const DEGREES: [usize; 3] = [2, 3, 4];

pub use answer::{Answer, Fault, Group};
pub use bad_row::BadRow;
pub use by_table::{Asked, EditFacts, ForecastFacts, RowFacts, TableFacts};
pub use calls::{add, bad_row, check, edit, forecast, look_up, midpoint, run, subtract, value};
pub use carried::{bin, tern};
pub use element::{Element, Operation};
pub use file::{assemble, Parts};
pub use reach::{LeafFacts, Window};
pub use ring::Base;
