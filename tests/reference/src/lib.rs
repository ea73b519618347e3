//! A second opinion on the rules' document: its rules written down plainly, without regard to speed.
//! READING.md says how each unclear sentence was read; "reading N" in a comment points there. `fault`, `list`, `section_text` and `shelf` are by a second
//! hand, who knew the rules' document and nothing else: there "reading N" points to READING_AGAIN.md.
//!
//! No call panics on any input. A refusal is the number of the table in the rules' document.
#![forbid(unsafe_code)]

pub mod annex_c;
pub mod fault;
pub mod field;
pub mod list;
pub mod lister;
pub mod rating;
#[cfg(test)]
mod samples;
pub mod section;
pub mod section_text;
pub mod shelf;
pub mod tables;
pub mod text;
pub mod write;

pub use field::Part;
pub use rating::Rating;
pub use section::{judge, Header, Kind};
pub use shelf::{Place, Shelf, Status, Watch};
pub use tables::Title;
pub use write::{write_eit, write_ett, HeaderNumbers};

/// A refusal number of the table in the rules' document, 1 to 24.
pub type Refusal = u8;
