//! The ATSC programme guide (A/65 Revision A) over the proved library `libguide.a`: sections judged and read, texts, ratings, sections
//! written, and a shelf that collects them.
//!
//! **A blank is not a nought.** What is not there has a case of its own: [`Title::None`], [`Rating::DimensionAbsent`],
//! [`Status::NothingHeard`]. Every call ends in a result or in one numbered [`Refusal`], and a refused call changes nothing.
//!
//! ```
//! use guide::{Eit, Title};
//!
//! // An EIT of source 7 with one event: "Tea", from second 1000 on, for half an hour.
//! let section = b"\xcb\xf0\x22\0\x07\xc7\0\0\0\x01\xc0\x05\0\0\x03\xe8\xc0\x07\x08\x0b\
//!                 \x01eng\x01\0\0\x03Tea\xf0\0\xcf\x03\x90\x0b";
//! let eit = Eit::read(section)?;
//! assert_eq!((eit.header.extension, eit.len()), (7, 1));
//! for event in eit.events() {
//!     assert_eq!((event.id, event.start_time, event.length), (5, 1000, 1800));
//!     match event.title {
//!         Title::Text(text) => assert_eq!(text.string(0)?, "Tea"),
//!         Title::None | Title::NoStrings => unreachable!(),
//!     }
//! }
//! # Ok::<(), guide::Refusal>(())
//! ```
//!
//! Sections are bytes that the caller has; what is read of them borrows them, and nothing is copied but the rows of a table's entries
//! and the texts that are decoded.
#![deny(unsafe_code, missing_docs)]

#[allow(unsafe_code)]
mod ffi;
mod ratings;
mod refusal;
mod sections;
mod shelf;
mod tables;
mod texts;
mod writing;

pub use ratings::{Descriptor, Descriptors, Rating};
pub use refusal::Refusal;
pub use sections::{fault, judge, Header, Kind};
pub use shelf::{Key, Shelf, Status};
pub use tables::{Channel, Defined, Dimension, Eit, Ett, Event, Mgt, Rrt, Title, Tvct, Value};
pub use texts::{Heading, Text};
pub use writing::{write_eit, write_ett, Given, NewEvent};

/// A section has at most so many bytes.
pub const LONGEST: usize = 4096;

/// The part of `bytes` that the library told of them.
fn part(bytes: &[u8], part: ffi::Part) -> &[u8] {
    &bytes[part.start as usize..][..part.length as usize]
}
