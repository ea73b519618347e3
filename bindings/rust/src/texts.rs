//! Text fields: the strings of a multiple string structure, decoded to UTF-16 units.

use crate::ffi;
use crate::refusal::Refusal;
use std::borrow::Cow;

/// A text field, whose structure is sound: strings of segments, of which none has been decoded but perhaps the first string.
#[derive(Clone, Copy, Debug)]
pub struct Text<'a> {
    field: &'a [u8],
    /// The first string's units, where a table's reading has decoded them.
    first: Option<Result<&'a [u16], Refusal>>,
}

/// What stands before a string's segments.
#[derive(Clone, Copy, Debug, PartialEq, Eq, Hash)]
pub struct Heading {
    /// The language, as its three bytes; they are not judged.
    pub language: [u8; 3],
    /// How many segments the string has.
    pub segments: u8,
}

impl<'a> Text<'a> {
    /// A text field by itself. Refused by 9, where it is not empty and not filled exactly by its strings.
    ///
    /// ```
    /// use guide::{Refusal, Text};
    ///
    /// let text = Text::of_field(b"\x01eng\x01\0\0\x03Tea")?;
    /// assert_eq!(text.len(), 1);
    /// assert_eq!(text.heading(0)?.language, *b"eng");
    /// assert_eq!(text.units(0)?[..], [84, 101, 97]);
    /// assert_eq!(text.string(0)?, "Tea");
    /// assert_eq!(text.string(1), Err(Refusal::NoSuchEntry));
    /// assert_eq!(Text::of_field(b"\x01en").unwrap_err(), Refusal::Body);
    /// # Ok::<(), Refusal>(())
    /// ```
    pub fn of_field(field: &'a [u8]) -> Result<Text<'a>, Refusal> {
        ffi::field_strings(field)?;
        Ok(Text::judged(field))
    }

    /// A field that reading a section has judged.
    pub(crate) fn judged(field: &'a [u8]) -> Text<'a> {
        Text { field, first: None }
    }

    /// The same, with the first string's units as they were read.
    pub(crate) fn decoded(field: &'a [u8], first: Result<&'a [u16], Refusal>) -> Text<'a> {
        Text { field, first: Some(first) }
    }

    /// The field's bytes, as a writer takes them.
    pub fn field(&self) -> &'a [u8] {
        self.field
    }

    /// How many strings it has.
    pub fn len(&self) -> u32 {
        ffi::field_strings(self.field).expect("the field was judged")
    }

    /// Whether it has no strings.
    pub fn is_empty(&self) -> bool {
        self.len() == 0
    }

    /// The heading of a string, counted from 0. Refused by 13.
    pub fn heading(&self, string: u32) -> Result<Heading, Refusal> {
        let told = ffi::field_heading(self.field, string)?;
        let [_, first, second, third] = told.language.to_be_bytes();
        Ok(Heading { language: [first, second, third], segments: told.segments as u8 })
    }

    /// The units of a string, UTF-16, counted from 0. Refused by 13, then by 10 or 11 of its first faulty segment.
    pub fn units(&self, string: u32) -> Result<Cow<'a, [u16]>, Refusal> {
        match self.first {
            Some(units) if string == 0 => units.map(Cow::Borrowed),
            _ => ffi::field_text(self.field, string).map(Cow::Owned),
        }
    }

    /// A string as a `String`; a unit that is half of a character stands as U+FFFD. Refused as [`Text::units`] is.
    pub fn string(&self, string: u32) -> Result<String, Refusal> {
        Ok(String::from_utf16_lossy(&self.units(string)?))
    }
}
