//! The refusals by name, number and sentence.

use std::fmt;

macro_rules! refusals {
    ($($name:ident = $number:literal, $sentence:literal;)*) => {
        /// Why a call was refused. A call that several refusals fit gives the first in its own order, which its comment names.
        ///
        /// ```
        /// use guide::{judge, Refusal};
        ///
        /// let refusal = judge(b"\xcb\xf0").unwrap_err();
        /// assert_eq!(refusal, Refusal::TooShort);
        /// assert_eq!(refusal.number(), 1);
        /// assert_eq!(refusal.to_string(), "there are fewer than 3 bytes");
        /// ```
        #[derive(Clone, Copy, Debug, PartialEq, Eq, Hash)]
        #[repr(u8)]
        pub enum Refusal {
            $(#[doc = $sentence] $name = $number,)*
        }

        impl Refusal {
            /// All of them, in the order of their numbers.
            pub const ALL: [Refusal; 24] = [$(Refusal::$name),*];

            /// The refusal of a number.
            pub fn of(number: u32) -> Option<Refusal> {
                match number {
                    $($number => Some(Refusal::$name),)*
                    _ => None,
                }
            }

            /// When it is given.
            pub fn sentence(self) -> &'static str {
                match self {
                    $(Refusal::$name => $sentence,)*
                }
            }
        }
    };
}

refusals! {
    TooShort = 1, "there are fewer than 3 bytes";
    OtherTable = 2, "table_id is none of the kinds, or not that of the kind which the call reads";
    Indicator = 3, "the syntax indicator or the private indicator is 0";
    LengthRange = 4, "section_length is outside its kind's range";
    ByteCount = 5, "the number of bytes is not section_length + 3";
    Checksum = 6, "the checksum's register does not end at 0";
    ProtocolVersion = 7, "protocol_version is not 0";
    SectionNumber = 8, "section_number is above last_section_number, or that is not 0 where it must be";
    Body = 9, "the body: a length or count runs past its container, bytes are left over, an RRT count is 0";
    NotAReadPair = 10, "compression and mode are not a pair that is read";
    BrokenText = 11, "broken text";
    OutputShort = 12, "the output is too short";
    NoSuchEntry = 13, "there is no string, event or other entry of that number";
    ShelfBroken = 14, "the shelf's sizes or rules are broken";
    OutOfRange = 15, "a PID above 8191, a watch's table_id of no kind, or a quota out of range";
    NotCurrent = 16, "current_next_indicator is 0";
    NotWatched = 17, "the key is not watched";
    AboveQuota = 18, "last_section_number + 1 is above the quota";
    AlreadyWatched = 19, "the key is watched already";
    NoRecordLeft = 20, "every watch record is taken";
    NoPlacesLeft = 21, "the quotas would exceed the places";
    NotHeld = 22, "the key is watched, and this section is not held";
    FieldTooLarge = 23, "a field is too large to write";
    SectionTooLong = 24, "the section would be longer than its kind or the buffer allows";
}

impl Refusal {
    /// Its number, 1 to 24.
    pub fn number(self) -> u32 {
        self as u32
    }
}

impl fmt::Display for Refusal {
    fn fmt(&self, f: &mut fmt::Formatter) -> fmt::Result {
        f.write_str(self.sentence())
    }
}

impl std::error::Error for Refusal {}
