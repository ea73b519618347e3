//! Judging a section of any kind.

use crate::ffi;
use crate::refusal::Refusal;

/// The five kinds of section.
#[derive(Clone, Copy, Debug, PartialEq, Eq, Hash)]
#[repr(u8)]
pub enum Kind {
    /// The master guide table.
    Mgt = 0xC7,
    /// The terrestrial virtual channel table.
    Tvct = 0xC8,
    /// The rating region table.
    Rrt = 0xCA,
    /// The event information table.
    Eit = 0xCB,
    /// The extended text table.
    Ett = 0xCC,
}

impl Kind {
    /// All five.
    pub const ALL: [Kind; 5] = [Kind::Mgt, Kind::Tvct, Kind::Rrt, Kind::Eit, Kind::Ett];

    /// Its table_id.
    pub fn table_id(self) -> u8 {
        self as u8
    }

    /// The kind that a table_id names.
    pub fn of_table_id(table_id: u8) -> Option<Kind> {
        Kind::ALL.into_iter().find(|kind| kind.table_id() == table_id)
    }
}

/// The header of a section that is sound.
#[derive(Clone, Copy, Debug, PartialEq, Eq, Hash)]
pub struct Header {
    /// The kind that table_id names.
    pub kind: Kind,
    /// table_id_extension: of an EIT its source, of an RRT its region in the low byte.
    pub extension: u16,
    /// version_number, 0 to 31. Two versions are equal or different; none is newer.
    pub version: u8,
    /// current_next_indicator.
    pub current: bool,
    /// section_number.
    pub number: u8,
    /// last_section_number, which is one less than the number of sections.
    pub last: u8,
}

/// The header of a section of any kind. Refused by 1 to 9.
///
/// ```
/// use guide::{judge, Header, Kind, Refusal};
///
/// let mut section = *b"\xcb\xf0\x0b\0\x08\xc7\0\0\0\0\x59\xa5\xaa\xb8";
/// let header = Header { kind: Kind::Eit, extension: 8, version: 3, current: true, number: 0, last: 0 };
/// assert_eq!(judge(&section), Ok(header));
/// section[4] = 9;
/// assert_eq!(judge(&section), Err(Refusal::Checksum));
/// ```
pub fn judge(section: &[u8]) -> Result<Header, Refusal> {
    let told = ffi::judge(section)?;
    Ok(Header {
        kind: Kind::of_table_id(told.table_id as u8).ok_or(Refusal::OtherTable)?,
        extension: told.extension as u16,
        version: told.version as u8,
        current: told.current != 0,
        number: told.number as u8,
        last: told.last as u8,
    })
}

/// Where the body of a section fails: the offset of the field to blame, or none where the section is sound. Refused by 1 to 8.
///
/// ```
/// // An EIT that promises an event and has none: the event's first field is to blame, at the checksum.
/// let section = b"\xcb\xf0\x0b\0\x08\xc7\0\0\0\x01\x5d\x64\xb7\x0f";
/// assert_eq!(guide::judge(section), Err(guide::Refusal::Body));
/// assert_eq!(guide::fault(section), Ok(Some(10)));
/// ```
pub fn fault(section: &[u8]) -> Result<Option<usize>, Refusal> {
    let offset = ffi::fault(section)?;
    Ok((offset != u32::MAX).then_some(offset as usize))
}
