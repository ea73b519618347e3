//! Writing EIT and ETT sections. Reserved bits are written as ones.

use crate::ffi;
use crate::refusal::Refusal;
use crate::sections::Header;

/// The header's numbers for a section that is written.
#[derive(Clone, Copy, Debug, PartialEq, Eq, Hash)]
pub struct Given {
    /// table_id_extension: of an EIT its source.
    pub extension: u16,
    /// version_number, 0 to 31.
    pub version: u8,
    /// current_next_indicator.
    pub current: bool,
    /// section_number.
    pub number: u8,
    /// last_section_number, which is 0 for an ETT.
    pub last: u8,
}

impl From<Header> for Given {
    fn from(header: Header) -> Given {
        let Header { extension, version, current, number, last, .. } = header;
        Given { extension, version, current, number, last }
    }
}

impl Given {
    fn told(&self, events: u32) -> ffi::Given {
        ffi::Given {
            extension: self.extension.into(),
            version: self.version.into(),
            current: self.current.into(),
            number: self.number.into(),
            last: self.last.into(),
            events,
        }
    }
}

/// An event to write. Texts and lists are bytes, as [`Text::field`](crate::Text::field) and [`Descriptors::list`](crate::Descriptors::list)
/// have them, and are written as they are given.
#[derive(Clone, Copy, Debug, PartialEq, Eq, Hash)]
pub struct NewEvent<'a> {
    /// event_id, 14 bits.
    pub id: u16,
    /// start_time.
    pub start_time: u32,
    /// ETM_location, 2 bits.
    pub etm_location: u8,
    /// length_in_seconds, 20 bits.
    pub length: u32,
    /// The title's field: empty for none.
    pub title: &'a [u8],
    /// The descriptor list.
    pub descriptors: &'a [u8],
}

/// A length or place in the bytes; one of more than 32 bits fits no field, and becomes a number that is refused like it.
fn number(length: usize) -> u32 {
    u32::try_from(length).unwrap_or(u32::MAX)
}

/// Writes an EIT. Refused by 23, 8, 9, 24.
///
/// ```
/// use guide::{write_eit, Given, NewEvent, Refusal};
///
/// let given = Given { extension: 7, version: 3, current: true, number: 0, last: 0 };
/// let title = b"\x01eng\x01\0\0\x03Tea";
/// let tea = NewEvent { id: 5, start_time: 1000, etm_location: 0, length: 1800, title, descriptors: b"" };
/// let section = write_eit(&given, &[tea])?;
/// assert_eq!(section.len(), 37);
///
/// // There and back: what was written is read as it was given.
/// let eit = guide::Eit::read(&section)?;
/// assert_eq!(Given::from(eit.header), given);
/// assert_eq!(eit.events().next().unwrap().id, 5);
///
/// assert_eq!(write_eit(&given, &[NewEvent { id: 1 << 14, ..tea }]), Err(Refusal::FieldTooLarge));
/// assert_eq!(write_eit(&given, &[NewEvent { title: b"\x01en", ..tea }]), Err(Refusal::Body));
/// # Ok::<(), Refusal>(())
/// ```
pub fn write_eit(given: &Given, events: &[NewEvent]) -> Result<Vec<u8>, Refusal> {
    let mut bytes = Vec::new();
    let mut put = |part: &[u8]| {
        let start = number(bytes.len());
        bytes.extend_from_slice(part);
        ffi::Part { start, length: number(part.len()) }
    };
    let rows: Vec<_> = events
        .iter()
        .map(|event| ffi::EventRow {
            event_id: event.id.into(),
            start_time: event.start_time,
            etm_location: event.etm_location.into(),
            length_in_seconds: event.length,
            title: put(event.title),
            descriptors: put(event.descriptors),
        })
        .collect();
    ffi::write_eit(&given.told(number(rows.len())), &rows, &bytes)
}

/// Writes an ETT; `text` is the text's field, which is not empty. Refused by 23, 8, 9, 24.
///
/// ```
/// use guide::{write_ett, Ett, Given};
///
/// let given = Given { extension: 0, version: 0, current: true, number: 0, last: 0 };
/// let section = write_ett(&given, 0x70016, b"\x01eng\x01\0\0\x06At two")?;
/// let ett = Ett::read(&section)?;
/// assert_eq!((ett.etm_id, ett.text.string(0)?.as_str()), (0x70016, "At two"));
/// # Ok::<(), guide::Refusal>(())
/// ```
pub fn write_ett(given: &Given, etm_id: u32, text: &[u8]) -> Result<Vec<u8>, Refusal> {
    ffi::write_ett(&given.told(etm_id), text)
}
