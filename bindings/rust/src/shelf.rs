//! The shelf, which collects the sections of tables until they are complete.

use crate::ffi;
use crate::refusal::Refusal;
use crate::sections::Kind;
use crate::LONGEST;
use std::cell::Cell;
use std::marker::PhantomData;

/// What a watch listens for.
#[derive(Clone, Copy, Debug, PartialEq, Eq, Hash)]
pub struct Key {
    /// The PID, at most 8191.
    pub pid: u16,
    /// The kind of its sections.
    pub kind: Kind,
    /// All 16 bits of table_id_extension.
    pub extension: u16,
}

impl Key {
    fn asking(self, amount: u32) -> ffi::Question {
        ffi::Question {
            pid: self.pid.into(),
            table_id: self.kind.table_id().into(),
            extension: self.extension.into(),
            amount,
        }
    }
}

/// What a watch has heard.
#[derive(Clone, Copy, Debug, PartialEq, Eq, Hash)]
pub enum Status {
    /// No section yet, which is not the same as a table without entries.
    NothingHeard,
    /// Some sections of the edition.
    InPart {
        /// How many are held.
        held: u32,
        /// How many the edition has.
        of: u32,
    },
    /// All sections of the edition, so many.
    Complete(u32),
}

/// A shelf with memory of its own: 1 to 16 watch records, and 1 to 64 places of 4,096 bytes.
///
/// ```
/// use guide::{Key, Kind, Refusal, Shelf, Status};
///
/// let mut shelf = Shelf::new(3, 4)?;
/// let key = Key { pid: 0x1D00, kind: Kind::Eit, extension: 8 };
/// shelf.open(key, 2)?;
/// assert_eq!(shelf.status(key)?, Status::NothingHeard);
///
/// let section = b"\xcb\xf0\x0b\0\x08\xc7\0\0\0\0\x59\xa5\xaa\xb8";
/// shelf.deliver(0x1D00, section)?;
/// assert_eq!(shelf.status(key)?, Status::Complete(1));
/// assert_eq!(shelf.fetch(key, 0)?, section);
/// assert_eq!(shelf.fetch(key, 1), Err(Refusal::NotHeld));
///
/// shelf.close(key)?;
/// assert_eq!(shelf.status(key), Err(Refusal::NotWatched));
/// # Ok::<(), Refusal>(())
/// ```
///
/// A section that was fetched stands in the shelf's memory. While it is held nothing can be delivered, since that could take its place:
///
/// ```compile_fail,E0502
/// # use guide::{Key, Kind, Shelf};
/// # let mut shelf = Shelf::new(1, 1)?;
/// # let key = Key { pid: 0x1D00, kind: Kind::Eit, extension: 8 };
/// let kept = shelf.fetch(key, 0)?;
/// shelf.deliver(0x1D00, b"")?;
/// println!("{}", kept.len());
/// # Ok::<(), guide::Refusal>(())
/// ```
///
/// Copied, it can be delivered again:
///
/// ```
/// # use guide::{Key, Kind, Shelf};
/// # let mut shelf = Shelf::new(1, 1)?;
/// # let key = Key { pid: 0x1D00, kind: Kind::Eit, extension: 8 };
/// # shelf.open(key, 1)?;
/// # shelf.deliver(0x1D00, b"\xcb\xf0\x0b\0\x08\xc7\0\0\0\0\x59\xa5\xaa\xb8")?;
/// let kept = shelf.fetch(key, 0)?.to_vec();
/// shelf.deliver(0x1D00, &kept)?;
/// # Ok::<(), guide::Refusal>(())
/// ```
pub struct Shelf {
    lent: ffi::Lent,
    /// guide.h lets calls on different memory run at the same time, and says nothing of the same memory.
    not_shared: PhantomData<Cell<()>>,
}

impl Shelf {
    /// An empty shelf. Refused by 14 where it would have no records or places, or too many.
    ///
    /// ```
    /// use guide::{Refusal, Shelf};
    ///
    /// assert!(Shelf::new(16, 64).is_ok());
    /// for (records, places) in [(0, 1), (17, 1), (1, 0), (1, 65)] {
    ///     assert_eq!(Shelf::new(records, places).err(), Some(Refusal::ShelfBroken));
    /// }
    /// ```
    pub fn new(records: usize, places: usize) -> Result<Shelf, Refusal> {
        if !(1..=16).contains(&records) || !(1..=64).contains(&places) {
            return Err(Refusal::ShelfBroken);
        }
        let lent = ffi::Lent {
            watches: vec![ffi::Watch::default(); records],
            places: vec![ffi::Place::default(); places],
            area: vec![0; LONGEST * places],
        };
        Ok(Shelf { lent, not_shared: PhantomData })
    }

    /// Opens a watch for at most `quota` sections, 1 to 64. Refused by 15, 19, 20, 21.
    pub fn open(&mut self, key: Key, quota: u32) -> Result<(), Refusal> {
        self.lent.open(key.asking(quota))
    }

    /// Closes a watch and frees its places. Refused by 17.
    pub fn close(&mut self, key: Key) -> Result<(), Refusal> {
        self.lent.close(key.asking(0))
    }

    /// Takes a section in. Refused by 15, 1 to 9, 16, 17, 18.
    pub fn deliver(&mut self, pid: u16, section: &[u8]) -> Result<(), Refusal> {
        self.lent.deliver(ffi::Question { pid: pid.into(), ..ffi::Question::default() }, section)
    }

    /// What a watch has heard. Refused by 17.
    pub fn status(&self, key: Key) -> Result<Status, Refusal> {
        let reply = self.lent.status(key.asking(0))?;
        Ok(match reply.code {
            ffi::NOTHING_HEARD => Status::NothingHeard,
            ffi::IN_PART => Status::InPart { held: reply.first, of: reply.second },
            _ => Status::Complete(reply.first),
        })
    }

    /// A section that is held, where it stands. Refused by 17, 22.
    pub fn fetch(&self, key: Key, number: u8) -> Result<&[u8], Refusal> {
        let reply = self.lent.fetch(key.asking(number.into()))?;
        Ok(&self.lent.area[reply.first as usize..][..reply.second as usize])
    }
}
