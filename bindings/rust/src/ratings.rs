//! The descriptors of an event, and the rating question.

use crate::ffi;
use crate::part;
use crate::refusal::Refusal;
use crate::texts::Text;

/// The answer to a rating question. No value is never told as 0.
#[derive(Clone, Copy, Debug, PartialEq, Eq, Hash)]
pub enum Rating {
    /// There is no content advisory.
    NoAdvisory,
    /// The first advisory does not speak of the region.
    RegionAbsent,
    /// The region's first entry in it does not speak of the dimension.
    DimensionAbsent,
    /// The value, 0 to 15.
    Value(u8),
}

/// A descriptor of a list.
#[derive(Clone, Copy, Debug, PartialEq, Eq, Hash)]
pub struct Descriptor<'a> {
    /// Its tag.
    pub tag: u8,
    /// Its bytes behind tag and length.
    pub content: &'a [u8],
}

/// The descriptor list of an event, which is sound, its content advisories too.
///
/// ```
/// use guide::{Descriptors, Rating, Refusal};
///
/// // One content advisory: region 1 has dimension 7 at value 0, and no text.
/// let list = Descriptors::of_list(b"\x87\x06\xc1\x01\x01\x07\xf0\0")?;
/// assert_eq!(list.rating(1, 7), Rating::Value(0));
/// assert_eq!(list.rating(1, 8), Rating::DimensionAbsent);
/// assert_eq!(list.rating(2, 7), Rating::RegionAbsent);
/// assert_eq!(Descriptors::of_list(b"")?.rating(1, 7), Rating::NoAdvisory);
/// assert!(list.advisory(1)?.is_empty());
/// assert_eq!(list.advisory(2).unwrap_err(), Refusal::NoSuchEntry);
/// assert_eq!(list.iter().map(|one| (one.tag, one.content.len())).collect::<Vec<_>>(), [(0x87, 6)]);
/// # Ok::<(), Refusal>(())
/// ```
#[derive(Clone, Copy, Debug)]
pub struct Descriptors<'a> {
    list: &'a [u8],
}

impl<'a> Descriptors<'a> {
    /// A list by itself, judged as that of an event. Refused by 9.
    pub fn of_list(list: &'a [u8]) -> Result<Descriptors<'a>, Refusal> {
        ffi::list_rating(list, 0, 0)?;
        Ok(Descriptors { list })
    }

    /// A list that reading an EIT has judged.
    pub(crate) fn judged(list: &'a [u8]) -> Descriptors<'a> {
        Descriptors { list }
    }

    /// The list's bytes, as a writer takes them.
    pub fn list(&self) -> &'a [u8] {
        self.list
    }

    /// The rating for a region and a dimension. The first match in byte order decides.
    pub fn rating(&self, region: u8, dimension: u8) -> Rating {
        let told = ffi::list_rating(self.list, region.into(), dimension.into()).expect("the list was judged");
        match told.answer {
            ffi::NO_ADVISORY => Rating::NoAdvisory,
            ffi::REGION_ABSENT => Rating::RegionAbsent,
            ffi::DIMENSION_ABSENT => Rating::DimensionAbsent,
            _ => Rating::Value(told.value as u8),
        }
    }

    /// The advisory text for a region. Refused by 13, where there is no advisory or it does not speak of the region.
    pub fn advisory(&self, region: u8) -> Result<Text<'a>, Refusal> {
        ffi::list_advisory(self.list, region.into()).map(|told| Text::judged(part(self.list, told)))
    }

    /// Descriptor k, counted from 0. Refused by 13.
    pub fn get(&self, k: u32) -> Result<Descriptor<'a>, Refusal> {
        let told = ffi::list_descriptor(self.list, k)?;
        Ok(Descriptor { tag: told.tag as u8, content: part(self.list, told.content) })
    }

    /// All of them, each looked for from the list's beginning.
    pub fn iter(&self) -> impl Iterator<Item = Descriptor<'a>> + 'a {
        let list = *self;
        (0..).map_while(move |k| list.get(k).ok())
    }
}
