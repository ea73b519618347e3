//! Descriptor lists and content advisories: their structure, and the rating question, which the first match in
//! byte order decides.

use crate::field::{Cursor, Fault, Part};
use crate::tables::{self, entry};
use crate::text;
use crate::Refusal;

/// The tag of a content advisory.
pub const CONTENT_ADVISORY: u8 = 0x87;

#[derive(Clone, Debug, PartialEq, Eq)]
pub struct Descriptor {
    pub tag: u8,
    pub content: Part,
    /// The regions of a content advisory; none for an opaque descriptor.
    pub advisory: Option<Vec<Region>>,
}

#[derive(Clone, Debug, PartialEq, Eq)]
pub struct Region {
    pub region: u8,
    pub dimensions: Vec<RatedDimension>,
    pub text: Part,
}

#[derive(Clone, Copy, Debug, PartialEq, Eq)]
pub struct RatedDimension {
    pub dimension: u8,
    pub value: u8,
}

/// What an advisory says about a region, before a dimension is asked for.
#[derive(Clone, Debug, PartialEq, Eq)]
pub enum Advice {
    NoAdvisory,
    RegionAbsent,
    Region(Region),
}

/// The answer to a rating question.
#[derive(Clone, Copy, Debug, PartialEq, Eq)]
pub enum Rating {
    NoAdvisory,
    RegionAbsent,
    DimensionAbsent,
    Value(u8),
}

/// The descriptors that must fill the given part of `bytes` exactly. `advisories` says whether 0x87 is judged,
/// which it is in an EIT only.
pub(crate) fn descriptors(bytes: &[u8], part: Part, advisories: bool) -> Result<Vec<Descriptor>, Fault> {
    let mut cursor = Cursor::over(bytes, part);
    let mut descriptors = Vec::new();
    while !cursor.at_end() {
        let tag = cursor.field(0, 8)? as u8;
        let content = cursor.counted(0, 8)?;
        let advisory = if advisories && tag == CONTENT_ADVISORY { Some(regions(bytes, content)?) } else { None };
        descriptors.push(Descriptor { tag, content, advisory });
    }
    Ok(descriptors)
}

/// The regions that must fill a content advisory exactly.
fn regions(bytes: &[u8], content: Part) -> Result<Vec<Region>, Fault> {
    let mut cursor = Cursor::over(bytes, content);
    let mut regions = Vec::new();
    for _ in 0..cursor.field(2, 6)? {
        let region = cursor.field(0, 8)? as u8;
        let mut dimensions = Vec::new();
        for _ in 0..cursor.field(0, 8)? {
            dimensions.push(RatedDimension { dimension: cursor.field(0, 8)? as u8, value: cursor.field(4, 4)? as u8 });
        }
        let text = cursor.counted(0, 8)?;
        text::strings(bytes, text)?;
        regions.push(Region { region, dimensions, text });
    }
    cursor.finish()?;
    Ok(regions)
}

/// The first 0x87 descriptor alone is asked, and in it the first region of that number alone.
fn advice_in(list: Vec<Descriptor>, region: u32) -> Advice {
    let Some(regions) = list.into_iter().find_map(|descriptor| descriptor.advisory) else {
        return Advice::NoAdvisory;
    };
    match regions.into_iter().find(|candidate| u32::from(candidate.region) == region) {
        None => Advice::RegionAbsent,
        Some(region) => Advice::Region(region),
    }
}

fn rating_in(list: Vec<Descriptor>, region: u32, dimension: u32) -> Rating {
    match advice_in(list, region) {
        Advice::NoAdvisory => Rating::NoAdvisory,
        Advice::RegionAbsent => Rating::RegionAbsent,
        Advice::Region(region) => {
            match region.dimensions.iter().find(|candidate| u32::from(candidate.dimension) == dimension) {
                None => Rating::DimensionAbsent,
                Some(found) => Rating::Value(found.value),
            }
        }
    }
}

/// Refusal 9 for a descriptor list that a writer is given, judged as an event's list of an EIT.
pub(crate) fn list(bytes: &[u8]) -> Result<Vec<Descriptor>, Refusal> {
    descriptors(bytes, Part::whole(bytes), true).map_err(|_| 9)
}

/// The descriptors of an event: refusals 1 to 9, then 13. Parts are counted from the section's first byte.
pub fn event_descriptors(section: &[u8], event: usize) -> Result<Vec<Descriptor>, Refusal> {
    let part = tables::eit_event(section, event)?.descriptors;
    descriptors(section, part, true).map_err(|_| 9)
}

pub fn event_descriptor(section: &[u8], event: usize, number: usize) -> Result<Descriptor, Refusal> {
    entry(event_descriptors(section, event)?, number)
}

pub fn rating(section: &[u8], event: usize, region: u32, dimension: u32) -> Result<Rating, Refusal> {
    Ok(rating_in(event_descriptors(section, event)?, region, dimension))
}

pub fn advice(section: &[u8], event: usize, region: u32) -> Result<Advice, Refusal> {
    Ok(advice_in(event_descriptors(section, event)?, region))
}

/// The text of an event's advisory for a region; without advisory or region there is no such entry (reading 45).
pub fn advisory_text(section: &[u8], event: usize, region: u32) -> Result<Part, Refusal> {
    match advice(section, event, region)? {
        Advice::NoAdvisory | Advice::RegionAbsent => Err(13),
        Advice::Region(region) => Ok(region.text),
    }
}

#[cfg(test)]
mod tests {
    use super::*;
    use crate::samples::*;

    fn descriptor(tag: u8, content: &[u8]) -> Vec<u8> {
        let mut bytes = vec![tag, content.len() as u8];
        bytes.extend(content);
        bytes
    }

    #[test]
    fn first_match_decides() {
        // Region 1 twice, dimension 0 twice in its first; a second advisory with region 9.
        let first = descriptor(0x87, &[0xC3, 1, 2, 0, 0xF3, 0, 0xF4, 0, 1, 1, 5, 0xF6, 0, 2, 0, 0]);
        let second = descriptor(0x87, &[1, 9, 1, 0, 1, 0]);
        let bytes = [descriptor(0x80, &[0x87]), first, second].concat();
        let asked_of = |list: &[u8], region, dimension| rating(&eit_of(&[(5, 0, 0, &[], list)]), 0, region, dimension);
        let ask = |region, dimension| asked_of(&bytes, region, dimension);
        assert_eq!(ask(1, 0), Ok(Rating::Value(3)));
        assert_eq!(ask(1, 5), Ok(Rating::DimensionAbsent));
        assert_eq!(ask(2, 0), Ok(Rating::DimensionAbsent));
        assert_eq!(ask(9, 0), Ok(Rating::RegionAbsent));
        assert_eq!(ask(257, 0), Ok(Rating::RegionAbsent));
        assert_eq!(ask(1, 256), Ok(Rating::DimensionAbsent));
        assert_eq!(asked_of(&[], 1, 0), Ok(Rating::NoAdvisory));
        assert_eq!(asked_of(&bytes[..3], 1, 0), Ok(Rating::NoAdvisory));
        assert_eq!(asked_of(&[0x87, 1, 0xC0], 1, 0), Ok(Rating::RegionAbsent));
    }

    #[test]
    fn advisories_are_filled_exactly() {
        let sound = advisory();
        assert!(list(&sound).is_ok());
        let content = &sound[2..];
        for length in 0..content.len() {
            assert_eq!(list(&descriptor(0x87, &content[..length])), Err(9), "{length}");
            assert!(list(&descriptor(0x86, &content[..length])).is_ok());
        }
        assert_eq!(list(&descriptor(0x87, &[content, &[0]].concat())), Err(9));
        assert_eq!(list(&[0x80]), Err(9));
        assert_eq!(list(&[0x80, 1]), Err(9));
        // A text in it is judged: number_strings 0 with a byte left over.
        assert_eq!(list(&descriptor(0x87, &[1, 1, 0, 2, 0, 0])), Err(9));
        assert!(list(&descriptor(0x87, &[1, 1, 0, 1, 0])).is_ok());
    }

    #[test]
    fn events() {
        let eit = eit_of(&[(5, 0, 0, &[], &advisory()), (6, 0, 0, &[], &[])]);
        assert_eq!(rating(&eit, 0, 1, 7), Ok(Rating::Value(15)));
        assert_eq!(rating(&eit, 0, 1, 8), Ok(Rating::DimensionAbsent));
        assert_eq!(rating(&eit, 0, 3, 7), Ok(Rating::RegionAbsent));
        assert_eq!(rating(&eit, 1, 1, 7), Ok(Rating::NoAdvisory));
        assert_eq!(rating(&eit, 2, 1, 7), Err(13));
        assert_eq!(rating(&smallest_section(tables_kind()), 0, 1, 7), Err(2));
        let descriptor = event_descriptor(&eit, 0, 0).unwrap();
        assert_eq!(descriptor.content.of(&eit), Some(&advisory()[2..]));
        assert_eq!(event_descriptor(&eit, 0, 1), Err(13));
        assert_eq!(event_descriptor(&eit, 2, 0), Err(13));
    }

    fn tables_kind() -> crate::Kind {
        crate::Kind::Mgt
    }
}
