//! Questions about a descriptor list that was taken out of an event of an EIT: the list alone, no section around it.
//!
//! Each call judges the whole list by 9 first (reading 83), then answers from its bytes.

use crate::fault::{self, ADVISORY};
use crate::field::Part;
use crate::Refusal;

#[derive(Clone, Debug, PartialEq, Eq)]
pub struct Descriptor {
    pub tag: u8,
    pub content: Part,
}

/// What an advisory says for one region.
#[derive(Clone, Debug, PartialEq, Eq)]
pub struct Region {
    pub region: u8,
    /// Dimension and value, in byte order.
    pub dimensions: Vec<(u8, u8)>,
    pub text: Part,
}

#[derive(Clone, Debug, PartialEq, Eq)]
pub enum Rating {
    NoAdvisory,
    RegionAbsent,
    DimensionAbsent,
    Value(u8),
}

#[derive(Clone, Debug, PartialEq, Eq)]
pub enum Advice {
    NoAdvisory,
    RegionAbsent,
    Region(Region),
}

/// The descriptor of that number, counted from 0 over all tags.
pub fn list_descriptor(bytes: &[u8], number: usize) -> Result<Descriptor, Refusal> {
    descriptors(bytes)?.into_iter().nth(number).ok_or(13)
}

/// What the list says of this dimension of this region; the first match decides at each step (reading 88).
pub fn list_rating(bytes: &[u8], region: u32, dimension: u32) -> Result<Rating, Refusal> {
    let found = match list_advice(bytes, region)? {
        Advice::NoAdvisory => return Ok(Rating::NoAdvisory),
        Advice::RegionAbsent => return Ok(Rating::RegionAbsent),
        Advice::Region(found) => found,
    };
    let value = found.dimensions.iter().find(|entry| u32::from(entry.0) == dimension);
    Ok(value.map_or(Rating::DimensionAbsent, |entry| Rating::Value(entry.1)))
}

/// All that the first advisory says for its first such region.
pub fn list_advice(bytes: &[u8], region: u32) -> Result<Advice, Refusal> {
    let Some(advisory) = descriptors(bytes)?.into_iter().find(|descriptor| descriptor.tag == ADVISORY) else {
        return Ok(Advice::NoAdvisory);
    };
    let found = regions(bytes, advisory.content).into_iter().find(|entry| u32::from(entry.region) == region);
    Ok(found.map_or(Advice::RegionAbsent, Advice::Region))
}

fn descriptors(bytes: &[u8]) -> Result<Vec<Descriptor>, Refusal> {
    fault::list(bytes, 0, true).map_err(|_| 9)?;
    let mut found = Vec::new();
    let mut at = 0;
    while at < bytes.len() {
        let content = Part { start: at + 2, length: byte(bytes, at + 1).into() };
        found.push(Descriptor { tag: byte(bytes, at), content });
        at = content.start + content.length;
    }
    Ok(found)
}

/// The regions of an advisory that `descriptors` has judged.
fn regions(bytes: &[u8], advisory: Part) -> Vec<Region> {
    let mut found = Vec::new();
    let mut at = advisory.start + 1;
    for _ in 0..byte(bytes, advisory.start) & 0x3F {
        let region = byte(bytes, at);
        let count = usize::from(byte(bytes, at + 1));
        at += 2;
        let dimensions = (0..count).map(|k| (byte(bytes, at + 2 * k), byte(bytes, at + 2 * k + 1) & 0x0F)).collect();
        at += 2 * count;
        let text = Part { start: at + 1, length: byte(bytes, at).into() };
        at = text.start + text.length;
        found.push(Region { region, dimensions, text });
    }
    found
}

/// A byte of a list that has been judged; the 0 is for no case that exists, it only spares a panic.
fn byte(bytes: &[u8], at: usize) -> u8 {
    bytes.get(at).copied().unwrap_or(0)
}

#[cfg(test)]
mod tests {
    use super::*;

    /// 0..3 an opaque one; 3..24 an advisory with regions 1, 2, 1; 24..31 a second advisory with region 9.
    const LIST: [u8; 31] = [
        0x10, 1, 0xFF, //
        0x87, 19, 0xC3, //
        1, 2, 4, 0xF6, 4, 7, 1, 0, // region 1 at 6: dimension 4 twice, a text of no strings
        2, 0, 0, // region 2 at 14: nothing
        1, 2, 5, 15, 4, 1, 0, // region 1 again at 17
        0x87, 5, 1, 9, 0, 1, 0, // the second
    ];

    #[test]
    fn descriptors_by_number() {
        let part = |start, length| Part { start, length };
        assert_eq!(list_descriptor(&LIST, 0), Ok(Descriptor { tag: 0x10, content: part(2, 1) }));
        assert_eq!(list_descriptor(&LIST, 1), Ok(Descriptor { tag: 0x87, content: part(5, 19) }));
        assert_eq!(list_descriptor(&LIST, 2), Ok(Descriptor { tag: 0x87, content: part(26, 5) }));
        assert_eq!(list_descriptor(&LIST, 3), Err(13));
        assert_eq!(list_descriptor(&LIST, usize::MAX), Err(13));
        assert_eq!(list_descriptor(&[], 0), Err(13));
        assert_eq!(list_descriptor(&[5, 0], 0), Ok(Descriptor { tag: 5, content: part(2, 0) }));
    }

    #[test]
    fn the_whole_list_is_judged_first() {
        for bad in [
            &[5][..],
            &[5, 1],
            &[5, 0, 6],
            &[5, 0, 0x87, 0],
            &[5, 0, 0x87, 2, 0, 0],
            &[5, 0, 0x87, 6, 1, 1, 0, 2, 0, 0],
        ] {
            assert_eq!(list_descriptor(bad, 0), Err(9));
            assert_eq!(list_rating(bad, 1, 1), Err(9));
            assert_eq!(list_advice(bad, 1), Err(9));
        }
    }

    #[test]
    fn ratings() {
        assert_eq!(list_rating(&[], 1, 4), Ok(Rating::NoAdvisory));
        assert_eq!(list_rating(&LIST[..3], 1, 4), Ok(Rating::NoAdvisory));
        assert_eq!(list_rating(&LIST, 1, 4), Ok(Rating::Value(6)));
        assert_eq!(list_rating(&LIST, 1, 5), Ok(Rating::DimensionAbsent)); // only in the second entry
        assert_eq!(list_rating(&LIST, 2, 4), Ok(Rating::DimensionAbsent));
        assert_eq!(list_rating(&LIST, 9, 0), Ok(Rating::RegionAbsent)); // only in the second advisory
        assert_eq!(list_rating(&LIST, 257, 4), Ok(Rating::RegionAbsent));
        assert_eq!(list_rating(&LIST, 1, 260), Ok(Rating::DimensionAbsent));
        assert_eq!(list_rating(&[0x87, 1, 0xC0], 0, 0), Ok(Rating::RegionAbsent));
        assert_eq!(list_rating(&[0x87, 6, 1, 0, 1, 0, 0xF0, 0], 0, 0), Ok(Rating::Value(0)));
    }

    #[test]
    fn advice() {
        let first = Region { region: 1, dimensions: vec![(4, 6), (4, 7)], text: Part { start: 13, length: 1 } };
        assert_eq!(list_advice(&LIST, 1), Ok(Advice::Region(first)));
        let second = Region { region: 2, dimensions: vec![], text: Part { start: 17, length: 0 } };
        assert_eq!(list_advice(&LIST, 2), Ok(Advice::Region(second)));
        assert_eq!(list_advice(&LIST, 9), Ok(Advice::RegionAbsent));
        assert_eq!(list_advice(&LIST, u32::MAX), Ok(Advice::RegionAbsent));
        assert_eq!(list_advice(&LIST[..3], 1), Ok(Advice::NoAdvisory));
    }
}
