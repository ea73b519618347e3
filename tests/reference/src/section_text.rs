//! A text asked of a whole section: where it stands, its strings, their language and their units.

use crate::annex_c;
use crate::fault::{body_of, BODY};
use crate::field::Part;
use crate::list::{list_advice, Advice};
use crate::section::{judge, Kind};
use crate::Refusal;

#[derive(Clone, Copy, Debug, PartialEq, Eq)]
pub enum Where {
    RegionName,
    DimensionName(usize),
    /// Dimension, value.
    ShortValue(usize, usize),
    LongValue(usize, usize),
    EventTitle(usize),
    AdvisoryText {
        event: usize,
        region: u32,
    },
    Ett,
}

impl Where {
    fn kind(self) -> Kind {
        match self {
            Where::RegionName | Where::DimensionName(_) | Where::ShortValue(..) | Where::LongValue(..) => Kind::Rrt,
            Where::EventTitle(_) | Where::AdvisoryText { .. } => Kind::Eit,
            Where::Ett => Kind::Ett,
        }
    }
}

/// Where the text's bytes stand in the section, without their length byte; a text of none is an empty part (reading 98).
pub fn text_at(section: &[u8], place: Where) -> Result<Part, Refusal> {
    let kind = place.kind();
    judge(section, Some(kind))?;
    let cursor = Cursor { bytes: body_of(section), at: BODY };
    match kind {
        Kind::Rrt => in_rrt(cursor, place),
        Kind::Eit => in_eit(cursor, place),
        _ => in_ett(cursor),
    }
}

pub fn section_number_of_strings(section: &[u8], place: Where) -> Result<usize, Refusal> {
    Ok(strings(section, place)?.len())
}

/// Language and number of segments; the segments' pairs and contents are not judged (reading 102).
pub fn section_language(section: &[u8], place: Where, string: usize) -> Result<([u8; 3], usize), Refusal> {
    let found = asked(section, place, string)?;
    Ok((found.language, found.segments.len()))
}

pub fn section_units(section: &[u8], place: Where, string: usize) -> Result<Vec<u16>, Refusal> {
    let mut units = Vec::new();
    for segment in asked(section, place, string)?.segments {
        units.extend(segment.units()?);
    }
    Ok(units)
}

/// As `section_units` when an output of `room` units is lent.
pub fn section_units_within(section: &[u8], place: Where, string: usize, room: usize) -> Result<Vec<u16>, Refusal> {
    let units = section_units(section, place, string)?;
    if units.len() > room {
        return Err(12);
    }
    Ok(units)
}

/// A place in a container. Going past its end is 9, which `judge` has given before (reading 6).
struct Cursor<'a> {
    bytes: &'a [u8],
    at: usize,
}

impl<'a> Cursor<'a> {
    fn take(&mut self, length: usize) -> Result<&'a [u8], Refusal> {
        let taken = self.bytes.get(self.at..).and_then(|rest| rest.get(..length)).ok_or(9)?;
        self.at += length;
        Ok(taken)
    }

    fn array<const N: usize>(&mut self) -> Result<[u8; N], Refusal> {
        self.take(N)?.try_into().map_err(|_| 9)
    }

    fn part(&mut self, length: usize) -> Result<Part, Refusal> {
        let start = self.at;
        self.take(length)?;
        Ok(Part { start, length })
    }

    /// A text with its length byte.
    fn text(&mut self) -> Result<Part, Refusal> {
        let [length] = self.array()?;
        self.part(length.into())
    }
}

fn in_rrt(mut cursor: Cursor, place: Where) -> Result<Part, Refusal> {
    let name = cursor.text()?;
    if place == Where::RegionName {
        return Ok(name);
    }
    let [dimensions] = cursor.array()?;
    for dimension in 0..dimensions.into() {
        let name = cursor.text()?;
        if place == Where::DimensionName(dimension) {
            return Ok(name);
        }
        let [values] = cursor.array()?;
        for value in 0..(values & 0x0F).into() {
            let short = cursor.text()?;
            let long = cursor.text()?;
            if place == Where::ShortValue(dimension, value) {
                return Ok(short);
            }
            if place == Where::LongValue(dimension, value) {
                return Ok(long);
            }
        }
    }
    Err(13)
}

fn in_eit(mut cursor: Cursor, place: Where) -> Result<Part, Refusal> {
    let [events] = cursor.array()?;
    for number in 0..events.into() {
        cursor.take(9)?;
        let title = cursor.text()?;
        let length = u16::from_be_bytes(cursor.array()?) & 0x0FFF;
        let start = cursor.at;
        let list = cursor.take(length.into())?;
        match place {
            Where::EventTitle(event) if event == number => return Ok(title),
            Where::AdvisoryText { event, region } if event == number => return in_list(list, start, region),
            _ => {}
        }
    }
    Err(13)
}

/// The text of a region in the advisory of a list that begins at `start` (readings 96, 97).
fn in_list(list: &[u8], start: usize, region: u32) -> Result<Part, Refusal> {
    match list_advice(list, region)? {
        Advice::Region(found) => Ok(Part { start: start + found.text.start, length: found.text.length }),
        Advice::NoAdvisory | Advice::RegionAbsent => Err(13),
    }
}

/// All behind ETM_id.
fn in_ett(mut cursor: Cursor) -> Result<Part, Refusal> {
    cursor.take(4)?;
    cursor.part(cursor.bytes.len() - cursor.at)
}

struct Segment<'a> {
    compression: u8,
    mode: u8,
    bytes: &'a [u8],
}

impl Segment<'_> {
    /// The segment's units, or 10 or 11 (readings 105 to 108).
    fn units(&self) -> Result<Vec<u16>, Refusal> {
        match (self.compression, self.mode) {
            (0, 0) => Ok(self.bytes.iter().copied().map(u16::from).collect()),
            (0, 0x3F) if self.bytes.len() % 2 == 1 => Err(11),
            (0, 0x3F) => {
                Ok(self.bytes.chunks_exact(2).map(|pair| u16::from(pair[0]) << 8 | u16::from(pair[1])).collect())
            }
            (1, 0) => annex_c::type_1().decode(self.bytes).ok_or(11),
            (2, 0) => annex_c::type_2().decode(self.bytes).ok_or(11),
            _ => Err(10),
        }
    }
}

struct Text<'a> {
    language: [u8; 3],
    segments: Vec<Segment<'a>>,
}

/// The string of that number; none, no strings and too high a number are 13 alike (reading 101).
fn asked(section: &[u8], place: Where, string: usize) -> Result<Text<'_>, Refusal> {
    strings(section, place)?.into_iter().nth(string).ok_or(13)
}

/// The strings of a text; a text of none has as few as one of no strings (reading 100).
fn strings(section: &[u8], place: Where) -> Result<Vec<Text<'_>>, Refusal> {
    let part = text_at(section, place)?;
    let bytes = section.get(part.start..).and_then(|rest| rest.get(..part.length)).ok_or(9)?;
    let mut found = Vec::new();
    if bytes.is_empty() {
        return Ok(found);
    }
    let mut cursor = Cursor { bytes, at: 0 };
    let [count] = cursor.array()?;
    for _ in 0..count {
        let language = cursor.array()?;
        let [number_of_segments] = cursor.array()?;
        let mut segments = Vec::new();
        for _ in 0..number_of_segments {
            let [compression, mode, length] = cursor.array()?;
            segments.push(Segment { compression, mode, bytes: cursor.take(length.into())? });
        }
        found.push(Text { language, segments });
    }
    Ok(found)
}

#[cfg(test)]
mod tests {
    use super::*;
    use crate::samples::section_with;

    fn section(table_id: u8, body: &[u8]) -> Vec<u8> {
        section_with(Kind::of_table_id(table_id.into()).unwrap(), body)
    }

    fn ett(text: &[u8]) -> Vec<u8> {
        section(0xCC, &[&[0, 7, 0, 2], text].concat())
    }

    fn part(start: usize, length: usize) -> Result<Part, Refusal> {
        Ok(Part { start, length })
    }

    const TEA: [u8; 11] = [1, b'e', b'n', b'g', 1, 0, 0, 3, b'T', b'e', b'a'];

    #[test]
    fn rrt_places() {
        // name of none; dimension 0: name 0 at 12, values 2; dimension 1: no name, one value
        let rrt = section(0xCA, &[0, 2, 1, 0, 0xF2, 1, 0, 0, 0, 1, 0, 0, 0xE1, 0, 1, 0, 0xFC, 0]);
        assert_eq!(text_at(&rrt, Where::RegionName), part(10, 0));
        assert_eq!(text_at(&rrt, Where::DimensionName(0)), part(12, 1));
        assert_eq!(text_at(&rrt, Where::ShortValue(0, 0)), part(15, 1));
        assert_eq!(text_at(&rrt, Where::LongValue(0, 0)), part(17, 0));
        assert_eq!(text_at(&rrt, Where::ShortValue(0, 1)), part(18, 0));
        assert_eq!(text_at(&rrt, Where::LongValue(0, 1)), part(19, 1));
        assert_eq!(text_at(&rrt, Where::DimensionName(1)), part(21, 0));
        assert_eq!(text_at(&rrt, Where::ShortValue(1, 0)), part(23, 0));
        assert_eq!(text_at(&rrt, Where::LongValue(1, 0)), part(24, 1));
        for absent in [
            Where::DimensionName(2),
            Where::ShortValue(0, 2),
            Where::LongValue(1, 1),
            Where::LongValue(2, 0),
            Where::ShortValue(usize::MAX, usize::MAX),
        ] {
            assert_eq!(text_at(&rrt, absent), Err(13));
            assert_eq!(section_number_of_strings(&rrt, absent), Err(13));
        }
        assert_eq!(text_at(&rrt, Where::Ett), Err(2));
        assert_eq!(text_at(&rrt, Where::EventTitle(0)), Err(2));
        assert_eq!(text_at(&[], Where::RegionName), Err(1));
    }

    #[test]
    fn eit_places() {
        let list = [
            0x10, 0, 0x87, 18, 2, 1, 0, 11, 1, b'e', b'n', b'g', 1, 0, 0, 3, b'T', b'e', b'a', 3, 0, 0, 0x87, 4, 1, 9,
            0, 0,
        ];
        let first = [&[0, 5, 0, 0, 3, 0xE8, 0, 7, 8, 11][..], &TEA, &[0xF0, 28], &list].concat();
        let second = [0, 6, 0, 0, 3, 0xE8, 0, 7, 8, 0, 0xF0, 0];
        let eit = section(0xCB, &[&[2], &first[..], &second].concat());
        assert_eq!(text_at(&eit, Where::EventTitle(0)), part(20, 11));
        assert_eq!(text_at(&eit, Where::EventTitle(1)), part(71, 0)); // 10 + 51 + 10
        assert_eq!(text_at(&eit, Where::EventTitle(2)), Err(13));
        let advisory = |event, region| Where::AdvisoryText { event, region };
        assert_eq!(text_at(&eit, advisory(0, 1)), part(41, 11)); // list at 33
        assert_eq!(text_at(&eit, advisory(0, 3)), part(55, 0));
        assert_eq!(text_at(&eit, advisory(0, 9)), Err(13)); // only in the second advisory
        assert_eq!(text_at(&eit, advisory(0, 257)), Err(13));
        assert_eq!(text_at(&eit, advisory(1, 1)), Err(13)); // no advisory
        assert_eq!(text_at(&eit, advisory(2, 1)), Err(13));
        for place in [Where::EventTitle(0), advisory(0, 1)] {
            assert_eq!(section_units(&eit, place, 0), Ok(vec![84, 101, 97]));
            assert_eq!(section_language(&eit, place, 0), Ok((*b"eng", 1)));
            assert_eq!(section_units(&eit, place, 1), Err(13));
        }
        assert_eq!(section_units(&eit, Where::EventTitle(1), 0), Err(13));
        assert_eq!(section_number_of_strings(&eit, Where::EventTitle(1)), Ok(0));
    }

    #[test]
    fn strings_and_languages() {
        assert_eq!(text_at(&ett(&[0]), Where::Ett), part(13, 1));
        assert_eq!(section_number_of_strings(&ett(&[0]), Where::Ett), Ok(0));
        assert_eq!(section_language(&ett(&[0]), Where::Ett, 0), Err(13));
        let two = ett(&[2, 1, 2, 3, 0, 4, 5, 6, 2, 9, 9, 0, 0, 0, 1, 7]);
        assert_eq!(section_number_of_strings(&two, Where::Ett), Ok(2));
        assert_eq!(section_language(&two, Where::Ett, 0), Ok(([1, 2, 3], 0)));
        assert_eq!(section_language(&two, Where::Ett, 1), Ok(([4, 5, 6], 2))); // its pair is unread
        assert_eq!(section_language(&two, Where::Ett, 2), Err(13));
        assert_eq!(section_units(&two, Where::Ett, 0), Ok(vec![])); // the other string is not judged
        assert_eq!(section_units(&two, Where::Ett, 1), Err(10));
        assert_eq!(section_units(&two, Where::Ett, usize::MAX), Err(13));
    }

    #[test]
    fn units() {
        let of = |segments: &[&[u8]]| {
            let text = [&[1, 0, 0, 0, segments.len() as u8], &segments.concat()[..]].concat();
            section_units(&ett(&text), Where::Ett, 0)
        };
        assert_eq!(of(&[]), Ok(vec![]));
        assert_eq!(of(&[&[0, 0, 2, 0, 255], &[0, 0x3F, 4, 0xD8, 0, 0, 65]]), Ok(vec![0, 255, 0xD800, 65]));
        assert_eq!(of(&[&[0, 0x3F, 0]]), Ok(vec![])); // P12
        assert_eq!(of(&[&[0, 0x3F, 3, 1, 2, 3]]), Err(11)); // P12
        for (compression, mode) in [(0, 1), (0, 0x3E), (0, 0xFF), (1, 0x3F), (2, 1), (3, 0), (255, 0)] {
            assert_eq!(of(&[&[compression, mode, 0]]), Err(10));
        }
        assert_eq!(of(&[&[1, 0, 0]]), Err(11)); // the bits end early
        assert_eq!(of(&[&[0, 0x3F, 1, 1], &[9, 9, 0]]), Err(11));
        assert_eq!(of(&[&[9, 9, 0], &[0, 0x3F, 1, 1]]), Err(10));
    }

    #[test]
    fn room() {
        let tea = ett(&TEA);
        assert_eq!(section_units_within(&tea, Where::Ett, 0, 2), Err(12));
        assert_eq!(section_units_within(&tea, Where::Ett, 0, 3), Ok(vec![84, 101, 97]));
        assert_eq!(section_units_within(&tea, Where::Ett, 0, usize::MAX), Ok(vec![84, 101, 97]));
        assert_eq!(section_units_within(&tea, Where::Ett, 1, 0), Err(13));
        let empty = ett(&[1, 0, 0, 0, 0]);
        assert_eq!(section_units_within(&empty, Where::Ett, 0, 0), Ok(vec![]));
        let late = ett(&[1, 0, 0, 0, 2, 0, 0, 1, 65, 0, 0x3F, 1, 65]);
        assert_eq!(section_units_within(&late, Where::Ett, 0, 0), Err(11)); // before 12
    }

    #[test]
    fn no_bytes_panic() {
        let places = [
            Where::RegionName,
            Where::LongValue(9, 9),
            Where::EventTitle(9),
            Where::AdvisoryText { event: 0, region: 0 },
            Where::Ett,
        ];
        for table_id in [0xCA, 0xCB, 0xCC] {
            for fill in [0, 1, 0x87, 0xFF] {
                for length in 0..60 {
                    let mut bytes = vec![fill; length];
                    if let Some(first) = bytes.first_mut() {
                        *first = table_id;
                    }
                    for place in places {
                        let _ = section_units(&bytes, place, 0);
                    }
                }
            }
        }
    }
}
