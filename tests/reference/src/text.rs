//! Texts: the structure of a text field, and the units of one of its strings. Refusals in the order
//! 9, 13, then 10 or 11 of the first faulty segment of the string asked for, then 12.

use crate::annex_c;
use crate::field::{Cursor, Fault, Part};
use crate::tables::entry;
use crate::Refusal;

#[derive(Clone, Debug, PartialEq, Eq)]
pub struct TextString {
    pub language: [u8; 3],
    pub segments: Vec<Segment>,
}

#[derive(Clone, Copy, Debug, PartialEq, Eq)]
pub struct Segment {
    pub compression: u8,
    pub mode: u8,
    pub bytes: Part,
}

#[derive(Clone, Copy, Debug, PartialEq, Eq)]
pub struct Heading {
    pub language: [u8; 3],
    pub segments: usize,
}

/// The strings of the text field that is the given part of `bytes`. An empty field has none and is sound.
pub(crate) fn strings(bytes: &[u8], part: Part) -> Result<Vec<TextString>, Fault> {
    let mut cursor = Cursor::over(bytes, part);
    let mut strings = Vec::new();
    if cursor.at_end() {
        return Ok(strings);
    }
    for _ in 0..cursor.field(0, 8)? {
        let language = cursor.octets()?;
        let mut segments = Vec::new();
        for _ in 0..cursor.field(0, 8)? {
            segments.push(Segment {
                compression: cursor.field(0, 8)? as u8,
                mode: cursor.field(0, 8)? as u8,
                bytes: cursor.counted(0, 8)?,
            });
        }
        strings.push(TextString { language, segments });
    }
    cursor.finish()?;
    Ok(strings)
}

/// Refusal 9 for a text field taken alone.
fn sound(bytes: &[u8], part: Part) -> Result<Vec<TextString>, Refusal> {
    strings(bytes, part).map_err(|_| 9)
}

/// The units of one segment: refusals 10 and 11.
fn segment_units(bytes: &[u8], segment: &Segment) -> Result<Vec<u16>, Refusal> {
    let content = segment.bytes.of(bytes).ok_or(9)?;
    match (segment.compression, segment.mode) {
        (0, 0) => Ok(content.iter().map(|&byte| u16::from(byte)).collect()),
        (0, 0x3F) if content.len() % 2 != 0 => Err(11),
        (0, 0x3F) => Ok(content.chunks_exact(2).map(|pair| u16::from_be_bytes([pair[0], pair[1]])).collect()),
        (1, 0) => annex_c::type_1().decode(content).ok_or(11),
        (2, 0) => annex_c::type_2().decode(content).ok_or(11),
        _ => Err(10),
    }
}

fn heading_in(bytes: &[u8], part: Part, number: usize) -> Result<Heading, Refusal> {
    let string = entry(sound(bytes, part)?, number)?;
    Ok(Heading { language: string.language, segments: string.segments.len() })
}

fn units_in(bytes: &[u8], part: Part, number: usize) -> Result<Vec<u16>, Refusal> {
    let string = entry(sound(bytes, part)?, number)?;
    let mut units = Vec::new();
    for segment in &string.segments {
        units.extend(segment_units(bytes, segment)?);
    }
    Ok(units)
}

/// Refusal 12: the whole string must fit.
fn within(units: Vec<u16>, room: usize) -> Result<Vec<u16>, Refusal> {
    if units.len() > room {
        Err(12)
    } else {
        Ok(units)
    }
}

/// How many strings a text field has; an empty field has none (reading 49).
pub fn number_of_strings(text: &[u8]) -> Result<usize, Refusal> {
    Ok(sound(text, Part::whole(text))?.len())
}

pub fn heading(text: &[u8], number: usize) -> Result<Heading, Refusal> {
    heading_in(text, Part::whole(text), number)
}

pub fn units(text: &[u8], number: usize) -> Result<Vec<u16>, Refusal> {
    units_in(text, Part::whole(text), number)
}

/// The units where an output of `room` units is given.
pub fn units_within(text: &[u8], number: usize, room: usize) -> Result<Vec<u16>, Refusal> {
    within(units(text, number)?, room)
}

#[cfg(test)]
mod tests {
    use super::*;
    use crate::samples::*;

    fn one(compression: u8, mode: u8, content: &[u8]) -> Vec<u8> {
        text(&[&[(compression, mode, content)]])
    }

    #[test]
    fn p9_tea() {
        let tea = tea();
        assert_eq!(tea.len(), 11);
        assert_eq!(number_of_strings(&tea), Ok(1));
        assert_eq!(heading(&tea, 0), Ok(Heading { language: *b"eng", segments: 1 }));
        assert_eq!(units(&tea, 0), Ok("Tea".encode_utf16().collect()));
        assert_eq!(units(&tea, 1), Err(13));
        assert_eq!(heading(&tea, 1), Err(13));
    }

    #[test]
    fn p12_utf16() {
        assert_eq!(units(&one(0, 0x3F, &[]), 0), Ok(vec![]));
        assert_eq!(units(&one(0, 0x3F, &[1, 2, 3]), 0), Err(11));
        assert_eq!(units(&one(0, 0x3F, &[0xD8, 0x3D, 0, 9]), 0), Ok(vec![0xD83D, 9]));
    }

    #[test]
    fn blanks_answer_13() {
        for blank in [&[][..], &[0][..]] {
            assert_eq!(number_of_strings(blank), Ok(0));
            assert_eq!(heading(blank, 0), Err(13));
            assert_eq!(units(blank, 0), Err(13));
            assert_eq!(units_within(blank, 0, 0), Err(13));
        }
        let no_segments = text(&[&[]]);
        assert_eq!(units_within(&no_segments, 0, 0), Ok(vec![]));
    }

    #[test]
    fn structure_is_filled_exactly() {
        let tea = tea();
        for length in 1..tea.len() {
            assert_eq!(units(&tea[..length], 5), Err(9), "{length}");
        }
        let mut longer = tea.clone();
        longer.push(0);
        assert_eq!(units(&longer, 0), Err(9));
        assert_eq!(strings(&longer, Part::whole(&longer)), Err(11));
        assert_eq!(units(&[0, 0], 0), Err(9));
        // Where it shows: language cut, number_segments cut, number_bytes too large.
        let at = |bytes: &[u8]| strings(bytes, Part::whole(bytes)).err();
        assert_eq!(at(&tea[..1]), Some(1));
        assert_eq!(at(&tea[..3]), Some(1));
        assert_eq!(at(&tea[..4]), Some(4));
        assert_eq!(at(&tea[..5]), Some(5));
        assert_eq!(at(&tea[..7]), Some(7));
        assert_eq!(at(&tea[..10]), Some(7));
    }

    #[test]
    fn pairs() {
        for compression in 0..=255u8 {
            for mode in 0..=255u8 {
                let read = matches!((compression, mode), (0, 0) | (0, 0x3F) | (1, 0) | (2, 0));
                let answer = units(&one(compression, mode, &[]), 0);
                assert_eq!(answer == Err(10), !read, "{compression} {mode}");
            }
        }
    }

    #[test]
    fn first_faulty_segment_then_12() {
        let broken_first = text(&[&[(0, 0, b"a"), (0, 0x3F, b"abc"), (9, 9, b"")]]);
        assert_eq!(units_within(&broken_first, 0, 0), Err(11));
        let unread_first = text(&[&[(0, 0, b"a"), (9, 9, b""), (0, 0x3F, b"abc")]]);
        assert_eq!(units_within(&unread_first, 0, 0), Err(10));
        let two = text(&[&[(0, 0, b"ab"), (0, 0x3F, &[0, 99])], &[(7, 7, b"")]]);
        assert_eq!(units_within(&two, 0, 2), Err(12));
        assert_eq!(units_within(&two, 0, 3), Ok(vec![97, 98, 99]));
        assert_eq!(units_within(&two, 1, 3), Err(10));
        assert_eq!(units_within(&two, 2, 3), Err(13));
    }

    #[test]
    fn compressed_segments_start_afresh() {
        // "The next" with its terminate, F2.4: 39 bits in five bytes.
        let coded = annex_c::tests::encode(1, "The next");
        assert_eq!(coded.len(), 5);
        let both = text(&[&[(1, 0, &coded), (1, 0, &coded), (0, 0, b"!")]]);
        assert_eq!(units(&both, 0), Ok("The nextThe next!".encode_utf16().collect()));
        assert_eq!(units(&one(1, 0, &[]), 0), Err(11));
        assert_eq!(units(&one(2, 0, &[]), 0), Err(11));
    }
}
