//! Where a section that number 9 refuses goes wrong: a walk over the five bodies that blames one place.
//!
//! The principle is reading 10: blamed is the length or count that announced what is not there, the first byte left over,
//! or the zero count; a field that only the layout demands is blamed where it begins or would begin (reading 11).
//!
//! In the walk a container is the section cut off at the container's end, so that every offset counts from the section's
//! first byte. A walk that fails gives the place to blame, one that succeeds the place behind what it has read.

use crate::section::{header, Kind, BODY_START};
use crate::Refusal;

/// Where a body begins (reading 4).
pub(crate) const BODY: usize = BODY_START;
/// Tag of a content advisory.
pub(crate) const ADVISORY: u8 = 0x87;

type Walk = Result<usize, usize>;

/// Refusals 1 to 8; then none for a body that is right, or the offset of the place to blame.
pub fn fault(section: &[u8]) -> Result<Option<usize>, Refusal> {
    Ok(place_in(header(section, None)?.kind, body_of(section)))
}

fn place_in(kind: Kind, body: &[u8]) -> Option<usize> {
    let walked = match kind {
        Kind::Mgt => mgt(body),
        Kind::Tvct => tvct(body),
        Kind::Rrt => rrt(body),
        Kind::Eit => eit(body),
        Kind::Ett => ett(body),
    };
    walked.and_then(|at| filled(body, at)).err()
}

/// The section without its checksum: the outermost container.
pub(crate) fn body_of(section: &[u8]) -> &[u8] {
    section.get(..section.len().saturating_sub(4)).unwrap_or_default()
}

/// A descriptor list from `at` to the container's end; `eit`: content advisories are opened (reading 32).
pub(crate) fn list(within: &[u8], mut at: usize, eit: bool) -> Walk {
    while at < within.len() {
        let [tag, length] = take(within, at, at)?; // a lone tag is a byte left over (reading 30)
        let content = cut(within, at + 2, length.into(), at + 1)?;
        if eit && tag == ADVISORY {
            advisory(content, at + 2)?;
        }
        at = content.len();
    }
    Ok(at)
}

/// The `N` bytes at `at`, all within the container; else `blame`.
fn take<const N: usize>(within: &[u8], at: usize, blame: usize) -> Result<[u8; N], usize> {
    within.get(at..).and_then(|rest| rest.first_chunk()).copied().ok_or(blame)
}

/// The container of the `length` bytes at `at`, inside `within`; else `blame`.
fn cut(within: &[u8], at: usize, length: usize, blame: usize) -> Result<&[u8], usize> {
    within.get(..at + length).ok_or(blame)
}

/// Nothing is left over in the container behind `at`.
fn filled(within: &[u8], at: usize) -> Walk {
    if at < within.len() {
        Err(at)
    } else {
        Ok(at)
    }
}

fn mgt(body: &[u8]) -> Walk {
    let tables = u16::from_be_bytes(take(body, BODY, BODY)?);
    let mut at = BODY + 2;
    for _ in 0..tables {
        at = list_field(body, at + 9, 0x0FFF, false, BODY)?;
    }
    list_field(body, at, 0x0FFF, false, at)
}

fn tvct(body: &[u8]) -> Walk {
    let [channels] = take(body, BODY, BODY)?;
    let mut at = BODY + 1;
    for _ in 0..channels {
        at = list_field(body, at + 30, 0x03FF, false, BODY)?;
    }
    list_field(body, at, 0x03FF, false, at)
}

fn rrt(body: &[u8]) -> Walk {
    let mut at = text_field(body, BODY, BODY)?;
    let dimensions_at = at;
    let [dimensions] = take(body, at, at)?;
    if dimensions == 0 {
        return Err(dimensions_at);
    }
    at += 1;
    for _ in 0..dimensions {
        at = text_field(body, at, dimensions_at)?;
        let values_at = at;
        let [shared] = take(body, at, dimensions_at)?;
        let values = shared & 0x0F; // the rest: reserved bits and graduated_scale
        if values == 0 {
            return Err(values_at);
        }
        at += 1;
        for _ in 0..values {
            at = text_field(body, at, values_at)?; // short
            at = text_field(body, at, values_at)?; // long
        }
    }
    list_field(body, at, 0x03FF, false, at)
}

fn eit(body: &[u8]) -> Walk {
    let [events] = take(body, BODY, BODY)?;
    let mut at = BODY + 1;
    for _ in 0..events {
        at = text_field(body, at + 9, BODY)?;
        at = list_field(body, at, 0x0FFF, true, BODY)?;
    }
    Ok(at)
}

fn ett(body: &[u8]) -> Walk {
    let _etm_id: [u8; 4] = take(body, BODY, BODY)?;
    let at = BODY + 4;
    let [_strings] = take(body, at, at)?; // an ETT text is never none (reading 25)
    text(body, at)
}

/// A list and its two-byte length at `at`; `blame` is the place when that length itself is cut.
fn list_field(within: &[u8], at: usize, mask: u16, eit: bool, blame: usize) -> Walk {
    let length = u16::from_be_bytes(take(within, at, blame)?) & mask;
    list(cut(within, at + 2, length.into(), at)?, at + 2, eit)
}

/// A text and its one-byte length at `at`; `blame` is the place when that length itself is cut.
fn text_field(within: &[u8], at: usize, blame: usize) -> Walk {
    let [length] = take(within, at, blame)?;
    text(cut(within, at + 1, length.into(), at)?, at + 1)
}

/// A text from `at` to the container's end (readings 26, 27).
fn text(within: &[u8], mut at: usize) -> Walk {
    if at == within.len() {
        return Ok(at); // none
    }
    let strings_at = at;
    let [strings] = take(within, at, at)?;
    at += 1;
    for _ in 0..strings {
        let [_, _, _, segments] = take(within, at, strings_at)?;
        let segments_at = at + 3;
        at += 4;
        for _ in 0..segments {
            let [_, _, length] = take(within, at, segments_at)?;
            at = cut(within, at + 3, length.into(), at + 2)?.len();
        }
    }
    filled(within, at)
}

/// A content advisory from `at` to the container's end (readings 33, 34).
fn advisory(within: &[u8], mut at: usize) -> Walk {
    let regions_at = at;
    let [regions] = take(within, at, at)?;
    at += 1;
    for _ in 0..regions & 0x3F {
        let [_, dimensions] = take(within, at, regions_at)?;
        at = cut(within, at + 2, 2 * usize::from(dimensions), at + 1)?.len();
        at = text_field(within, at, regions_at)?;
    }
    filled(within, at)
}

#[cfg(test)]
mod tests {
    use super::*;
    use crate::samples::section_with;

    /// The place in this body, be it longer or shorter than a section can have it.
    fn place(table_id: u8, body: &[u8]) -> Option<usize> {
        place_in(Kind::of_table_id(table_id.into()).unwrap(), &[&[0; BODY], body].concat())
    }

    const TEA: [u8; 11] = [1, b'e', b'n', b'g', 1, 0, 0, 3, b'T', b'e', b'a'];

    /// An event; it stands at 10 when it is the first.
    fn event(title: &[u8], list: &[u8]) -> Vec<u8> {
        let start = [0, 5, 0, 0, 3, 0xE8, 0, 7, 8, title.len() as u8];
        [&start, title, &[0xF0, list.len() as u8], list].concat()
    }

    fn eit_of(events: &[Vec<u8>]) -> Vec<u8> {
        [vec![events.len() as u8], events.concat()].concat()
    }

    #[test]
    fn header_refusals_pass_through() {
        assert_eq!(fault(&[]), Err(1));
        let eit = section_with(Kind::Eit, &[0]);
        assert_eq!(fault(&eit), Ok(None));
        assert_eq!(fault(&[&[0xC9], &eit[1..]].concat()), Err(2));
        assert_eq!(fault(&eit[..13]), Err(5));
        assert_eq!(fault(&section_with(Kind::Eit, &[0, 9, 9])), Ok(Some(10)));
    }

    #[test]
    fn eit_bodies() {
        assert_eq!(place(0xCB, &[0]), None); // P1
        assert_eq!(place(0xCB, &[0, 9, 9]), Some(10));
        assert_eq!(section_with(Kind::Eit, &eit_of(&[event(&TEA, &[])])).len(), 37); // P9
        assert_eq!(place(0xCB, &eit_of(&[event(&TEA, &[])])), None);
        assert_eq!(place(0xCB, &eit_of(&[event(&[], &[]), event(&[0], &[])])), None); // P8
        assert_eq!(place(0xCB, &[1]), Some(9));
        // every cut of a right event: the count, but the lengths where they run past
        let whole = eit_of(&[event(&TEA, &[1, 2, 8, 8])]);
        for kept in 1..whole.len() {
            let want = match kept {
                ..=10 => 9,    // title_length is byte 10 of the body
                11..=21 => 19, // the title is cut: title_length
                22 | 23 => 9,  // descriptors_length is cut: the count
                _ => 31,       // the list is cut: descriptors_length at 10 + 10 + 11
            };
            assert_eq!(place(0xCB, &whole[..kept]), Some(want), "{kept}");
        }
        let mut more = eit_of(&[event(&[], &[])]);
        more[0] = 2;
        assert_eq!(place(0xCB, &more), Some(9));
    }

    #[test]
    fn texts() {
        // as title of the first event: the text begins at 20
        let title = |text: &[u8]| place(0xCB, &eit_of(&[event(text, &[])]));
        assert_eq!(title(&[0]), None);
        assert_eq!(title(&[0, 0]), Some(21));
        assert_eq!(title(&[1]), Some(20));
        assert_eq!(title(&[1, 1, 2, 3]), Some(20));
        assert_eq!(title(&[1, 1, 2, 3, 0]), None);
        assert_eq!(title(&[2, 1, 2, 3, 0]), Some(20));
        assert_eq!(title(&[1, 1, 2, 3, 0, 7]), Some(25));
        assert_eq!(title(&[1, 1, 2, 3, 1]), Some(24));
        assert_eq!(title(&[1, 1, 2, 3, 1, 9, 9]), Some(24));
        assert_eq!(title(&[1, 1, 2, 3, 1, 9, 9, 0]), None); // the pair is not judged
        assert_eq!(title(&[1, 1, 2, 3, 1, 9, 9, 1]), Some(27));
        assert_eq!(title(&[1, 1, 2, 3, 2, 9, 9, 1, 0]), Some(24));
        assert_eq!(title(&[2, 1, 2, 3, 0, 1, 2, 3, 1, 0, 0, 2, 5]), Some(31));
        assert_eq!(title(&[1, 1, 2, 3, 1, 0, 0, 1, 5, 6]), Some(29));
    }

    #[test]
    fn the_first_fault_met_decides() {
        let mut body = eit_of(&[event(&[0, 0], &[])]);
        body[0] = 2; // the second event is missing, but the title comes first
        assert_eq!(place(0xCB, &body), Some(21));
    }

    #[test]
    fn lists_and_advisories() {
        // event without title: the list begins at 22
        let list = |list: &[u8]| place(0xCB, &eit_of(&[event(&[], list)]));
        assert_eq!(list(&[7, 0]), None);
        assert_eq!(list(&[7]), Some(22));
        assert_eq!(list(&[7, 1]), Some(23));
        assert_eq!(list(&[7, 1, 0, 8]), Some(25));
        assert_eq!(list(&[7, 1, 0, 8, 3, 0, 0]), Some(26));
        assert_eq!(list(&[0x87, 0]), Some(24)); // region count missing
        assert_eq!(list(&[0x87, 1, 0]), None);
        assert_eq!(list(&[0x87, 1, 0xC0]), None);
        assert_eq!(list(&[0x87, 2, 0, 0]), Some(25));
        assert_eq!(list(&[0x87, 1, 1]), Some(24));
        assert_eq!(list(&[0x87, 2, 1, 5]), Some(24));
        assert_eq!(list(&[0x87, 3, 1, 5, 0]), Some(24)); // text length missing
        assert_eq!(list(&[0x87, 4, 1, 5, 0, 0]), None);
        assert_eq!(list(&[0x87, 5, 1, 5, 1, 0, 0]), Some(24));
        assert_eq!(list(&[0x87, 4, 1, 5, 1, 0]), Some(26));
        assert_eq!(list(&[0x87, 6, 1, 5, 1, 3, 0xF2, 0]), None);
        assert_eq!(list(&[0x87, 4, 1, 5, 0, 1]), Some(27));
        assert_eq!(list(&[0x87, 6, 1, 5, 0, 2, 0, 0]), Some(29));
        assert_eq!(list(&[0x87, 5, 1, 5, 0, 0, 9]), Some(28));
        assert_eq!(list(&[0x87, 4, 2, 5, 0, 0]), Some(24));
        assert_eq!(list(&[0x87, 1, 0, 0x87, 0]), Some(27)); // each one is judged
    }

    #[test]
    fn mgt_bodies() {
        let entry = |length: u8| [0, 0, 0xFD, 0, 0xE1, 0, 0, 0, 0, 0xF0, length];
        assert_eq!(place(0xC7, &[0, 0, 0xF0, 0]), None); // P4
        assert_eq!(place(0xC7, &[0, 0, 0xF0, 0, 1]), Some(13));
        assert_eq!(place(0xC7, &[0, 0, 0xF0, 1]), Some(11));
        assert_eq!(place(0xC7, &[0, 0, 0xF0]), Some(11));
        assert_eq!(place(0xC7, &[0, 0]), Some(11));
        assert_eq!(place(0xC7, &[0, 1, 0xF0, 0]), Some(9));
        let one = |length: u8, rest: &[u8]| place(0xC7, &[&[0, 1], &entry(length)[..], rest].concat());
        assert_eq!(one(0, &[0xF0, 0]), None);
        assert_eq!(one(2, &[0x87, 0, 0xF0, 2, 0x87, 0]), None); // opaque outside an EIT
        assert_eq!(one(0, &[]), Some(22));
        assert_eq!(one(2, &[1, 0]), Some(24));
        assert_eq!(one(3, &[1, 0]), Some(20));
        assert_eq!(one(0, &[0xF0, 1, 7]), Some(24)); // lone tag
    }

    #[test]
    fn tvct_bodies() {
        let mut entry = [0; 32];
        entry[30] = 0xFC;
        assert_eq!(place(0xC8, &[0, 0xFC, 0]), None); // P3's smallest
        assert_eq!(place(0xC8, &[&[1], &entry[..], &[0xFC, 0]].concat()), None);
        assert_eq!(place(0xC8, &[&[1], &entry[..31]].concat()), Some(9));
        assert_eq!(place(0xC8, &[&[1], &entry[..]].concat()), Some(42));
        entry[31] = 3;
        assert_eq!(place(0xC8, &[&[1], &entry[..], &[0xFC, 0]].concat()), Some(40));
        assert_eq!(place(0xC8, &[2, 0xFC, 0]), Some(9));
        assert_eq!(place(0xC8, &[0, 0xFC, 0, 5]), Some(12));
    }

    #[test]
    fn rrt_bodies() {
        assert_eq!(place(0xCA, &[0, 1, 0, 0xE1, 0, 0, 0xFC, 0]), None); // P5
        assert_eq!(place(0xCA, &[7, 1, 0, 0xE1, 0, 0, 0xFC]), Some(9));
        assert_eq!(place(0xCA, &[1, 0]), Some(11)); // dimension count missing
        assert_eq!(place(0xCA, &[0, 0, 0, 0xE1, 0, 0, 0xFC, 0]), Some(10));
        assert_eq!(place(0xCA, &[0, 1]), Some(10));
        assert_eq!(place(0xCA, &[0, 1, 0]), Some(10)); // values byte missing
        assert_eq!(place(0xCA, &[0, 1, 1]), Some(11));
        assert_eq!(place(0xCA, &[0, 1, 0, 0xF0, 0, 0, 0xFC, 0]), Some(12));
        assert_eq!(place(0xCA, &[0, 1, 0, 0xE2, 0, 0, 0]), Some(12));
        assert_eq!(place(0xCA, &[0, 1, 0, 0xE1, 3, 0]), Some(13));
        assert_eq!(place(0xCA, &[0, 1, 0, 0xE1, 0, 3]), Some(14));
        assert_eq!(place(0xCA, &[0, 1, 0, 0xE1, 0, 0]), Some(15));
        assert_eq!(place(0xCA, &[0, 1, 0, 0xE1, 0, 0, 0xFC]), Some(15));
        assert_eq!(place(0xCA, &[0, 2, 0, 0xE1, 0, 0]), Some(10));
        assert_eq!(place(0xCA, &[0, 1, 0, 0xE1, 0, 0, 0xFC, 0, 1]), Some(17));
    }

    #[test]
    fn ett_bodies() {
        assert_eq!(place(0xCC, &[0, 7, 0, 2, 0]), None); // P6
        assert_eq!(place(0xCC, &[0, 7, 0, 2]), Some(13));
        assert_eq!(place(0xCC, &[0, 7, 0, 2, 0, 0]), Some(14));
        assert_eq!(place(0xCC, &[&[0, 7, 0, 2], &TEA[..]].concat()), None);
        assert_eq!(place(0xCC, &[&[0, 7, 0, 2], &TEA[..10]].concat()), Some(20));
    }

    #[test]
    fn the_place_lies_in_the_body_or_at_its_end() {
        let mut seed = 1u32;
        let mut next = || {
            seed = seed.wrapping_mul(1_664_525).wrapping_add(1_013_904_223);
            (seed >> 24) as u8
        };
        for round in 0..3000 {
            let table_id = [0xC7, 0xC8, 0xCA, 0xCB, 0xCC][round % 5];
            // small numbers mostly, so that the walk gets deep; bodies of eight bytes or more are long enough for 4 in every kind
            let body: Vec<u8> = (0..8 + next() % 64).map(|_| if next() < 20 { 0x87 } else { next() % 4 }).collect();
            let end = BODY + body.len();
            assert!(place(table_id, &body).is_none_or(|at| (BODY..=end).contains(&at)));
        }
    }
}
