//! Writing EIT and ETT sections. Refusals in the order 23, 8, 9, 24. Reserved bits are written as 1.

use crate::field::Part;
use crate::rating;
use crate::section::{checksum, Kind, BODY_START, CHECKSUM_BYTES, LENGTH_END};
use crate::text;
use crate::Refusal;

/// The header's numbers as given, which may be too large for their fields.
#[derive(Clone, Copy, Debug, PartialEq, Eq)]
pub struct HeaderNumbers {
    pub extension: u64,
    pub version: u64,
    pub current_next: u64,
    pub section_number: u64,
    pub last_section_number: u64,
}

/// Numbers in the row of an event: event_id, start_time, ETM_location, length_in_seconds, title start, title length,
/// descriptors start, descriptors length.
pub const ROW: usize = 8;

/// Refusal 23 for one field.
fn fits(value: u64, bits: u32) -> Result<(), Refusal> {
    if value >> bits == 0 {
        Ok(())
    } else {
        Err(23)
    }
}

impl HeaderNumbers {
    /// Refusal 23 for the header's fields.
    fn fit(&self) -> Result<(), Refusal> {
        fits(self.extension, 16)?;
        fits(self.version, 5)?;
        fits(self.current_next, 1)?;
        fits(self.section_number, 8)?;
        fits(self.last_section_number, 8)
    }

    /// Refusal 8.
    fn agree(&self, kind: Kind) -> Result<(), Refusal> {
        if kind.numbers_agree(self.section_number, self.last_section_number) {
            Ok(())
        } else {
            Err(8)
        }
    }
}

/// Refusal 24, and the whole section around a body.
fn section(kind: Kind, header: &HeaderNumbers, body: &[u8], room: usize) -> Result<Vec<u8>, Refusal> {
    let total = BODY_START + body.len() + CHECKSUM_BYTES;
    let length = total - LENGTH_END;
    if length > kind.largest() || total > room {
        return Err(24);
    }
    let mut bytes = vec![kind.table_id()];
    bytes.extend((0xF000 | length as u16).to_be_bytes());
    bytes.extend((header.extension as u16).to_be_bytes());
    bytes.push(0xC0 | (header.version as u8) << 1 | header.current_next as u8);
    bytes.push(header.section_number as u8);
    bytes.push(header.last_section_number as u8);
    bytes.push(0);
    bytes.extend(body);
    // Fed its own value, the register ends at 0.
    let register = checksum(&bytes);
    bytes.extend(register.to_be_bytes());
    Ok(bytes)
}

/// The bytes a row points to; refusal 9 where they are not all there (reading 72).
fn given(bytes: &[u8], start: u64, length: u64) -> Result<&[u8], Refusal> {
    let start = usize::try_from(start).map_err(|_| 9)?;
    let length = usize::try_from(length).map_err(|_| 9)?;
    Part { start, length }.of(bytes).ok_or(9)
}

/// An EIT of `count` events, each a row of eight numbers; `bytes` holds the titles and descriptor lists.
pub fn write_eit(
    header: &HeaderNumbers,
    count: u64,
    rows: &[u64],
    bytes: &[u8],
    room: usize,
) -> Result<Vec<u8>, Refusal> {
    header.fit()?;
    fits(count, 8)?;
    let count = count as usize;
    // Complete rows below the count are looked at; others hold no field to write (reading 73).
    for row in rows.chunks_exact(ROW).take(count) {
        for (place, bits) in [(0, 14), (1, 32), (2, 2), (3, 20), (5, 8), (7, 12)] {
            fits(row[place], bits)?;
        }
    }
    header.agree(Kind::Eit)?;
    if rows.len() != count * ROW {
        return Err(9);
    }
    let mut body = vec![count as u8];
    for row in rows.chunks_exact(ROW) {
        let title = given(bytes, row[4], row[5])?;
        let descriptors = given(bytes, row[6], row[7])?;
        text::number_of_strings(title)?;
        rating::list(descriptors)?;
        body.extend((0xC000 | row[0] as u16).to_be_bytes());
        body.extend((row[1] as u32).to_be_bytes());
        body.extend(&(0xC0_0000 | (row[2] as u32) << 20 | row[3] as u32).to_be_bytes()[1..]);
        body.push(title.len() as u8);
        body.extend(title);
        body.extend((0xF000 | descriptors.len() as u16).to_be_bytes());
        body.extend(descriptors);
    }
    section(Kind::Eit, header, &body, room)
}

/// An ETT; its text must not be empty.
pub fn write_ett(header: &HeaderNumbers, etm_id: u64, text: &[u8], room: usize) -> Result<Vec<u8>, Refusal> {
    header.fit()?;
    fits(etm_id, 32)?;
    header.agree(Kind::Ett)?;
    if text.is_empty() {
        return Err(9);
    }
    text::number_of_strings(text)?;
    let mut body = (etm_id as u32).to_be_bytes().to_vec();
    body.extend(text);
    section(Kind::Ett, header, &body, room)
}

#[cfg(test)]
mod tests {
    use super::*;
    use crate::samples::*;
    use crate::section::judge;
    use crate::tables::{self, Title};

    const HEADER: HeaderNumbers =
        HeaderNumbers { extension: 7, version: 3, current_next: 1, section_number: 0, last_section_number: 0 };

    #[test]
    fn p9_tea_section() {
        let tea = tea();
        let bytes = write_eit(&HEADER, 1, &[5, 1000, 0, 1800, 0, 11, 11, 0], &tea, 37).unwrap();
        assert_eq!(bytes.len(), 37);
        assert_eq!(bytes, eit_of(&[(5, 1000, 1800, &tea, &[])]));
        assert_eq!(
            bytes[..24],
            [0xCB, 0xF0, 34, 0, 7, 0xC7, 0, 0, 0, 1, 0xC0, 5, 0, 0, 3, 0xE8, 0xC0, 7, 8, 11, 1, b'e', b'n', b'g']
        );
        let event = tables::eit_event(&bytes, 0).unwrap();
        assert_eq!((event.event_id, event.start_time, event.length_in_seconds), (5, 1000, 1800));
        assert_eq!(event.title, Title::Text(Part { start: 20, length: 11 }));
        assert_eq!(event.descriptors, Part { start: 33, length: 0 });
        assert_eq!(write_eit(&HEADER, 1, &[5, 1000, 0, 1800, 0, 11, 11, 0], &tea, 36), Err(24));
        // Event of 23 bytes.
        assert_eq!(bytes.len() - smallest_section(Kind::Eit).len(), 23);
    }

    #[test]
    fn refusals_in_order() {
        let bad = HeaderNumbers { section_number: 1, ..HEADER };
        let bytes = [0, 0];
        let row = [5, 0, 0, 0, 0, 2, 0, 0];
        let too_large = [(0, 1 << 14), (1, 1 << 32), (2, 4), (3, 1 << 20), (5, 256), (7, 4096)];
        for (place, value) in too_large {
            let mut row = row;
            row[place] = value;
            assert_eq!(write_eit(&bad, 1, &row, &bytes, 0), Err(23));
            row[place] = u64::MAX;
            assert_eq!(write_eit(&bad, 1, &row, &bytes, 0), Err(23));
            row[place] = value - 1;
            assert_eq!(write_eit(&bad, 1, &row, &bytes, 0), Err(8));
        }
        for header in [
            HeaderNumbers { extension: 65536, ..bad },
            HeaderNumbers { version: 32, ..bad },
            HeaderNumbers { current_next: 2, ..bad },
            HeaderNumbers { section_number: 256, last_section_number: 255, ..bad },
            HeaderNumbers { last_section_number: 256, ..bad },
        ] {
            assert_eq!(write_eit(&header, 1, &row, &bytes, 0), Err(23));
            assert_eq!(write_ett(&header, 0, &[], 0), Err(23));
        }
        assert_eq!(write_eit(&bad, 256, &row, &bytes, 0), Err(23));
        assert_eq!(write_ett(&bad, 1 << 32, &[], 0), Err(23));
        assert_eq!(write_eit(&bad, 1, &row, &bytes, 0), Err(8));
        assert_eq!(write_eit(&HEADER, 1, &row, &bytes, 0), Err(9));
        assert_eq!(write_eit(&HEADER, 2, &row, &bytes, 0), Err(9));
        assert_eq!(write_eit(&HEADER, 1, &row[..7], &bytes, 0), Err(9));
        assert_eq!(write_eit(&HEADER, 1, &[5, 0, 0, 0, 0, 1, 1, 1], &bytes, 0), Err(9));
        assert_eq!(write_eit(&HEADER, 1, &[5, 0, 0, 0, 3, 0, 0, 0], &bytes, 0), Err(9));
        assert_eq!(write_eit(&HEADER, 1, &[5, 0, 0, 0, u64::MAX, 1, 0, 0], &bytes, 0), Err(9));
        assert_eq!(write_eit(&HEADER, 1, &[5, 0, 0, 0, 0, 1, 0, 2], &bytes, 0), Err(24));
        assert_eq!(write_eit(&HEADER, 1, &[5, 0, 0, 0, 0, 1, 0, 2], &bytes, 29).map(|b| b.len()), Ok(29));
        assert_eq!(write_ett(&bad, 0, &[], 0), Err(8));
        let last = HeaderNumbers { last_section_number: 1, ..HEADER };
        assert_eq!(write_ett(&last, 0, &[0], 4096), Err(8));
        assert_eq!(write_eit(&last, 0, &[], &[], 4096).map(|b| b.len()), Ok(14));
        assert_eq!(write_ett(&HEADER, 0, &[], 0), Err(9));
        assert_eq!(write_ett(&HEADER, 0, &[0, 0], 0), Err(9));
        assert_eq!(write_ett(&HEADER, 0, &[0], 17), Err(24));
        assert_eq!(write_ett(&HEADER, 0, &[0], 18).map(|b| b.len()), Ok(18));
    }

    #[test]
    fn largest_sections() {
        // 4093 is filled by one descriptor list; one byte more is 24, with any room.
        let list = |length: usize| {
            let mut list = Vec::new();
            while list.len() < length {
                let content = (length - list.len() - 2).min(200);
                list.extend([0x80, content as u8]);
                list.extend(vec![0xAA; content]);
            }
            list
        };
        for (length, answer) in [(4070, Ok(4096)), (4071, Err(24)), (4095, Err(24))] {
            let bytes = list(length);
            assert_eq!(bytes.len(), length);
            let row = [0, 0, 3, 0xF_FFFF, 0, 0, 0, length as u64];
            let answered = write_eit(&HEADER, 1, &row, &bytes, 9000);
            assert_eq!(answered.as_ref().map(|b| b.len()).map_err(|e| *e), answer);
            if let Ok(bytes) = answered {
                assert_eq!(judge(&bytes, None).map(|h| h.extension), Ok(7));
            }
        }
        let mut long = vec![1, b'e', b'n', b'g', 20];
        for _ in 0..20 {
            long.extend([0, 0, 200]);
            long.extend([0x41; 200]);
        }
        assert_eq!(long.len(), 4065);
        assert_eq!(write_ett(&HEADER, 9, &long, 9000).map(|b| b.len()), Ok(4082));
        long[4] = 21;
        long.extend([0, 0, 11]);
        long.extend([0x41; 11]);
        assert_eq!(write_ett(&HEADER, 9, &long, 9000).map(|b| b.len()), Ok(4096));
        long[4067] = 12;
        long.push(0x41);
        assert_eq!(write_ett(&HEADER, 9, &long, 9000), Err(24));
    }

    #[test]
    fn what_is_written_is_read() {
        let mut random = Random(7);
        let mut read = 0;
        for _ in 0..3000 {
            let titles = [tea(), vec![], vec![0]];
            let lists = [advisory(), vec![], vec![0x80, 1, 2]];
            let mut bytes = Vec::new();
            let mut rows = Vec::new();
            let count = random.below(6);
            for _ in 0..count {
                let title = &titles[random.below(3)];
                let list = &lists[random.below(3)];
                rows.extend([
                    random.below(1 << 14) as u64,
                    random.next() >> 32,
                    random.below(4) as u64,
                    random.below(1 << 20) as u64,
                ]);
                rows.extend([bytes.len() as u64, title.len() as u64]);
                bytes.extend(title);
                rows.extend([bytes.len() as u64, list.len() as u64]);
                bytes.extend(list);
            }
            let header = HeaderNumbers {
                extension: random.below(65536) as u64,
                version: random.below(32) as u64,
                current_next: random.below(2) as u64,
                section_number: random.below(3) as u64,
                last_section_number: 2,
            };
            let written = write_eit(&header, count as u64, &rows, &bytes, 4096).unwrap();
            let table = tables::eit(&written).unwrap();
            assert_eq!(u64::from(table.source), header.extension);
            assert_eq!(u64::from(table.header.version), header.version);
            assert_eq!(u64::from(table.header.current), header.current_next);
            for (event, row) in table.events.iter().zip(rows.chunks(ROW)) {
                assert_eq!(u64::from(event.event_id), row[0]);
                assert_eq!(u64::from(event.start_time), row[1]);
                assert_eq!(u64::from(event.etm_location), row[2]);
                assert_eq!(u64::from(event.length_in_seconds), row[3]);
                assert_eq!(event.title_part.of(&written), Some(given(&bytes, row[4], row[5]).unwrap()));
                assert_eq!(event.descriptors.of(&written), Some(given(&bytes, row[6], row[7]).unwrap()));
                read += 1;
            }
        }
        assert!(read > 3000);
    }
}
