//! The five bodies, field by field in the order of the rules' document. One walk gives both what a table says and where it
//! fails, so that reading and judging cannot come apart.

use crate::field::{Cursor, Fault, Part};
use crate::rating;
use crate::section::{self, Header, Kind, BODY_START, CHECKSUM_BYTES};
use crate::text;
use crate::Refusal;

#[derive(Clone, Debug, PartialEq, Eq)]
pub struct Mgt {
    pub header: Header,
    pub tables: Vec<MgtTable>,
    pub descriptors: Part,
}

#[derive(Clone, Debug, PartialEq, Eq)]
pub struct MgtTable {
    pub table_type: u16,
    pub pid: u16,
    pub version: u8,
    pub number_bytes: u32,
    pub descriptors: Part,
}

#[derive(Clone, Debug, PartialEq, Eq)]
pub struct Tvct {
    pub header: Header,
    pub channels: Vec<Channel>,
    pub descriptors: Part,
}

#[derive(Clone, Debug, PartialEq, Eq)]
pub struct Channel {
    pub short_name: [u16; 7],
    pub major: u16,
    pub minor: u16,
    pub modulation: u8,
    pub carrier: u32,
    pub channel_tsid: u16,
    pub program_number: u16,
    pub etm_location: u8,
    pub access_controlled: bool,
    pub hidden: bool,
    pub six_bits: u8,
    pub service_type: u8,
    pub source_id: u16,
    pub descriptors: Part,
}

#[derive(Clone, Debug, PartialEq, Eq)]
pub struct Rrt {
    pub header: Header,
    pub region: u8,
    pub name: Part,
    pub dimensions: Vec<Dimension>,
    pub descriptors: Part,
}

#[derive(Clone, Debug, PartialEq, Eq)]
pub struct Dimension {
    pub name: Part,
    pub graduated_scale: bool,
    pub values: Vec<Value>,
}

#[derive(Clone, Copy, Debug, PartialEq, Eq)]
pub struct Value {
    pub short: Part,
    pub long: Part,
}

#[derive(Clone, Debug, PartialEq, Eq)]
pub struct Eit {
    pub header: Header,
    pub source: u16,
    pub events: Vec<Event>,
}

#[derive(Clone, Debug, PartialEq, Eq)]
pub struct Event {
    pub event_id: u16,
    pub start_time: u32,
    pub etm_location: u8,
    pub length_in_seconds: u32,
    pub title: Title,
    /// Where the title stands, whichever of the three it is.
    pub title_part: Part,
    pub descriptors: Part,
}

/// The three sorts of title.
#[derive(Clone, Copy, Debug, PartialEq, Eq)]
pub enum Title {
    None,
    NoStrings,
    Text(Part),
}

#[derive(Clone, Debug, PartialEq, Eq)]
pub struct Ett {
    pub header: Header,
    pub etm_id: u32,
    pub text: Part,
}

#[derive(Clone, Debug, PartialEq, Eq)]
pub enum Body {
    Mgt(Mgt),
    Tvct(Tvct),
    Rrt(Rrt),
    Eit(Eit),
    Ett(Ett),
}

/// What a body's walk carries: the bytes, the place, and whether 0x87 is a content advisory here.
struct Walk<'a> {
    bytes: &'a [u8],
    cursor: Cursor<'a>,
    kind: Kind,
}

impl Walk<'_> {
    /// A text with an 8-bit length, judged where it stands.
    fn text(&mut self) -> Result<Part, Fault> {
        let part = self.cursor.counted(0, 8)?;
        text::strings(self.bytes, part)?;
        Ok(part)
    }

    /// A descriptor list with its length field, judged where it stands.
    fn descriptors(&mut self, reserved: usize, bits: usize) -> Result<Part, Fault> {
        let part = self.cursor.counted(reserved, bits)?;
        rating::descriptors(self.bytes, part, self.kind == Kind::Eit)?;
        Ok(part)
    }

    fn mgt(&mut self, header: Header) -> Result<Mgt, Fault> {
        let count = self.cursor.field(0, 16)?;
        let mut tables = Vec::new();
        for _ in 0..count {
            tables.push(MgtTable {
                table_type: self.cursor.field(0, 16)? as u16,
                pid: self.cursor.field(3, 13)? as u16,
                version: self.cursor.field(3, 5)? as u8,
                number_bytes: self.cursor.field(0, 32)? as u32,
                descriptors: self.descriptors(4, 12)?,
            });
        }
        let descriptors = self.descriptors(4, 12)?;
        Ok(Mgt { header, tables, descriptors })
    }

    fn tvct(&mut self, header: Header) -> Result<Tvct, Fault> {
        let count = self.cursor.field(0, 8)?;
        let mut channels = Vec::new();
        for _ in 0..count {
            channels.push(Channel {
                short_name: self.cursor.units()?,
                major: self.cursor.field(4, 10)? as u16,
                minor: self.cursor.field(0, 10)? as u16,
                modulation: self.cursor.field(0, 8)? as u8,
                carrier: self.cursor.field(0, 32)? as u32,
                channel_tsid: self.cursor.field(0, 16)? as u16,
                program_number: self.cursor.field(0, 16)? as u16,
                etm_location: self.cursor.field(0, 2)? as u8,
                access_controlled: self.cursor.field(0, 1)? == 1,
                hidden: self.cursor.field(0, 1)? == 1,
                six_bits: self.cursor.field(0, 6)? as u8,
                service_type: self.cursor.field(0, 6)? as u8,
                source_id: self.cursor.field(0, 16)? as u16,
                descriptors: self.descriptors(6, 10)?,
            });
        }
        let descriptors = self.descriptors(6, 10)?;
        Ok(Tvct { header, channels, descriptors })
    }

    /// A count of an RRT, which must not be 0.
    fn rrt_count(&mut self, bits: usize) -> Result<u64, Fault> {
        let at = self.cursor.offset();
        match self.cursor.field(0, bits)? {
            0 => Err(at),
            count => Ok(count),
        }
    }

    fn rrt(&mut self, header: Header) -> Result<Rrt, Fault> {
        let name = self.text()?;
        let mut dimensions = Vec::new();
        for _ in 0..self.rrt_count(8)? {
            let name = self.text()?;
            let graduated_scale = self.cursor.field(3, 1)? == 1;
            let mut values = Vec::new();
            for _ in 0..self.rrt_count(4)? {
                values.push(Value { short: self.text()?, long: self.text()? });
            }
            dimensions.push(Dimension { name, graduated_scale, values });
        }
        let descriptors = self.descriptors(6, 10)?;
        let region = header.extension as u8;
        Ok(Rrt { header, region, name, dimensions, descriptors })
    }

    fn eit(&mut self, header: Header) -> Result<Eit, Fault> {
        let count = self.cursor.field(0, 8)?;
        let mut events = Vec::new();
        for _ in 0..count {
            let event_id = self.cursor.field(2, 14)? as u16;
            let start_time = self.cursor.field(0, 32)? as u32;
            let etm_location = self.cursor.field(2, 2)? as u8;
            let length_in_seconds = self.cursor.field(0, 20)? as u32;
            let title_part = self.text()?;
            events.push(Event {
                event_id,
                start_time,
                etm_location,
                length_in_seconds,
                title: title(self.bytes, title_part),
                title_part,
                descriptors: self.descriptors(4, 12)?,
            });
        }
        Ok(Eit { header, source: header.extension, events })
    }

    fn ett(&mut self, header: Header) -> Result<Ett, Fault> {
        let etm_id = self.cursor.field(0, 32)? as u32;
        let text = self.cursor.rest();
        text::strings(self.bytes, text)?;
        Ok(Ett { header, etm_id, text })
    }
}

/// Which of the three a title is: length 0, one zero byte, or all else.
fn title(bytes: &[u8], part: Part) -> Title {
    match part.of(bytes) {
        None | Some([]) => Title::None,
        Some([0]) => Title::NoStrings,
        Some(_) => Title::Text(part),
    }
}

/// The body between protocol_version and the checksum, which must be filled exactly.
pub(crate) fn body(bytes: &[u8], header: &Header) -> Result<Body, Fault> {
    let length = bytes.len().saturating_sub(BODY_START + CHECKSUM_BYTES);
    let cursor = Cursor::over(bytes, Part { start: BODY_START, length });
    let mut walk = Walk { bytes, cursor, kind: header.kind };
    let body = match header.kind {
        Kind::Mgt => Body::Mgt(walk.mgt(*header)?),
        Kind::Tvct => Body::Tvct(walk.tvct(*header)?),
        Kind::Rrt => Body::Rrt(walk.rrt(*header)?),
        Kind::Eit => Body::Eit(walk.eit(*header)?),
        Kind::Ett => Body::Ett(walk.ett(*header)?),
    };
    walk.cursor.finish()?;
    Ok(body)
}

/// Refusals 1 to 9; the whole table, of any kind or of the one asked for.
pub fn read(bytes: &[u8], asked: Option<Kind>) -> Result<Body, Refusal> {
    section::walk(bytes, asked)?.1.map_err(|_| 9)
}

pub fn mgt(bytes: &[u8]) -> Result<Mgt, Refusal> {
    match read(bytes, Some(Kind::Mgt))? {
        Body::Mgt(table) => Ok(table),
        _ => Err(2),
    }
}

pub fn tvct(bytes: &[u8]) -> Result<Tvct, Refusal> {
    match read(bytes, Some(Kind::Tvct))? {
        Body::Tvct(table) => Ok(table),
        _ => Err(2),
    }
}

pub fn rrt(bytes: &[u8]) -> Result<Rrt, Refusal> {
    match read(bytes, Some(Kind::Rrt))? {
        Body::Rrt(table) => Ok(table),
        _ => Err(2),
    }
}

pub fn eit(bytes: &[u8]) -> Result<Eit, Refusal> {
    match read(bytes, Some(Kind::Eit))? {
        Body::Eit(table) => Ok(table),
        _ => Err(2),
    }
}

pub fn ett(bytes: &[u8]) -> Result<Ett, Refusal> {
    match read(bytes, Some(Kind::Ett))? {
        Body::Ett(table) => Ok(table),
        _ => Err(2),
    }
}

/// Entry `number` of a list, counted from 0; refusal 13 where there is none.
pub(crate) fn entry<T>(mut list: Vec<T>, number: usize) -> Result<T, Refusal> {
    if number < list.len() {
        Ok(list.swap_remove(number))
    } else {
        Err(13)
    }
}

pub fn mgt_table(bytes: &[u8], number: usize) -> Result<MgtTable, Refusal> {
    entry(mgt(bytes)?.tables, number)
}

pub fn tvct_channel(bytes: &[u8], number: usize) -> Result<Channel, Refusal> {
    entry(tvct(bytes)?.channels, number)
}

pub fn rrt_dimension(bytes: &[u8], number: usize) -> Result<Dimension, Refusal> {
    entry(rrt(bytes)?.dimensions, number)
}

pub fn rrt_value(bytes: &[u8], dimension: usize, number: usize) -> Result<Value, Refusal> {
    entry(rrt_dimension(bytes, dimension)?.values, number)
}

pub fn eit_event(bytes: &[u8], number: usize) -> Result<Event, Refusal> {
    entry(eit(bytes)?.events, number)
}

#[cfg(test)]
mod tests {
    use super::*;
    use crate::samples::*;
    use crate::section::{blamed, judge};

    fn part(start: usize, length: usize) -> Part {
        Part { start, length }
    }

    /// One channel whose fields all differ, and what stands around it.
    fn tvct_body() -> Vec<u8> {
        let mut body = vec![1];
        body.extend([0, 65, 0, 66, 0, 67, 0, 68, 0, 69, 0, 70, 0xFE, 0xFF]);
        // r 4, major 10 = 0x2A5, minor 10 = 0x13C.
        body.extend(&(0xF0_0000u32 | 0x2A5 << 10 | 0x13C).to_be_bytes()[1..]);
        body.extend([4, 0x12, 0x34, 0x56, 0x78, 0xAB, 0xCD, 0xEF, 0x01]);
        // ETM_location 2, access_controlled 1, hidden 0, six bits 0b101101, service_type 2.
        body.extend(0b1010_1011_0100_0010u16.to_be_bytes());
        body.extend([0x77, 0x66, 0xFC, 3, 0x87, 1, 0]);
        body.extend([0xFC, 2, 0xA0, 0]);
        body
    }

    #[test]
    fn p8_titles_of_three_sorts() {
        let eit = eit_of(&[(1, 0, 0, &[], &[]), (2, 0, 0, &[0], &[]), (3, 0, 0, &tea(), &[])]);
        let titles: Vec<_> = self::eit(&eit).unwrap().events.iter().map(|event| event.title).collect();
        assert_eq!(titles, [Title::None, Title::NoStrings, Title::Text(part(45, 11))]);
        assert_eq!(eit_event(&eit, 2).map(|event| event.event_id), Ok(3));
        assert_eq!(eit_event(&eit, 3), Err(13));
        assert_eq!(eit_event(&smallest_section(Kind::Ett), 3), Err(2));
    }

    #[test]
    fn mgt_fields() {
        let mut body = vec![0, 2];
        body.extend([0x01, 0x02, 0xFD, 0x00, 0xE3, 1, 2, 3, 4, 0xF0, 3, 0x87, 1, 0xFF]);
        body.extend([0x03, 0x04, 0x1F, 0xFF, 0x1F, 0, 0, 0, 5, 0x00, 0]);
        body.extend([0xF0, 2, 0x80, 0]);
        let bytes = section_with(Kind::Mgt, &body);
        let table = mgt(&bytes).unwrap();
        assert_eq!(table.descriptors, part(38, 2));
        let first =
            MgtTable { table_type: 0x102, pid: 0x1D00, version: 3, number_bytes: 0x1020304, descriptors: part(22, 3) };
        let second =
            MgtTable { table_type: 0x304, pid: 0x1FFF, version: 31, number_bytes: 5, descriptors: part(36, 0) };
        assert_eq!(table.tables, [first, second.clone()]);
        assert_eq!(mgt_table(&bytes, 1), Ok(second));
        assert_eq!(mgt_table(&bytes, 2), Err(13));
    }

    #[test]
    fn tvct_fields() {
        let bytes = section_with(Kind::Tvct, &tvct_body());
        let channel = Channel {
            short_name: [65, 66, 67, 68, 69, 70, 0xFEFF],
            major: 0x2A5,
            minor: 0x13C,
            modulation: 4,
            carrier: 0x12345678,
            channel_tsid: 0xABCD,
            program_number: 0xEF01,
            etm_location: 2,
            access_controlled: true,
            hidden: false,
            six_bits: 0b101101,
            service_type: 2,
            source_id: 0x7766,
            descriptors: part(42, 3),
        };
        let table = tvct(&bytes).unwrap();
        assert_eq!(table.channels.len(), 1);
        assert_eq!(table.descriptors, part(47, 2));
        assert_eq!(tvct_channel(&bytes, 0), Ok(channel));
        assert_eq!(tvct_channel(&bytes, 1), Err(13));
    }

    #[test]
    fn rrt_fields() {
        let mut bytes = rrt_of(&tea(), &[(&[], &[(&[], &[0]), (&tea(), &[])]), (&[0], &[(&[], &[])])]);
        bytes[3..5].copy_from_slice(&[0x12, 0x34]);
        seal(&mut bytes);
        let table = rrt(&bytes).unwrap();
        assert_eq!((table.region, table.header.extension, table.name), (0x34, 0x1234, part(10, 11)));
        assert_eq!(table.dimensions.len(), 2);
        let first = rrt_dimension(&bytes, 0).unwrap();
        assert_eq!((first.name, first.graduated_scale, first.values.len()), (part(23, 0), true, 2));
        assert_eq!(rrt_value(&bytes, 0, 0), Ok(Value { short: part(25, 0), long: part(26, 1) }));
        assert_eq!(rrt_value(&bytes, 0, 1), Ok(Value { short: part(28, 11), long: part(40, 0) }));
        assert_eq!(rrt_value(&bytes, 0, 2), Err(13));
        assert_eq!(rrt_value(&bytes, 2, 0), Err(13));
        assert_eq!(rrt_dimension(&bytes, 2), Err(13));
        bytes[23] = 0x02;
        seal(&mut bytes);
        assert_eq!(rrt_dimension(&bytes, 0).map(|dimension| dimension.graduated_scale), Ok(false));
    }

    #[test]
    fn ett_fields() {
        let bytes = section_with(Kind::Ett, &[&[1, 2, 3, 4][..], &tea()].concat());
        let table = ett(&bytes).unwrap();
        assert_eq!((table.etm_id, table.text), (0x1020304, part(13, 11)));
        assert_eq!(blamed(&section_with(Kind::Ett, &[0, 0, 0, 0, 0, 0])), Ok(Some(14)));
        assert_eq!(blamed(&section_with(Kind::Ett, &[0, 0, 0, 0, 1])), Ok(Some(14)));
    }

    /// The fault of a body cut to its first `length` bytes, offsets counted from the body's start.
    fn cut(kind: Kind, body: &[u8], length: usize) -> Option<usize> {
        blamed(&section_with(kind, &body[..length])).unwrap().map(|at| at - BODY_START)
    }

    #[test]
    fn faults_of_cut_fields() {
        let body = tvct_body();
        // Cut in short_name, major, minor (whose first bit is in the second byte), modulation, carrier, TSID,
        // program_number, the two bytes of small fields, source_id, the list's length, its content.
        let expected = [
            (3, 1),
            (14, 1),
            (15, 15),
            (16, 15),
            (17, 16),
            (18, 18),
            (19, 19),
            (22, 19),
            (23, 23),
            (24, 23),
            (25, 25),
            (27, 27),
            (28, 27),
            (29, 29),
            (30, 29),
            (31, 31),
            (32, 31),
            (33, 31),
            (35, 31),
            (36, 36),
            (37, 36),
            (38, 36),
            (39, 36),
        ];
        for (length, at) in expected {
            assert_eq!(cut(Kind::Tvct, &body, length), Some(at), "{length}");
        }
        assert_eq!(cut(Kind::Tvct, &body, body.len()), None);
        let longer = [&body[..], &[0]].concat();
        assert_eq!(cut(Kind::Tvct, &longer, longer.len()), Some(body.len()));
        // The list's second descriptor is a lone tag, or promises too much.
        let mut lone = body.clone();
        lone[34] = 0;
        assert_eq!(cut(Kind::Tvct, &lone, lone.len()), Some(36));
        lone[34] = 2;
        assert_eq!(cut(Kind::Tvct, &lone, lone.len()), Some(34));

        let eit = [&[1][..], &[0; 9], &[11], &tea(), &[0xF0, 0]].concat();
        let expected =
            [(1, 1), (2, 1), (3, 3), (6, 3), (7, 7), (8, 7), (9, 7), (10, 10), (11, 10), (21, 10), (22, 22), (23, 22)];
        for (length, at) in expected {
            assert_eq!(cut(Kind::Eit, &eit, length), Some(at), "{length}");
        }
        assert_eq!(cut(Kind::Eit, &eit, 24), None);
    }

    #[test]
    fn faults_inside_texts_and_advisories() {
        let at = |title: &[u8], list: &[u8]| blamed(&eit_of(&[(1, 0, 0, title, list)])).unwrap();
        assert_eq!(at(&[], &[]), None);
        // A title starts at 20 of the section, a list after it and its two length bytes.
        assert_eq!(at(&[0, 0], &[]), Some(21));
        assert_eq!(at(&[1, 0, 0, 0], &[]), Some(24));
        assert_eq!(at(&[1, 0, 0, 0, 1, 0, 0, 1], &[]), Some(27));
        // The title's fault stands before the list's.
        assert_eq!(at(&[0, 0], &[0x87]), Some(21));
        assert_eq!(at(&[], &[0x87]), Some(23));
        assert_eq!(at(&[], &[0x87, 0]), Some(24));
        assert_eq!(at(&[], &[0x87, 1, 0]), None);
        assert_eq!(at(&[], &[0x87, 2, 0, 0]), Some(25));
        assert_eq!(at(&[], &[0x87, 1, 1]), Some(25));
        assert_eq!(at(&[], &[0x87, 2, 1, 1]), Some(26));
        assert_eq!(at(&[], &[0x87, 4, 1, 1, 1, 7]), Some(28));
        assert_eq!(at(&[], &[0x87, 5, 1, 1, 1, 7, 7]), Some(29));
        assert_eq!(at(&[], &[0x87, 6, 1, 1, 1, 7, 7, 1]), Some(29));
        assert_eq!(at(&[], &[0x87, 7, 1, 1, 1, 7, 7, 1, 1]), Some(31));
        assert_eq!(at(&[], &[0x87, 7, 1, 1, 1, 7, 7, 1, 0]), None);
        // The advisory's fault stands before the next descriptor's, and an empty one's at the next descriptor.
        assert_eq!(at(&[], &[0x87, 1, 1, 0x80]), Some(25));
        assert_eq!(at(&[], &[0x87, 0, 0x80]), Some(24));
    }

    #[test]
    fn zero_rrt_counts() {
        let body = [0, 0, 0xFC, 0, 0x80, 0, 0x80, 0];
        assert_eq!(cut(Kind::Rrt, &body, 8), Some(1));
        let body = [0, 1, 0, 0xF0, 0xFC, 2, 0x80, 0];
        assert_eq!(cut(Kind::Rrt, &body, 8), Some(3));
        let body = [0, 1, 0, 0x01, 0, 0, 0x00, 0];
        assert_eq!(cut(Kind::Rrt, &body, 8), None);
        let body = [1, 0, 1, 0, 0x01, 0, 0, 0xFC];
        assert_eq!(cut(Kind::Rrt, &body, 8), Some(7));
    }

    #[test]
    fn advisories_are_opaque_outside_the_eit() {
        let list = [0x87, 1, 0xFF];
        let body = [&[0, 0, 0xF0, 3][..], &list].concat();
        assert!(judge(&section_with(Kind::Mgt, &body), None).is_ok());
        let body = [&[0, 0xFC, 3][..], &list].concat();
        assert!(judge(&section_with(Kind::Tvct, &body), None).is_ok());
        let body = [&[0, 1, 0, 0xE1, 0, 0, 0xFC, 3][..], &list].concat();
        assert!(judge(&section_with(Kind::Rrt, &body), None).is_ok());
        let body = [&[1, 0, 0, 0, 0, 0, 0, 0, 0, 0, 0, 0xF0, 3][..], &list].concat();
        assert_eq!(judge(&section_with(Kind::Eit, &body), None), Err(9));
    }

    #[test]
    fn changed_sections_never_panic() {
        let mut random = Random(3);
        let rich = [
            section_with(Kind::Tvct, &tvct_body()),
            eit_of(&[(5, 1, 2, &tea(), &advisory()), (6, 1, 2, &[0], &advisory())]),
            rrt_of(&tea(), &[(&tea(), &[(&tea(), &[0]), (&[], &tea())])]),
            section_with(Kind::Ett, &[&[0; 4][..], &tea()].concat()),
            section_of_length(Kind::Mgt, 60),
        ];
        let (mut sound, mut unsound) = (0, 0);
        for _ in 0..40_000 {
            let mut bytes = rich[random.below(rich.len())].clone();
            for _ in 0..random.below(3) {
                let at = random.below(bytes.len());
                bytes[at] = random.next() as u8;
            }
            if random.below(8) > 0 {
                seal(&mut bytes);
            }
            let judged = judge(&bytes, None);
            match blamed(&bytes) {
                Ok(None) => {
                    sound += 1;
                    assert_eq!(judged.map(|header| header.kind), Ok(Kind::of_table_id(bytes[0].into()).unwrap()));
                }
                Ok(Some(at)) => {
                    unsound += 1;
                    assert_eq!(judged, Err(9));
                    assert!((BODY_START..=bytes.len() - CHECKSUM_BYTES).contains(&at));
                }
                Err(refusal) => assert_eq!(judged, Err(refusal)),
            }
            for kind in Kind::ALL {
                let read = super::read(&bytes, Some(kind));
                assert_eq!(read.is_ok(), judged.is_ok_and(|header| header.kind == kind));
            }
            let number = random.below(3);
            let _ = crate::section_text::section_units(&bytes, crate::section_text::Where::EventTitle(number), 0);
            let _ = rating::rating(&bytes, number, 1, 7);
            let _ = crate::lister::list(&bytes);
            let _ = crate::text::units(&bytes, number);
            let _ = rating::list(&bytes);
        }
        assert!(sound > 1000 && unsound > 1000, "{sound} {unsound}");
    }
}
