//! Sections and texts for the tests, put together byte by byte and not by the writers under test.

use crate::section::{checksum, Kind};

/// A small generator, so that tests do the same each time.
pub struct Random(pub u64);

impl Random {
    pub fn next(&mut self) -> u64 {
        self.0 = self.0.wrapping_add(0x9E37_79B9_7F4A_7C15);
        let mut mixed = self.0;
        mixed = (mixed ^ mixed >> 30).wrapping_mul(0xBF58_476D_1CE4_E5B9);
        mixed = (mixed ^ mixed >> 27).wrapping_mul(0x94D0_49BB_1331_11EB);
        mixed ^ mixed >> 31
    }

    pub fn below(&mut self, limit: usize) -> usize {
        (self.next() % limit as u64) as usize
    }

    pub fn bytes(&mut self, length: usize) -> Vec<u8> {
        (0..length).map(|_| self.next() as u8).collect()
    }
}

/// Sets the last four bytes so that the register ends at 0.
pub fn seal(bytes: &mut [u8]) {
    let body = bytes.len() - 4;
    let register = checksum(&bytes[..body]);
    bytes[body..].copy_from_slice(&register.to_be_bytes());
}

/// Header of version 0, extension 0, current, section 0 of 0.
pub fn section_with(kind: Kind, body: &[u8]) -> Vec<u8> {
    let length = body.len() + 10;
    let mut bytes = vec![kind.table_id(), 0xF0 | (length >> 8) as u8, length as u8, 0, 0, 0xC1, 0, 0, 0];
    bytes.extend(body);
    bytes.extend([0; 4]);
    seal(&mut bytes);
    bytes
}

pub fn smallest_section(kind: Kind) -> Vec<u8> {
    match kind {
        Kind::Mgt => section_with(kind, &[0, 0, 0xF0, 0]),
        Kind::Tvct => section_with(kind, &[0, 0xFC, 0]),
        Kind::Rrt => section_with(kind, &[0, 1, 0, 0xE1, 0, 0, 0xFC, 0]),
        Kind::Eit => section_with(kind, &[0]),
        Kind::Ett => section_with(kind, &[0, 0, 0, 0, 0]),
    }
}

/// An opaque descriptor list of the given length, 0 or at least 2.
fn filler(length: usize) -> Vec<u8> {
    let mut list = Vec::new();
    while list.len() < length {
        let left = length - list.len() - 2;
        let content = if left > 255 { 250.min(left - 2) } else { left };
        list.extend([0x87 ^ 1, content as u8]);
        list.resize(list.len() + content, 0x55);
    }
    list
}

/// A sound section of the given section_length, filled up by descriptors or text.
pub fn section_of_length(kind: Kind, length: usize) -> Vec<u8> {
    let room = length - 10;
    let long = |before: &[u8], flags: u16, after: usize| {
        let list = filler(room - before.len() - 2 - after);
        let mut body = before.to_vec();
        body.extend((flags | list.len() as u16).to_be_bytes());
        body.extend(list);
        body
    };
    let body = match kind {
        Kind::Mgt => long(&[0, 0], 0xF000, 0),
        Kind::Tvct => long(&[0], 0xFC00, 0),
        Kind::Rrt => long(&[0, 1, 0, 0xE1, 0, 0], 0xFC00, 0),
        Kind::Eit => long(&[1, 0, 0, 0, 0, 0, 0, 0, 0, 0, 0], 0xF000, 0),
        Kind::Ett => {
            let mut body = vec![0, 0, 0, 0, 1, b'e', b'n', b'g', 0];
            while body.len() < room {
                let content = (room - body.len() - 3).min(200);
                body[8] += 1;
                body.extend([0, 0, content as u8]);
                body.resize(body.len() + content, b'x');
            }
            body
        }
    };
    section_with(kind, &body)
}

/// A text field of strings in English; a segment is (compression, mode, bytes).
pub fn text(strings: &[&[(u8, u8, &[u8])]]) -> Vec<u8> {
    let mut bytes = vec![strings.len() as u8];
    for segments in strings {
        bytes.extend(b"eng");
        bytes.push(segments.len() as u8);
        for (compression, mode, content) in *segments {
            bytes.extend([*compression, *mode, content.len() as u8]);
            bytes.extend(*content);
        }
    }
    bytes
}

/// The text of P9.
pub fn tea() -> Vec<u8> {
    text(&[&[(0, 0, b"Tea")]])
}

/// One content advisory: region 1 with dimension 7 at 15 and the text "Tea", region 2 with nothing.
pub fn advisory() -> Vec<u8> {
    let mut content = vec![0xC2, 1, 1, 7, 0xFF, 11];
    content.extend(tea());
    content.extend([2, 0, 0]);
    let mut bytes = vec![0x87, content.len() as u8];
    bytes.extend(content);
    bytes
}

type Event<'a> = (u16, u32, u32, &'a [u8], &'a [u8]);

/// An EIT of source 7, version 3, section 0 of 0; events are (event_id, start, length, title, descriptors).
pub fn eit_of(events: &[Event]) -> Vec<u8> {
    let mut body = vec![events.len() as u8];
    for (id, start, length, title, descriptors) in events {
        body.extend((0xC000 | id).to_be_bytes());
        body.extend(start.to_be_bytes());
        body.extend(&(0xC0_0000 | length).to_be_bytes()[1..]);
        body.push(title.len() as u8);
        body.extend(*title);
        body.extend((0xF000 | descriptors.len() as u16).to_be_bytes());
        body.extend(*descriptors);
    }
    let mut bytes = section_with(Kind::Eit, &body);
    bytes[4] = 7;
    bytes[5] = 0xC7;
    seal(&mut bytes);
    bytes
}

type Values<'a> = &'a [(&'a [u8], &'a [u8])];

/// An RRT of region 0: its name, and dimensions of a name and values (short, long).
pub fn rrt_of(name: &[u8], dimensions: &[(&[u8], Values)]) -> Vec<u8> {
    let counted = |text: &[u8]| [&[text.len() as u8], text].concat();
    let mut body = counted(name);
    body.push(dimensions.len() as u8);
    for (name, values) in dimensions {
        body.extend(counted(name));
        body.push(0xF0 | values.len() as u8);
        for (short, long) in *values {
            body.extend(counted(short));
            body.extend(counted(long));
        }
    }
    body.extend([0xFC, 0]);
    section_with(Kind::Rrt, &body)
}
