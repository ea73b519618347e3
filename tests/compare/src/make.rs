//! Sections, text fields and descriptor lists that are right, made by chance; and damage to them. A thing under construction remembers
//! where its lengths and counts stand, so that damage can aim at them.

use crate::case::smaller_bytes;
use crate::chance::Chance;
use crate::coder;
use reference::section::{checksum, section_length};
use reference::Kind;

#[derive(Clone, Default)]
pub struct Built {
    pub bytes: Vec<u8>,
    /// Offsets of the bytes that hold a length or a count.
    counts: Vec<usize>,
}

impl Built {
    fn count(&mut self, value: usize) {
        self.counts.push(self.bytes.len());
        self.bytes.push(value as u8);
    }

    /// A count of two bytes, under reserved or other bits.
    fn wide_count(&mut self, above: u16, value: usize) {
        self.counts.push(self.bytes.len() + 1);
        self.bytes.extend((above | value as u16).to_be_bytes());
    }

    fn number(&mut self, value: u32, bytes: usize) {
        self.bytes.extend(&value.to_be_bytes()[4 - bytes..]);
    }

    fn put(&mut self, part: &Built) {
        self.counts.extend(part.counts.iter().map(|at| at + self.bytes.len()));
        self.bytes.extend(&part.bytes);
    }

    /// A part after its length of 8 bits.
    fn sized(&mut self, part: &Built) {
        self.count(part.bytes.len());
        self.put(part);
    }

    /// A descriptor list after its length, whose field has `bits` bits.
    fn sized_list(&mut self, chance: &mut Chance, bits: u32, list: &Built) {
        let reserved = reserved(chance) << bits;
        self.wide_count(reserved, list.bytes.len());
        self.put(list);
    }
}

/// Reserved bits: mostly ones, as a writer sets them.
fn reserved(chance: &mut Chance) -> u16 {
    if chance.often(80) {
        0xFFFF
    } else {
        chance.next() as u16
    }
}

fn segment(chance: &mut Chance, most: usize) -> (u8, u8, Vec<u8>) {
    let most = most.min(if chance.often(5) { 255 } else { 24 });
    let size = chance.below(most + 1);
    match chance.below(20) {
        0..=5 => (0, 0, chance.bytes(size)),
        6..=8 => (0, 0, chance.bytes(size).iter().map(|byte| byte & 0x5F | 0x20).collect()),
        9..=11 => (0, 0x3F, chance.bytes(size & !1)),
        12 => (0, 0x3F, chance.bytes(size)),
        13..=15 => (1, 0, coder::segment(chance, 1, most)),
        16..=18 => (2, 0, coder::segment(chance, 2, most)),
        _ => (chance.of(&[0, 1, 2, 3, 255]), chance.of(&[0, 1, 0x3E, 0x3F, 0x40, 0xFF]), chance.bytes(size)),
    }
}

/// A text field of at most `most` bytes, whose structure is sound.
pub fn text(chance: &mut Chance, most: usize) -> Built {
    let mut field = Built::default();
    if chance.often(12) || most == 0 {
        return field;
    }
    let strings = if chance.often(10) { 0 } else { chance.of(&[1, 1, 1, 1, 1, 1, 1, 2, 3, 4]) };
    field.count(strings);
    for _ in 0..strings {
        field.bytes.extend(chance.of(&[*b"eng", *b"spa", [0, 255, 7]]));
        let segments = if chance.often(70) { 1 } else { chance.below(4) };
        field.count(segments);
        for _ in 0..segments {
            let (compression, mode, bytes) = segment(chance, most);
            field.bytes.extend([compression, mode]);
            field.count(bytes.len());
            field.bytes.extend(bytes);
        }
    }
    if field.bytes.len() > most || field.counts.iter().any(|&at| at >= most) {
        let mut blank = Built::default();
        blank.count(0);
        return blank;
    }
    field
}

/// A content advisory's bytes. Few regions and dimensions, so that doubles are met.
fn advisory(chance: &mut Chance) -> Built {
    let mut content = Built::default();
    let regions = chance.below(4);
    content.counts.push(0);
    content.bytes.push((reserved(chance) << 6) as u8 | regions as u8);
    for _ in 0..regions {
        content.bytes.push(chance.of(&[0, 1, 1, 2, 255]));
        let dimensions = chance.below(4);
        content.count(dimensions);
        for _ in 0..dimensions {
            content.bytes.extend([chance.of(&[0, 1, 1, 2, 255]), chance.byte()]);
        }
        let words = text(chance, 60);
        content.sized(&words);
    }
    content
}

/// A descriptor list of at most `room` bytes, with content advisories where `rated`.
pub fn list(chance: &mut Chance, room: usize, rated: bool) -> Built {
    let mut list = Built::default();
    for _ in 0..chance.below(4) {
        let (tag, content) = if rated && chance.often(50) {
            (0x87, advisory(chance))
        } else {
            let tag = if rated { chance.of(&[0x80, 0x86, 0xA0, 0]) } else { chance.of(&[0x87, 0xA1, 0xFF]) };
            let most = if chance.often(5) { 255 } else { 12 };
            let size = chance.below(most + 1);
            (tag, Built { bytes: chance.bytes(size), counts: Vec::new() })
        };
        if content.bytes.len() <= 255 && list.bytes.len() + 2 + content.bytes.len() <= room {
            list.bytes.push(tag);
            list.sized(&content);
        }
    }
    list
}

/// How many entries a table gets: few, and now and then as many as fit.
fn entries(chance: &mut Chance) -> usize {
    if chance.often(2) {
        255
    } else {
        chance.below(5)
    }
}

fn mgt(chance: &mut Chance, room: usize) -> Built {
    let mut body = Built::default();
    let mut tables = Vec::new();
    let mut left = room - 4;
    for _ in 0..entries(chance) * if chance.often(10) { 2 } else { 1 } {
        let list = list(chance, left.saturating_sub(11), false);
        if left < 11 + list.bytes.len() {
            break;
        }
        left -= 11 + list.bytes.len();
        tables.push(list);
    }
    body.counts.push(1);
    body.number(tables.len() as u32, 2);
    for table in &tables {
        body.bytes.extend(chance.bytes(9));
        body.sized_list(chance, 12, table);
    }
    let own = list(chance, left, false);
    body.sized_list(chance, 12, &own);
    body
}

fn tvct(chance: &mut Chance, room: usize) -> Built {
    let mut body = Built::default();
    let mut channels = Vec::new();
    let mut left = room - 3;
    for _ in 0..entries(chance) {
        let list = list(chance, left.saturating_sub(32), false);
        if left < 32 + list.bytes.len() {
            break;
        }
        left -= 32 + list.bytes.len();
        channels.push(list);
    }
    body.count(channels.len());
    for channel in &channels {
        body.bytes.extend(chance.bytes(30));
        body.sized_list(chance, 10, channel);
    }
    let own = list(chance, left, false);
    body.sized_list(chance, 10, &own);
    body
}

fn rrt(chance: &mut Chance, room: usize) -> Built {
    let mut body = Built::default();
    let name = text(chance, 60);
    body.sized(&name);
    let mut left = room - body.bytes.len() - 7;
    let mut dimensions = Built::default();
    let mut count = 0;
    let wanted = entries(chance).max(1);
    let small = if wanted > 5 { 1 } else { 40 };
    while count < wanted {
        let mut dimension = Built::default();
        let name = text(chance, small);
        dimension.sized(&name);
        let values = if chance.often(10) { 1 + chance.below(15) } else { 1 + chance.below(3) };
        dimension.counts.push(dimension.bytes.len());
        dimension.bytes.push((reserved(chance) as u8) << 5 | chance.byte() & 0x10 | values as u8);
        for _ in 0..2 * values {
            let words = text(chance, small);
            dimension.sized(&words);
        }
        if dimension.bytes.len() > left {
            break;
        }
        left -= dimension.bytes.len();
        dimensions.put(&dimension);
        count += 1;
    }
    if count == 0 {
        count = 1;
        dimensions = Built { bytes: vec![0, 0xE1, 0, 0], counts: vec![0, 1, 2, 3] };
        left -= 4;
    }
    body.count(count);
    body.put(&dimensions);
    let own = list(chance, left, false);
    body.sized_list(chance, 10, &own);
    body
}

fn eit(chance: &mut Chance, room: usize) -> Built {
    let mut body = Built::default();
    let mut events = Built::default();
    let mut count = 0;
    for _ in 0..entries(chance) {
        let mut event = Built::default();
        event.number(chance.next() as u32 & 0x3FFF | u32::from(reserved(chance)) << 14, 2);
        event.number(chance.next() as u32, 4);
        event.number(chance.next() as u32 & 0x3F_FFFF | u32::from(reserved(chance)) << 22, 3);
        let most = if chance.often(5) { 255 } else { 50 };
        let title = text(chance, most);
        event.sized(&title);
        let most = if chance.often(3) { 3000 } else { 200 };
        let own = list(chance, most, true);
        event.sized_list(chance, 12, &own);
        if 1 + events.bytes.len() + event.bytes.len() > room {
            break;
        }
        events.put(&event);
        count += 1;
    }
    body.count(count);
    body.put(&events);
    body
}

fn ett(chance: &mut Chance, room: usize) -> Built {
    let mut body = Built { bytes: chance.bytes(4), counts: Vec::new() };
    let most = if chance.often(5) { room - 4 } else { 200 };
    let words = text(chance, most);
    if words.bytes.is_empty() {
        body.count(0);
    } else {
        body.put(&words);
    }
    body
}

/// The numbers of a header; those that the shelf goes by.
#[derive(Clone, Copy)]
pub struct Head {
    pub extension: u16,
    pub version: u8,
    pub current: bool,
    pub number: u8,
    pub last: u8,
}

pub fn head(chance: &mut Chance, kind: Kind) -> Head {
    let last = if kind.one_section() { 0 } else { chance.of(&[0, 0, 1, 3, 255]) };
    Head {
        extension: chance.of(&[0, 7, 0xFF01, 0xFFFF, 0x0100]),
        version: chance.byte() & 31,
        current: chance.often(90),
        number: chance.below(usize::from(last) + 1) as u8,
        last,
    }
}

/// A section that is right, of the kind and header given, and sealed.
pub fn section(chance: &mut Chance, kind: Kind, head: Head) -> Built {
    let room = kind.largest() - 10;
    let mut body = match kind {
        Kind::Mgt => mgt(chance, room),
        Kind::Tvct => tvct(chance, room),
        Kind::Rrt => rrt(chance, room),
        Kind::Eit => eit(chance, room),
        Kind::Ett => ett(chance, room),
    };
    if chance.often(1) {
        fill(&mut body, kind, room);
    }
    let mut section = Built { bytes: vec![kind.table_id()], counts: vec![2] };
    let length = body.bytes.len() + 10;
    section.bytes.extend((0xC000 | (reserved(chance) & 3) << 12 | length as u16).to_be_bytes());
    section.bytes.extend(head.extension.to_be_bytes());
    section.bytes.push((reserved(chance) << 6) as u8 | head.version << 1 | u8::from(head.current));
    section.bytes.extend([head.number, head.last, 0]);
    section.put(&body);
    section.bytes.extend([0; 4]);
    seal(&mut section.bytes);
    section
}

/// Fills a body up to its kind's limit, by descriptors at the end of its own list, which is then the last thing in it.
fn fill(body: &mut Built, kind: Kind, room: usize) {
    let (length_at, bits) = match kind {
        Kind::Mgt => (2, 12),
        Kind::Tvct => (1, 10),
        _ => return,
    };
    let wanted = room - length_at - 2;
    *body = Built { bytes: vec![0; length_at], counts: vec![length_at - 1, length_at + 1] };
    body.bytes.extend((0xFFFFu16 << bits | wanted as u16).to_be_bytes());
    while body.bytes.len() < room {
        let left = room - body.bytes.len() - 2;
        let size = if left > 255 { 200.min(left - 2) } else { left };
        body.bytes.extend([0xA0, size as u8]);
        body.bytes.resize(body.bytes.len() + size, 0x55);
    }
}

/// Sets the checksum, and with `lengthened` section_length too.
pub fn reseal(bytes: &mut [u8], lengthened: bool) {
    if bytes.len() < 7 {
        return;
    }
    if lengthened {
        let length = bytes.len() - 3;
        bytes[1] = bytes[1] & 0xF0 | (length >> 8) as u8 & 0x0F;
        bytes[2] = length as u8;
    }
    seal(bytes);
}

fn seal(bytes: &mut [u8]) {
    let end = bytes.len() - 4;
    let register = checksum(&bytes[..end]);
    bytes[end..].copy_from_slice(&register.to_be_bytes());
}

/// One thing broken in bytes.
fn broken(chance: &mut Chance, built: &mut Built) {
    let bytes = &mut built.bytes;
    let n = bytes.len();
    if n == 0 {
        let size = chance.below(4);
        *bytes = chance.bytes(size);
        return;
    }
    let at = chance.below(n);
    match chance.below(12) {
        0 | 1 => bytes[at] = chance.byte(),
        2 => bytes[at] ^= 1 << chance.below(8),
        3..=6 if !built.counts.is_empty() => {
            // The damage before may have moved or cut what the count counted.
            let at = chance.of(&built.counts).min(n - 1);
            bytes[at] = match chance.below(4) {
                0 => chance.byte(),
                1 => 0,
                _ => bytes[at].wrapping_add(chance.of(&[1, 1, 2, 3, 255, 255, 254, 253])),
            };
        }
        3..=6 => bytes[at] = 0,
        7 => {
            let size = 1 + chance.below(3);
            let more = chance.bytes(size);
            bytes.splice(at..at, more);
        }
        8 => {
            bytes.drain(at..(at + 1 + chance.below(3)).min(n));
        }
        9 => bytes.swap(at, chance.below(n)),
        10 => bytes.truncate(at),
        _ => {
            let size = 1 + chance.below(4);
            let more = chance.bytes(size);
            bytes.extend(more);
        }
    }
}

/// Bytes with nothing, one or two things broken.
pub fn damaged(chance: &mut Chance, mut built: Built) -> Vec<u8> {
    for _ in 0..chance.of(&[0, 0, 0, 1, 1, 2]) {
        broken(chance, &mut built);
    }
    built.bytes
}

/// Whether bytes are a section as far as its length and checksum say.
fn sealed(bytes: &[u8]) -> bool {
    bytes.len() >= 7 && section_length(bytes[1], bytes[2]) == bytes.len() - 3 && checksum(bytes) == 0
}

/// Smaller bytes, sealed where these are.
pub fn smaller(bytes: &[u8]) -> impl Iterator<Item = Vec<u8>> + '_ {
    let sealed = sealed(bytes);
    smaller_bytes(bytes).filter_map(move |mut smaller| {
        if sealed {
            reseal(&mut smaller, true);
        }
        (smaller != bytes).then_some(smaller)
    })
}

/// A section as it may come: right, or broken and mostly sealed again; or plain chance.
pub fn received(chance: &mut Chance) -> Vec<u8> {
    let kind = chance.of(&[Kind::Mgt, Kind::Tvct, Kind::Rrt, Kind::Eit, Kind::Eit, Kind::Eit, Kind::Ett]);
    match chance.below(100) {
        0 => {
            let size = chance.below(20);
            chance.bytes(size)
        }
        1 => {
            let mut bytes = vec![kind.table_id(), 0xF0];
            let size = chance.below(300);
            bytes.extend(chance.bytes(size + 14));
            bytes[5..9].copy_from_slice(&[0xC1, 0, 0, 0]);
            reseal(&mut bytes, true);
            bytes
        }
        2 => {
            // A number of the header that a kind does not have.
            let mut head = head(chance, kind);
            head.last = chance.byte();
            head.number = chance.of(&[0, 1, head.last, head.last.wrapping_add(1)]);
            let mut bytes = section(chance, kind, head).bytes;
            bytes[8] = chance.of(&[0, 0, 0, 1]);
            reseal(&mut bytes, true);
            bytes
        }
        3 => {
            // section_length at the ends of the kinds' ranges, with as many bytes.
            let length = chance.of(&[kind.smallest(), kind.largest()]) + chance.below(3) - 1;
            let head = head(chance, kind);
            let mut bytes = section(chance, kind, head).bytes;
            bytes.resize(length + 3, 0);
            reseal(&mut bytes, true);
            bytes
        }
        _ => {
            let head = head(chance, kind);
            let built = section(chance, kind, head);
            let mut bytes = damaged(chance, built);
            match chance.below(12) {
                0 => {}
                1 => reseal(&mut bytes, false),
                _ => reseal(&mut bytes, true),
            }
            bytes
        }
    }
}
