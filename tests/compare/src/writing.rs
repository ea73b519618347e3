//! The two writers: right fields and rows, at their limits and beyond, with parts outside the bytes and buffers too short.

use crate::case::{hex, smaller_bytes, written, Case, Family, Tally, BEFORE, BEFORE_8, BEHIND};
use crate::chance::Chance;
use crate::library::{guide_write_eit, guide_write_ett};
use crate::make;
use reference::{tables, write_eit, write_ett, HeaderNumbers, Kind, Refusal};

#[derive(Clone)]
pub struct Write {
    /// An EIT of rows, or an ETT whose text the bytes are.
    kind: Kind,
    given: [u32; 6],
    rows: Vec<u32>,
    bytes: Vec<u8>,
    room: usize,
}

impl Write {
    fn expected(&self) -> Result<Vec<u8>, Refusal> {
        let [extension, version, current_next, section_number, last_section_number, last] = self.given.map(u64::from);
        let header = HeaderNumbers { extension, version, current_next, section_number, last_section_number };
        if self.kind == Kind::Ett {
            return write_ett(&header, last, &self.bytes, self.room);
        }
        let rows: Vec<u64> = self.rows.iter().map(|&number| number.into()).collect();
        write_eit(&header, last, &rows, &self.bytes, self.room)
    }

    /// What is written where all is right, for the cases that go there and back.
    pub fn section(&self) -> Option<Vec<u8>> {
        self.expected().ok()
    }
}

impl Case for Write {
    fn family(&self) -> Family {
        Family::Writing
    }

    fn difference(&self, tally: &mut Tally) -> Option<String> {
        let mut out = vec![BEFORE_8; self.room + BEHIND];
        let mut length = [BEFORE; 1 + BEHIND];
        // SAFETY: every pointer is good for the length beside it; `out` and `length` overlap nothing.
        let refusal = unsafe {
            let (bytes, n) = (self.bytes.as_ptr(), self.bytes.len());
            if self.kind == Kind::Ett {
                guide_write_ett(self.given.as_ptr(), bytes, n, out.as_mut_ptr(), self.room, length.as_mut_ptr())
            } else {
                let (rows, numbers) = (self.rows.as_ptr(), self.rows.len());
                guide_write_eit(
                    self.given.as_ptr(),
                    rows,
                    numbers,
                    bytes,
                    n,
                    out.as_mut_ptr(),
                    self.room,
                    length.as_mut_ptr(),
                )
            }
        };
        let expected = self.expected();
        let (number, section) = match &expected {
            Ok(section) => (0, &section[..]),
            Err(refusal) => (u32::from(*refusal), &[][..]),
        };
        tally.add(self, number);
        let told = if number == 0 { vec![section.len() as u32] } else { Vec::new() };
        if refusal == number && written(&out, section, BEFORE_8) && written(&length, &told, BEFORE) {
            return None;
        }
        Some(format!("reference: {number}, {}\nlibrary: {refusal}, length {length:?}, {}", hex(section), hex(&out)))
    }

    fn smaller(&self) -> Box<dyn Iterator<Item = Self> + '_> {
        let fewer_rows = (0..self.rows.len() / 8).map(|row| {
            let mut fewer = self.clone();
            fewer.rows.drain(8 * row..8 * row + 8);
            fewer.given[5] = fewer.given[5].saturating_sub(1);
            fewer
        });
        let fewer_bytes = smaller_bytes(&self.bytes).map(|bytes| Write { bytes, ..self.clone() });
        Box::new(fewer_rows.chain(fewer_bytes))
    }

    fn shown(&self) -> String {
        format!(
            "{:?}, given {:?}, rows {:?}, room {}, bytes {}",
            self.kind,
            self.given,
            self.rows,
            self.room,
            hex(&self.bytes)
        )
    }
}

/// One number of the header, or of a row, at its limit or beyond it.
fn edge(chance: &mut Chance, bits: u32) -> u32 {
    let limit = if bits < 32 { 1u32 << bits } else { 0 };
    chance.of(&[limit.wrapping_sub(1), limit, limit.wrapping_add(1), u32::MAX, 0, limit << 1])
}

fn break_one(chance: &mut Chance, write: &mut Write) {
    match chance.below(8) {
        0 => {
            let (at, bits) = chance.of(&[(0, 16), (1, 5), (2, 1), (3, 8), (4, 8)]);
            write.given[at] = edge(chance, bits);
        }
        1 => {
            write.given[5] =
                chance.of(&[0, 1, 255, 256, u32::MAX, write.given[5].wrapping_add(1), write.given[5].wrapping_sub(1)])
        }
        2 | 3 if !write.rows.is_empty() => {
            let row = chance.below(write.rows.len().div_ceil(8));
            let (at, bits) = chance.of(&[(0, 14), (1, 32), (2, 2), (3, 20), (4, 16), (5, 8), (6, 16), (7, 12)]);
            if let Some(number) = write.rows.get_mut(8 * row + at) {
                *number = if chance.often(50) {
                    edge(chance, bits)
                } else {
                    number.wrapping_add(chance.of(&[1, u32::MAX, 2, 7]))
                };
            }
        }
        4 => {
            let n = chance.below(write.rows.len() + 1);
            write.rows.truncate(n);
        }
        5 => write.rows.extend((0..1 + chance.below(9)).map(|at| at as u32)),
        6 => {
            let n = chance.below(write.bytes.len() + 1);
            write.bytes.truncate(n);
        }
        _ if !write.bytes.is_empty() => {
            let at = chance.below(write.bytes.len());
            write.bytes[at] = chance.byte();
        }
        _ => {}
    }
}

fn eit(chance: &mut Chance) -> Write {
    let given = header(chance, Kind::Eit);
    let events = if chance.often(4) { chance.of(&[100, 255, 256]) } else { chance.below(5) };
    let mut write = Write { kind: Kind::Eit, given, rows: Vec::new(), bytes: Vec::new(), room: 0 };
    for _ in 0..events {
        let most = if chance.often(3) { 300 } else { 50 };
        let title = make::text(chance, most).bytes;
        let most = if events > 5 { 0 } else { 1500 };
        let list = make::list(chance, most, true).bytes;
        let start = write.bytes.len() as u32;
        write.rows.extend([
            chance.next() as u32 & 0x3FFF,
            chance.next() as u32,
            chance.below(4) as u32,
            chance.next() as u32 & 0xF_FFFF,
        ]);
        write.rows.extend([start, title.len() as u32, start + title.len() as u32, list.len() as u32]);
        write.bytes.extend(title);
        write.bytes.extend(list);
    }
    write.given[5] = events as u32;
    write
}

fn ett(chance: &mut Chance) -> Write {
    let given = header(chance, Kind::Ett);
    let most = if chance.often(10) { 4500 } else { 100 };
    Write { kind: Kind::Ett, given, rows: Vec::new(), bytes: make::text(chance, most).bytes, room: 0 }
}

/// A section that was received, to be written again from its own rows and bytes.
fn again(chance: &mut Chance) -> Option<Write> {
    let bytes = make::received(chance);
    let table = tables::eit(&bytes).ok()?;
    let h = table.header;
    let given = [
        h.extension.into(),
        h.version.into(),
        h.current.into(),
        h.number.into(),
        h.last.into(),
        table.events.len() as u32,
    ];
    let rows = table.events.iter().flat_map(|event| {
        let (title, list) = (event.title_part, event.descriptors);
        let parts = [title.start, title.length, list.start, list.length].map(|number| number as u32);
        [event.event_id.into(), event.start_time, event.etm_location.into(), event.length_in_seconds]
            .into_iter()
            .chain(parts)
    });
    Some(Write { kind: Kind::Eit, given, rows: rows.collect(), bytes, room: 0 })
}

fn header(chance: &mut Chance, kind: Kind) -> [u32; 6] {
    let h = make::head(chance, kind);
    [h.extension.into(), h.version.into(), h.current.into(), h.number.into(), h.last.into(), chance.next() as u32]
}

pub fn any(chance: &mut Chance) -> Write {
    let mut write = match chance.below(10) {
        0..=5 => eit(chance),
        6 | 7 => again(chance).unwrap_or_else(|| eit(chance)),
        _ => ett(chance),
    };
    for _ in 0..chance.of(&[0, 0, 1, 1, 2]) {
        break_one(chance, &mut write);
    }
    write.room = 5000;
    let exact = write.expected().map_or(40, |section| section.len());
    write.room = chance.room(exact);
    write
}
