//! The shelf: histories of calls over lent memory, all of which is compared after each call; and memory in which one number was changed, so
//! that a rule may be broken.

use crate::case::{hex, Case, Family, Tally, BEFORE};
use crate::chance::Chance;
use crate::library::*;
use crate::make::{self, Head};
use reference::{Kind, Place, Refusal, Shelf, Status, Watch};

const RECORD: usize = 6;
const ROW: usize = 5;
const REPLY: usize = 3;
const PLACE_BYTES: usize = 4096;
const LARGEST_PID: u32 = 8191;

#[derive(Clone, Copy, Debug, PartialEq, Eq)]
enum Does {
    Open,
    Close,
    Status,
    Fetch,
    Deliver,
}

const ALL: [Does; 5] = [Does::Open, Does::Close, Does::Status, Does::Fetch, Does::Deliver];

/// One call with what it is lent beside the shelf.
#[derive(Clone)]
struct Step {
    does: Does,
    question: Vec<u32>,
    /// How many numbers the reply has room for.
    told: usize,
    section: Vec<u8>,
}

/// The lent memory of a shelf. A watch record is six numbers of 16 bits, some of which hold two bytes or one and a gap.
#[derive(Clone, PartialEq)]
struct Memory {
    watches: Vec<u16>,
    places: Vec<u32>,
    area: Vec<u8>,
}

fn watch_of(record: &[u16]) -> Watch {
    let bytes = |at: usize| record[at].to_ne_bytes();
    Watch {
        live: bytes(0)[0] != 0,
        pid: record[1].into(),
        table_id: bytes(2)[0].into(),
        extension: record[3].into(),
        quota: bytes(4)[0].into(),
        heard: bytes(4)[1] != 0,
        version: bytes(5)[0].into(),
        last: bytes(5)[1].into(),
    }
}

fn place_of(row: &[u32]) -> Place {
    Place { used: row[0] != 0, watch: row[1], number: row[2], length: row[3] }
}

impl Memory {
    fn empty(records: usize, places: usize) -> Memory {
        Memory {
            watches: vec![0; RECORD * records],
            places: vec![0; ROW * places],
            area: vec![0; PLACE_BYTES * places],
        }
    }

    /// The shelf that the memory means; rows that are not whole are none, which the sizes refuse.
    fn shelf(&self) -> Shelf {
        let whole = self.places.len() % ROW == 0;
        Shelf {
            watches: self.watches.chunks_exact(RECORD).map(watch_of).collect(),
            places: self.places.chunks_exact(ROW).filter(|_| whole).map(place_of).collect(),
            area: self.area.clone(),
        }
    }

    /// Whether the memory after a call has the bytes that it must have: those of `before`, but for records and rows that the call changed,
    /// which have the values of `new`. A row that is written has 0 for its time; the gaps of a record that is written mean nothing. Of a
    /// record that was closed and a row that was freed the rules say no more than that: what numbers stay in them is open.
    fn is(&self, before: &Memory, old: &Shelf, new: &Shelf) -> bool {
        let record = |at: usize| RECORD * at..RECORD * (at + 1);
        let row = |at: usize| ROW * at..ROW * (at + 1);
        self.area == new.area
            && old.watches.iter().zip(&new.watches).enumerate().all(|(at, (old, new))| {
                let (now, then) = (&self.watches[record(at)], &before.watches[record(at)]);
                let meant = watch_of(now);
                if old == new {
                    now == then
                } else {
                    meant == *new || !meant.live && !new.live
                }
            })
            && old.places.iter().zip(&new.places).enumerate().all(|(at, (old, new))| {
                let (now, then) = (&self.places[row(at)], &before.places[row(at)]);
                if old == new {
                    now == then
                } else {
                    *now == [1, new.watch, new.number, new.length, 0] || now[0] == 0 && !new.used
                }
            })
    }
}

impl Step {
    /// What the reference answers, and the shelf afterwards.
    fn expected(&self, shelf: &mut Shelf) -> Result<Option<[u32; REPLY]>, Refusal> {
        let &[pid, table_id, extension, amount] = &self.question[..] else {
            return Err(14);
        };
        if self.told != REPLY {
            return Err(14);
        }
        // An extension of more than 16 bits is in no key; guide.h's calls take it for a PID out of range.
        let (pid, extension) = u16::try_from(extension).map_or((LARGEST_PID + 1, 0), |extension| (pid, extension));
        match self.does {
            Does::Open => shelf.open(pid, table_id, extension, amount).map(|_| None),
            Does::Close => shelf.close(pid, table_id, extension).map(|_| None),
            Does::Status => Ok(Some(match shelf.status(pid, table_id, extension)? {
                Status::NothingHeard => [1, u32::MAX, u32::MAX],
                Status::InPart(held, of) => [2, held, of],
                Status::Complete(held) => [3, held, held],
            })),
            Does::Fetch => {
                let part = shelf.fetch(pid, table_id, extension, amount)?;
                Ok(Some([4, part.start as u32, part.length as u32]))
            }
            Does::Deliver => shelf.deliver(self.question[0], &self.section).map(|_| None),
        }
    }

    /// Makes the call over the memory.
    fn make(&self, memory: &mut Memory, reply: &mut [u32]) -> u32 {
        let call = match self.does {
            Does::Open => lent_open,
            Does::Close => lent_close,
            Does::Status => lent_status,
            Does::Fetch => lent_fetch,
            Does::Deliver => lent_deliver,
        };
        // SAFETY: every pointer is good for the length beside it, and no two of the vectors overlap. A watch record has six numbers of
        // 16 bits, of which any bits are a value.
        unsafe {
            call(
                memory.watches.as_mut_ptr(),
                memory.watches.len() / RECORD,
                memory.places.as_mut_ptr(),
                memory.places.len(),
                memory.area.as_mut_ptr(),
                memory.area.len(),
                self.section.as_ptr(),
                self.section.len(),
                self.question.as_ptr(),
                self.question.len(),
                reply.as_mut_ptr(),
                self.told,
            )
        }
    }

    /// Makes the call and compares; the memory is then as the library left it.
    fn difference(&self, memory: &mut Memory, history: &History, tally: &mut Tally) -> Option<String> {
        let before = memory.clone();
        let old = before.shelf();
        let mut new = old.clone();
        let expected = self.expected(&mut new);
        let mut reply = [BEFORE; REPLY + 3];
        let number = self.make(memory, &mut reply);
        let mut told = [BEFORE; REPLY + 3];
        if let Ok(Some(answer)) = expected {
            told[..REPLY].copy_from_slice(&answer);
        }
        let said = expected.map_or_else(u32::from, |_| 0);
        tally.add(history, said);
        let kept = if said == 0 { memory.is(&before, &old, &new) } else { *memory == before };
        if number == said && reply == told && kept {
            return None;
        }
        let changed = if kept { "memory as expected" } else { "memory NOT as expected" };
        let meant = memory.shelf();
        Some(format!(
            "reference: {said}, reply {told:?}, {:?} {:?}\nlibrary: {number}, reply {reply:?}, {changed}, {:?} {:?}",
            new.watches, new.places, meant.watches, meant.places
        ))
    }
}

/// Calls one after the other over one memory.
#[derive(Clone)]
pub struct History {
    family: Family,
    start: Memory,
    steps: Vec<Step>,
}

impl Case for History {
    fn family(&self) -> Family {
        self.family
    }

    fn difference(&self, tally: &mut Tally) -> Option<String> {
        let mut memory = self.start.clone();
        self.steps.iter().find_map(|step| step.difference(&mut memory, self, tally))
    }

    fn smaller(&self) -> Box<dyn Iterator<Item = Self> + '_> {
        let n = self.steps.len();
        let sizes = std::iter::successors(Some(n / 2), |&size| Some(size / 2)).take_while(|&size| size > 0);
        let fewer = sizes.flat_map(move |size| {
            (0..=n - size).map(move |at| {
                let mut fewer = self.clone();
                fewer.steps.drain(at..at + size);
                fewer
            })
        });
        let shorter = (0..n).flat_map(move |at| {
            make::smaller(&self.steps[at].section).map(move |section| {
                let mut shorter = self.clone();
                shorter.steps[at].section = section;
                shorter
            })
        });
        Box::new(fewer.chain(shorter))
    }

    fn shown(&self) -> String {
        let shelf = self.start.shelf();
        let mut words = format!("{:?} {:?}, {} bytes\n", shelf.watches, shelf.places, self.start.area.len());
        for step in &self.steps {
            words += &format!(
                "{:?} {:?}, reply of {}, section {}\n",
                step.does,
                step.question,
                step.told,
                hex(&step.section)
            );
        }
        words
    }
}

type Key = [u32; 3];

/// A key, mostly in range.
fn any_key(chance: &mut Chance) -> Key {
    let pid = chance.of(&[0x1D00, 0x1D00, 0x1D00, 8191, 0]);
    let table_id = chance.of(&[0xCB, 0xCB, 0xCB, 0xC8, 0xCC, 0xCA, 0xC7]);
    let extension = chance.of(&[7, 7, 8, 0xFFFF]);
    match chance.below(25) {
        0 => [chance.of(&[8192, 0xFFFF, 0x1_1D00, u32::MAX]), table_id, extension],
        1 => [pid, chance.of(&[0, 0xC9, 0xCD, 0x1CB, u32::MAX]), extension],
        2 => [pid, table_id, chance.of(&[0x1_0007, u32::MAX])],
        _ => [pid, table_id, extension],
    }
}

fn delivered(chance: &mut Chance, [_, table_id, extension]: Key) -> Vec<u8> {
    let kind = Kind::of_table_id(table_id).unwrap_or(Kind::Eit);
    let last = if kind.one_section() { 0 } else { chance.of(&[0, 1, 1, 2, 3]) };
    let head = Head {
        extension: extension as u16,
        version: chance.of(&[0, 0, 0, 1, 31]),
        current: chance.often(95),
        number: chance.below(usize::from(last) + 1) as u8,
        last,
    };
    let built = make::section(chance, kind, head);
    if chance.often(85) {
        return built.bytes;
    }
    let mut bytes = make::damaged(chance, built);
    if chance.often(60) {
        make::reseal(&mut bytes, true);
    }
    bytes
}

/// A call about one of the keys, or seldom about another.
fn step(chance: &mut Chance, keys: &[Key], does: Does) -> Step {
    let [pid, table_id, extension] = if chance.often(90) { chance.of(keys) } else { any_key(chance) };
    let amount = match does {
        Does::Open => chance.of(&[1, 1, 2, 2, 3, 4, 0, 64, 65, 257]),
        _ => chance.of(&[0, 0, 1, 1, 2, 3, 255, 256, u32::MAX]),
    };
    let section = if does == Does::Deliver { delivered(chance, [pid, table_id, extension]) } else { Vec::new() };
    let mut question = vec![pid, table_id, extension, amount];
    let mut told = REPLY;
    if chance.often(1) {
        question.resize(chance.of(&[0, 3, 5]), 0);
    } else if chance.often(1) {
        told = chance.of(&[0, 2, 4]);
    }
    Step { does, question, told, section }
}

fn any_step(chance: &mut Chance, keys: &[Key]) -> Step {
    let does = chance.of(&[
        Does::Open,
        Does::Open,
        Does::Close,
        Does::Status,
        Does::Fetch,
        Does::Deliver,
        Does::Deliver,
        Does::Deliver,
        Does::Deliver,
    ]);
    step(chance, keys, does)
}

/// What an empty shelf may have where it has nothing: records that are not open and rows that are free, with anything in them.
fn littered(chance: &mut Chance, memory: &mut Memory) {
    for record in memory.watches.chunks_exact_mut(RECORD) {
        record.iter_mut().for_each(|number| *number = chance.next() as u16);
        let [_, gap] = record[0].to_ne_bytes();
        record[0] = u16::from_ne_bytes([0, gap]);
    }
    for row in memory.places.chunks_exact_mut(ROW) {
        row.iter_mut().for_each(|number| *number = chance.next() as u32);
        row[0] = 0;
    }
    let byte = chance.byte();
    memory.area.fill(byte);
}

pub fn history(chance: &mut Chance) -> History {
    let keys = keys(chance);
    history_of(chance, &keys)
}

/// The few keys that a history goes about.
fn keys(chance: &mut Chance) -> Vec<Key> {
    (0..1 + chance.below(4)).map(|_| any_key(chance)).collect()
}

fn history_of(chance: &mut Chance, keys: &[Key]) -> History {
    let records = if chance.often(5) { chance.of(&[0, 16, 17]) } else { 1 + chance.below(4) };
    let places = if chance.often(3) { chance.of(&[0, 64, 65]) } else { 1 + chance.below(7) };
    let mut start = Memory::empty(records, places);
    if chance.often(50) {
        littered(chance, &mut start);
    }
    let opened = keys.iter().map(|&[pid, table_id, extension]| {
        let question = vec![pid, table_id, extension, 1 + chance.below(3) as u32];
        Step { does: Does::Open, question, told: REPLY, section: Vec::new() }
    });
    let mut steps: Vec<Step> = opened.collect();
    steps.extend((0..8 + chance.below(30)).map(|_| any_step(chance, keys)));
    History { family: Family::Shelf, start, steps }
}

/// One number of the memory changed, or one of its sizes.
fn changed(chance: &mut Chance, memory: &mut Memory) {
    let odd = |chance: &mut Chance| chance.of(&[0, 1, 2, 3, 4, 7, 64, 65, 255, 256, 4096, 4097, 0x1_0000, 0xFFFF_FFFF]);
    match chance.below(12) {
        0..=4 if !memory.watches.is_empty() => {
            let at = chance.below(memory.watches.len());
            let mut bytes = memory.watches[at].to_ne_bytes();
            match chance.below(4) {
                0 => bytes = [chance.byte(), chance.byte()],
                1 => bytes = (odd(chance) as u16).to_ne_bytes(),
                _ => bytes[chance.below(2)] = odd(chance) as u8,
            }
            memory.watches[at] = u16::from_ne_bytes(bytes);
        }
        5 if memory.watches.len() >= 2 * RECORD => {
            // A record twice: two open watches of one key.
            let (from, to) = (chance.below(memory.watches.len() / RECORD), chance.below(memory.watches.len() / RECORD));
            memory.watches.copy_within(RECORD * from..RECORD * (from + 1), RECORD * to);
        }
        6..=9 if !memory.places.is_empty() => {
            let at = chance.below(memory.places.len());
            memory.places[at] = odd(chance);
        }
        10 => {
            let n = memory.places.len();
            memory.places.resize(n.saturating_sub(chance.below(3)) + chance.below(3), 1);
        }
        _ => {
            let n = memory.area.len();
            memory.area.resize(n.saturating_sub(chance.below(2)) + chance.below(2), 1);
        }
    }
}

/// A shelf that came about by a history, then changed in one place or two, and each of the five calls on it.
pub fn unruly(chance: &mut Chance) -> Vec<History> {
    let keys = keys(chance);
    let past = history_of(chance, &keys);
    let mut memory = past.start.clone();
    for step in &past.steps {
        let mut reply = [0; REPLY + 3];
        step.make(&mut memory, &mut reply);
    }
    let mut cases = Vec::new();
    for _ in 0..4 {
        let mut start = memory.clone();
        for _ in 0..1 + chance.below(2) {
            changed(chance, &mut start);
        }
        cases.extend(ALL.map(|does| History {
            family: Family::Unruly,
            start: start.clone(),
            steps: vec![step(chance, &keys, does)],
        }));
    }
    cases
}
