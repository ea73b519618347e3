//! The shelf: kept sections of the watched keys, in places of 4,096 bytes.
//!
//! Every field is open to the outside, so each call judges the whole shelf (14) before it believes any of it.

use crate::field::Part;
use crate::section::{judge, Kind};
use crate::Refusal;

const PLACE: usize = 4096;
const MOST_PLACES: usize = 64;
const MOST_WATCHES: usize = 16;

#[derive(Clone, Copy, Debug, Default, PartialEq, Eq)]
pub struct Watch {
    /// Open.
    pub live: bool,
    pub pid: u32,
    pub table_id: u32,
    pub extension: u32,
    pub quota: u32,
    /// Has an edition.
    pub heard: bool,
    pub version: u32,
    pub last: u32,
}

#[derive(Clone, Copy, Debug, Default, PartialEq, Eq)]
pub struct Place {
    /// Holds a section.
    pub used: bool,
    /// Which record.
    pub watch: u32,
    pub number: u32,
    pub length: u32,
}

#[derive(Clone, Debug, PartialEq, Eq)]
pub struct Shelf {
    pub watches: Vec<Watch>,
    pub places: Vec<Place>,
    /// Place k's bytes begin at 4096 * k.
    pub area: Vec<u8>,
}

#[derive(Clone, Copy, Debug, PartialEq, Eq)]
pub enum Status {
    NothingHeard,
    /// So many of so many sections.
    InPart(u32, u32),
    Complete(u32),
}

pub fn pid_in_range(pid: u32) -> bool {
    pid <= 8191
}

/// PID, table_id and quota of a watch, what number 15 asks of them.
fn watch_in_range(pid: u32, table_id: u32, quota: u32) -> bool {
    pid_in_range(pid) && Kind::of_table_id(table_id).is_some() && (1..=64).contains(&quota)
}

impl Watch {
    fn has_key(&self, pid: u32, table_id: u32, extension: u32) -> bool {
        self.live && (self.pid, self.table_id, self.extension) == (pid, table_id, extension)
    }

    fn right(&self) -> bool {
        watch_in_range(self.pid, self.table_id, self.quota)
            && self.extension <= 0xFFFF
            && (!self.heard || self.last < self.quota) // without an edition there is no last (reading 43)
    }
}

impl Place {
    fn is_of(&self, record: usize) -> bool {
        self.used && usize::try_from(self.watch) == Ok(record)
    }
}

impl Shelf {
    /// Sizes that no shelf has give a shelf of nothing, which every call refuses (reading 48).
    pub fn new(watches: usize, places: usize) -> Shelf {
        let right = (1..=MOST_WATCHES).contains(&watches) && (1..=MOST_PLACES).contains(&places);
        let (watches, places) = if right { (watches, places) } else { (0, 0) };
        Shelf {
            watches: vec![Watch::default(); watches],
            places: vec![Place::default(); places],
            area: vec![0; PLACE * places],
        }
    }

    /// Opens a watch; the answer is the record it took.
    pub fn open(&mut self, pid: u32, table_id: u32, extension: u16, quota: u32) -> Result<usize, Refusal> {
        self.judge_rules()?;
        if !watch_in_range(pid, table_id, quota) {
            return Err(15);
        }
        if self.find(pid, table_id, extension).is_ok() {
            return Err(19);
        }
        let record = self.watches.iter().position(|watch| !watch.live).ok_or(20)?; // lowest (reading 58)
        if self.promised() + u64::from(quota) > self.places.len() as u64 {
            return Err(21);
        }
        let extension = extension.into();
        self.watches[record] = Watch { live: true, pid, table_id, extension, quota, ..Watch::default() };
        Ok(record)
    }

    /// Closes a watch and frees its places; what the records and the area hold besides stays (reading 63).
    pub fn close(&mut self, pid: u32, table_id: u32, extension: u16) -> Result<(), Refusal> {
        let record = self.watched(pid, table_id, extension)?;
        self.free(record);
        self.watches[record].live = false;
        Ok(())
    }

    pub fn status(&self, pid: u32, table_id: u32, extension: u16) -> Result<Status, Refusal> {
        let record = self.watched(pid, table_id, extension)?;
        let watch = self.watches[record];
        if !watch.heard {
            return Ok(Status::NothingHeard);
        }
        let all = watch.last + 1;
        let held = (0..all).filter(|&number| self.held(record, number).is_some()).count() as u32;
        Ok(if held == all { Status::Complete(all) } else { Status::InPart(held, all) })
    }

    /// Where in the area the bytes of a kept section stand.
    pub fn fetch(&self, pid: u32, table_id: u32, extension: u16, number: u32) -> Result<Part, Refusal> {
        let record = self.watched(pid, table_id, extension)?;
        let place = self.held(record, number).ok_or(22)?;
        Ok(Part { start: PLACE * place, length: self.places[place].length as usize })
    }

    pub fn deliver(&mut self, pid: u32, section: &[u8]) -> Result<(), Refusal> {
        self.judge_rules()?;
        if !pid_in_range(pid) {
            return Err(15);
        }
        let header = judge(section, None)?;
        if !header.current {
            return Err(16);
        }
        let record = self.find(pid, header.kind.table_id().into(), header.extension)?;
        let watch = self.watches[record];
        let (version, last, number) = (header.version.into(), header.last.into(), header.number.into());
        if last + 1 > watch.quota {
            return Err(18);
        }
        let same = watch.heard && (watch.version, watch.last) == (version, last);
        // The place is chosen before anything changes: that of the same number, else the lowest that is free or, in a new
        // edition, will be (reading 75). There always is one (reading 76).
        let free = |place: &Place| !place.used || (!same && place.is_of(record));
        let kept = if same { self.held(record, number) } else { None };
        let place = kept.or_else(|| self.places.iter().position(free)).ok_or(14)?;
        if !same {
            self.free(record);
            self.watches[record] = Watch { heard: true, version, last, ..watch };
        }
        self.places[place] = Place { used: true, watch: record as u32, number, length: section.len() as u32 };
        self.area[PLACE * place..][..section.len()].copy_from_slice(section);
        Ok(())
    }

    /// What number 14 asks: sizes and rules.
    pub fn rules_hold(&self) -> bool {
        let sizes = (1..=MOST_WATCHES).contains(&self.watches.len())
            && (1..=MOST_PLACES).contains(&self.places.len())
            && self.area.len() == PLACE * self.places.len();
        sizes && self.watches_right() && self.places_right()
    }

    /// Places promised: the quotas of the open watches together.
    pub fn promised(&self) -> u64 {
        self.watches.iter().filter(|watch| watch.live).fold(0, |sum, watch| sum.saturating_add(watch.quota.into()))
    }

    fn watches_right(&self) -> bool {
        let open = || self.watches.iter().filter(|watch| watch.live);
        let alone = |watch: &Watch| {
            open().filter(|other| other.has_key(watch.pid, watch.table_id, watch.extension)).count() == 1
        };
        open().all(|watch| watch.right() && alone(watch)) && self.promised() <= self.places.len() as u64
    }

    /// Of used places only; that no watch holds more than its quota follows from what is asked here (reading 41).
    fn places_right(&self) -> bool {
        let alone = |place: &Place| {
            let same = |other: &&Place| other.used && (other.watch, other.number) == (place.watch, place.number);
            self.places.iter().filter(same).count() == 1
        };
        let right = |place: &Place| {
            let watch = self.watches.get(place.watch as usize).filter(|watch| watch.live && watch.heard);
            watch.is_some_and(|watch| place.number <= watch.last) && place.length as usize <= PLACE && alone(place)
        };
        self.places.iter().filter(|place| place.used).all(right)
    }

    fn judge_rules(&self) -> Result<(), Refusal> {
        if self.rules_hold() {
            Ok(())
        } else {
            Err(14)
        }
    }

    /// The record with this key, else 17.
    fn find(&self, pid: u32, table_id: u32, extension: u16) -> Result<usize, Refusal> {
        self.watches.iter().position(|watch| watch.has_key(pid, table_id, extension.into())).ok_or(17)
    }

    /// 14, then 17.
    fn watched(&self, pid: u32, table_id: u32, extension: u16) -> Result<usize, Refusal> {
        self.judge_rules()?;
        self.find(pid, table_id, extension)
    }

    /// The place that holds this number of this record.
    fn held(&self, record: usize, number: u32) -> Option<usize> {
        self.places.iter().position(|place| place.is_of(record) && place.number == number)
    }

    fn free(&mut self, record: usize) {
        for place in self.places.iter_mut().filter(|place| place.is_of(record)) {
            place.used = false;
        }
    }
}

#[cfg(test)]
mod tests {
    use super::*;
    use crate::samples::{eit_of, seal};

    /// An EIT of source 7, told apart by its version, numbers, and an event with descriptors of so many bytes.
    fn eit_with(version: u8, number: u8, last: u8, mark: u8, list: &[u8]) -> Vec<u8> {
        let mut bytes = eit_of(&[(mark.into(), 0, 0, &[], list)]);
        bytes[4] = 7;
        bytes[5] = 0xC1 | version << 1;
        bytes[6] = number;
        bytes[7] = last;
        seal(&mut bytes);
        bytes
    }

    fn eit(version: u8, number: u8, last: u8, mark: u8) -> Vec<u8> {
        eit_with(version, number, last, mark, &[])
    }

    fn bytes(shelf: &Shelf, number: u32) -> Result<Vec<u8>, Refusal> {
        let part = shelf.fetch(100, 0xCB, 7, number)?;
        Ok(shelf.area[part.start..part.start + part.length].to_vec())
    }

    /// One watch of quota 3 on five places.
    fn watching() -> Shelf {
        let mut shelf = Shelf::new(2, 5);
        assert_eq!(shelf.open(100, 0xCB, 7, 3), Ok(0));
        shelf
    }

    #[test]
    fn sizes() {
        for (watches, places, right) in [
            (1, 1, true),
            (16, 64, true),
            (0, 1, false),
            (1, 0, false),
            (17, 64, false),
            (16, 65, false),
            (usize::MAX, usize::MAX, false),
        ] {
            let mut shelf = Shelf::new(watches, places);
            assert_eq!(shelf.rules_hold(), right);
            assert_eq!(shelf.status(100, 0xCB, 7), Err(if right { 17 } else { 14 }));
            assert_eq!(shelf.close(100, 0xCB, 7), Err(if right { 17 } else { 14 }));
            assert_eq!(shelf.fetch(100, 0xCB, 7, 0), Err(if right { 17 } else { 14 }));
            assert_eq!(shelf.deliver(8192, &[]), Err(if right { 15 } else { 14 }));
            assert_eq!(shelf.open(100, 0xCB, 7, 1), if right { Ok(0) } else { Err(14) });
        }
        let mut shelf = Shelf::new(1, 2);
        shelf.area.push(0);
        assert!(!shelf.rules_hold());
    }

    #[test]
    fn opening() {
        let mut shelf = Shelf::new(3, 4); // P11
        assert_eq!(shelf.open(8192, 0xCB, 1, 2), Err(15)); // P13
        assert_eq!(shelf.open(1, 0x1CB, 1, 2), Err(15));
        assert_eq!(shelf.open(1, 0xC9, 1, 2), Err(15));
        assert_eq!(shelf.open(1, 0xCB, 1, 0), Err(15));
        assert_eq!(shelf.open(1, 0xCB, 1, 65), Err(15));
        assert_eq!(shelf.open(1, 0xCB, 1, 64), Err(21));
        assert_eq!(shelf.open(8191, 0xCB, 1, 2), Ok(0));
        assert_eq!(shelf.open(8191, 0xCB, 1, 64), Err(19));
        assert_eq!(shelf.open(8191, 0xCB, 0xFFFF, 2), Ok(1));
        let before = shelf.clone();
        assert_eq!(shelf.open(8191, 0xCC, 1, 1), Err(21));
        assert_eq!(shelf, before);
        assert_eq!(shelf.promised(), 4);
        assert_eq!(shelf.close(8191, 0xCB, 1), Ok(()));
        assert_eq!(shelf.promised(), 2);
        assert_eq!(shelf.open(8191, 0xCC, 1, 2), Ok(0));
        let mut full = Shelf::new(1, 1);
        assert_eq!(full.open(1, 0xC7, 0, 1), Ok(0));
        assert_eq!(full.open(2, 0xC7, 0, 1), Err(20)); // before 21
    }

    #[test]
    fn an_edition_in_order() {
        let mut shelf = watching();
        assert_eq!(shelf.status(100, 0xCB, 7), Ok(Status::NothingHeard));
        assert_eq!(shelf.fetch(100, 0xCB, 7, 0), Err(22));
        assert_eq!(shelf.deliver(100, &eit(3, 1, 1, 9)), Ok(()));
        assert_eq!(shelf.status(100, 0xCB, 7), Ok(Status::InPart(1, 2)));
        assert_eq!(shelf.deliver(100, &eit(3, 0, 1, 8)), Ok(()));
        assert_eq!(shelf.status(100, 0xCB, 7), Ok(Status::Complete(2)));
        assert_eq!(bytes(&shelf, 0), Ok(eit(3, 0, 1, 8)));
        assert_eq!(bytes(&shelf, 1), Ok(eit(3, 1, 1, 9)));
        assert_eq!(bytes(&shelf, 2), Err(22));
        assert_eq!(bytes(&shelf, u32::MAX), Err(22));
        let before = shelf.clone();
        assert_eq!(shelf.deliver(100, &eit(3, 0, 1, 8)), Ok(()));
        assert_eq!(shelf, before); // equal bytes change nothing
        assert_eq!(shelf.deliver(100, &eit(3, 0, 1, 5)), Ok(()));
        assert_eq!(shelf.fetch(100, 0xCB, 7, 0), before.fetch(100, 0xCB, 7, 0)); // in its place
        assert_eq!(bytes(&shelf, 0), Ok(eit(3, 0, 1, 5)));
    }

    #[test]
    fn a_new_edition_drops_the_old_one() {
        let mut shelf = watching();
        for number in 0..3 {
            assert_eq!(shelf.deliver(100, &eit(31, number, 2, number)), Ok(()));
        }
        assert_eq!(shelf.deliver(100, &eit(0, 1, 2, 7)), Ok(())); // 0 after 31 is only different
        assert_eq!(shelf.status(100, 0xCB, 7), Ok(Status::InPart(1, 3)));
        assert_eq!(shelf.fetch(100, 0xCB, 7, 1), Ok(Part { start: 0, length: 26 }));
        assert_eq!(shelf.deliver(100, &eit(0, 1, 1, 7)), Ok(())); // only last differs
        assert_eq!(shelf.status(100, 0xCB, 7), Ok(Status::InPart(1, 2)));
        assert!(shelf.rules_hold());
        for version in 0..20 {
            assert_eq!(shelf.deliver(100, &eit(version, 2, 2, 7)), Ok(())); // places are used again
        }
    }

    #[test]
    fn only_the_stated_bytes_change() {
        let mut shelf = watching();
        let long = eit_with(1, 0, 0, 9, &[6, 8, 6, 6, 6, 6, 6, 6, 6, 6]);
        assert_eq!(shelf.deliver(100, &long), Ok(()));
        assert_eq!(shelf.deliver(100, &eit(1, 0, 0, 8)), Ok(()));
        assert_eq!(bytes(&shelf, 0), Ok(eit(1, 0, 0, 8)));
        assert_eq!(shelf.area[26..36], long[26..]);
        let area = shelf.area.clone();
        assert_eq!(shelf.close(100, 0xCB, 7), Ok(()));
        assert_eq!(shelf.area, area);
        assert_eq!(shelf.close(100, 0xCB, 7), Err(17));
        assert!(shelf.places.iter().all(|place| !place.used));
        assert_eq!(shelf.open(100, 0xCB, 7, 3), Ok(0));
        assert_eq!(shelf.status(100, 0xCB, 7), Ok(Status::NothingHeard));
    }

    #[test]
    fn delivery_refusals_in_order() {
        let mut shelf = watching();
        let before = shelf.clone();
        let mut next = eit(1, 0, 3, 0);
        next[5] &= 0xFE;
        seal(&mut next);
        assert_eq!(shelf.deliver(8192, &[]), Err(15));
        assert_eq!(shelf.deliver(8191, &[]), Err(1));
        assert_eq!(shelf.deliver(101, &next), Err(16));
        assert_eq!(shelf.deliver(101, &eit(1, 0, 3, 0)), Err(17));
        assert_eq!(shelf.deliver(100, &eit(1, 0, 3, 0)), Err(18));
        assert_eq!(shelf.deliver(100, &eit(1, 0, 255, 0)), Err(18));
        assert_eq!(shelf.deliver(100, &eit(1, 2, 1, 0)), Err(8));
        assert_eq!(shelf, before);
        let mut small = Shelf::new(1, 1); // P10
        assert_eq!(small.open(100, 0xCB, 7, 1), Ok(0));
        assert_eq!(small.deliver(100, &eit(1, 0, 0, 0)), Ok(()));
        assert_eq!(small.deliver(100, &eit(2, 0, 1, 0)), Err(18));
        assert_eq!(small.status(100, 0xCB, 7), Ok(Status::Complete(1))); // the old edition stays
    }

    #[test]
    fn rules() {
        let right = {
            let mut shelf = watching();
            shelf.deliver(100, &eit(1, 0, 1, 0)).unwrap();
            shelf.deliver(100, &eit(1, 1, 1, 0)).unwrap();
            shelf
        };
        assert!(right.rules_hold());
        let changed = |change: fn(&mut Shelf)| {
            let mut shelf = right.clone();
            change(&mut shelf);
            let before = shelf.clone();
            let holds = shelf.rules_hold();
            assert_eq!(shelf.deliver(8192, &[]), Err(if holds { 15 } else { 14 }));
            assert_eq!(shelf, before);
            holds
        };
        assert!(!changed(|shelf| shelf.watches[1] = shelf.watches[0]));
        assert!(!changed(|shelf| shelf.watches[1] = Watch { pid: 1, ..shelf.watches[0] })); // 3 + 3 above 5
        assert!(changed(|shelf| shelf.watches[1] = Watch { pid: 1, quota: 2, ..shelf.watches[0] }));
        assert!(changed(
            |shelf| shelf.watches[1] = Watch { live: false, pid: u32::MAX, quota: u32::MAX, ..shelf.watches[0] }
        ));
        assert!(!changed(|shelf| shelf.watches[1] = Watch { live: true, quota: u32::MAX, ..Watch::default() }));
        assert!(!changed(|shelf| shelf.watches[0].pid = 8192));
        assert!(!changed(|shelf| shelf.watches[0].table_id = 0xC9));
        assert!(!changed(|shelf| shelf.watches[0].extension = 0x1_0007));
        assert!(!changed(|shelf| shelf.watches[0].quota = 0));
        assert!(!changed(|shelf| shelf.watches[0].quota = 1)); // last is 1
        assert!(changed(|shelf| shelf.watches[0].quota = 2));
        assert!(!changed(|shelf| shelf.watches[0].last = 3));
        assert!(!changed(|shelf| shelf.watches[0].last = u32::MAX));
        assert!(!changed(|shelf| shelf.watches[0].last = 0)); // number 1 is held
        assert!(changed(|shelf| shelf.watches[0].version = u32::MAX));
        assert!(!changed(|shelf| shelf.watches[0].heard = false));
        assert!(!changed(|shelf| shelf.watches[0].live = false));
        assert!(!changed(|shelf| shelf.places[0].watch = 1));
        assert!(!changed(|shelf| shelf.places[0].watch = u32::MAX));
        assert!(!changed(|shelf| shelf.places[0].number = 1));
        assert!(!changed(|shelf| shelf.places[0].number = 2));
        assert!(!changed(|shelf| shelf.places[0].length = 4097));
        assert!(changed(|shelf| shelf.places[0].length = 4096));
        assert!(changed(|shelf| shelf.places[4] = Place { used: false, watch: 9, number: 9, length: u32::MAX }));
        assert!(changed(|shelf| shelf.area[0] = 1));
    }

    /// Many small steps: the rules hold after each, and a refused one changes nothing.
    #[test]
    fn steps_keep_the_rules() {
        let mut seed = 1u32;
        let mut next = |below: u32| {
            seed = seed.wrapping_mul(1_664_525).wrapping_add(1_013_904_223);
            (seed >> 16) % below
        };
        let mut shelf = Shelf::new(3, 5);
        for _ in 0..1500 {
            let before = shelf.clone();
            let pid = 100 + next(4);
            let done = match next(12) {
                0 => shelf.open(pid, 0xCB, 7, next(5)).map(drop),
                1 => shelf.close(pid, 0xCB, 7),
                _ => shelf.deliver(pid, &eit(next(2) as u8, next(3) as u8, next(3) as u8, next(2) as u8)),
            };
            assert!(shelf.rules_hold());
            assert!(done.is_ok() || shelf == before);
        }
    }

    #[test]
    fn states_from_outside() {
        let mut shelf = watching();
        shelf.watches[0].heard = true; // an edition, nothing held
        assert_eq!(shelf.status(100, 0xCB, 7), Ok(Status::InPart(0, 1)));
        shelf.watches[0].heard = false;
        shelf.watches[0].last = u32::MAX; // no last without an edition
        assert_eq!(shelf.status(100, 0xCB, 7), Ok(Status::NothingHeard));
        assert_eq!(shelf.deliver(100, &eit(1, 0, 0, 0)), Ok(()));
        shelf.watches[0].version = 2; // equal bytes, differing edition
        assert_eq!(shelf.deliver(100, &eit(1, 0, 0, 0)), Ok(()));
        assert_eq!(shelf.watches[0].version, 1);
        let many = Shelf {
            watches: vec![Watch { live: true, quota: u32::MAX, ..Watch::default() }; 3],
            places: vec![],
            area: vec![],
        };
        assert_eq!(many.promised(), 3 * u64::from(u32::MAX));
        assert_eq!(many.status(0, 0, 0), Err(14));
    }
}
