//! The C face, include/guide.h, and the only unsafe code of the crate: each call wrapped in a function that lends it slices.
//!
//! What guide.h asks of a caller is that each pointer is good for the length beside it, or for the one struct that it points to, and that
//! what is lent to be written overlaps nothing else. Slices and `&mut` give both; a struct that is told is one of numbers, of which all
//! bits are a value.

use crate::refusal::Refusal;

/// A call's answer: 0, or a refusal.
fn answered<T>(answer: u32, told: T) -> Result<T, Refusal> {
    match answer {
        0 => Ok(told),
        number => Err(Refusal::of(number).expect("guide.h names all numbers that a call answers")),
    }
}

macro_rules! numbers {
    ($($c:literal $name:ident { $($field:ident: $kind:ty),* })*) => {
        $(
            #[repr(C)]
            #[derive(Clone, Copy, Default)]
            pub struct $name {
                $(pub $field: $kind,)*
            }
        )*

        /// The structs by their names in guide.h, with their sizes here.
        #[cfg(test)]
        const SIZES: &[(&str, usize)] = &[$(($c, std::mem::size_of::<$name>())),*];

        /// Their fields, with their offsets here.
        #[cfg(test)]
        const OFFSETS: &[(&str, &str, usize)] = &[$($(($c, stringify!($field), std::mem::offset_of!($name, $field))),*),*];
    };
}

numbers! {
    "guide_part" Part { start: u32, length: u32 }
    "guide_header" Header { table_id: u32, extension: u32, version: u32, current: u32, number: u32, last: u32 }
    "guide_mgt_fields" MgtFields { tables: u32, descriptors: Part }
    "guide_table_fields" TableFields { table_type: u32, pid: u32, version: u32, bytes: u32, descriptors: Part }
    "guide_tvct_fields" TvctFields { tsid: u32, channels: u32, descriptors: Part }
    "guide_channel_fields" ChannelFields {
        name: [u32; 7], major: u32, minor: u32, modulation: u32, carrier: u32, channel_tsid: u32, program_number: u32, etm_location: u32,
        access_controlled: u32, hidden: u32, six_bits: u32, service_type: u32, source_id: u32, descriptors: Part
    }
    "guide_rrt_fields" RrtFields { extension: u32, region: u32, name: Part, dimensions: u32, descriptors: Part }
    "guide_dimension_fields" DimensionFields { name: Part, graduated_scale: u32, values: u32 }
    "guide_value_row" ValueRow { dimension: u32, value: u32, short_text: Part, long_text: Part }
    "guide_eit_fields" EitFields { source: u32, events: u32 }
    "guide_ett_fields" EttFields { extension: u32, etm_id: u32, text: Part }
    "guide_event_row" EventRow {
        event_id: u32, start_time: u32, etm_location: u32, length_in_seconds: u32, title: Part, descriptors: Part
    }
    "guide_titled_event" TitledEvent {
        event_id: u32, start_time: u32, etm_location: u32, length_in_seconds: u32, title: Part, descriptors: Part, sort: u32, first_unit: u32,
        units: u32, replaced: u32
    }
    "guide_titles_told" TitlesTold { events: u32, units: u32 }
    "guide_heading_told" HeadingTold { language: u32, segments: u32 }
    "guide_units_told" UnitsTold { units: u32, replaced: u32 }
    "guide_rating_told" RatingTold { answer: u32, value: u32 }
    "guide_descriptor_told" DescriptorTold { tag: u32, content: Part }
    "guide_given" Given { extension: u32, version: u32, current: u32, number: u32, last: u32, events: u32 }
    "guide_watch" Watch { live: u8, key: WatchKey, quota: u8, heard: u8, version: u8, last: u8 }
    "guide_place" Place { used: u32, watch: u32, number: u32, length: u32, time: u32 }
    "guide_question" Question { pid: u32, table_id: u32, extension: u32, amount: u32 }
    "guide_reply" Reply { code: u32, first: u32, second: u32 }
}

#[repr(C)]
#[derive(Clone, Copy, Default)]
pub struct WatchKey {
    pub pid: u16,
    pub table_id: u8,
    pub extension: u16,
}

pub const NO_TITLE: u32 = 1;
pub const NO_STRINGS: u32 = 2;
pub const TEXT: u32 = 3;

pub const NO_ADVISORY: u32 = 1;
pub const REGION_ABSENT: u32 = 2;
pub const DIMENSION_ABSENT: u32 = 3;

pub const NOTHING_HEARD: u32 = 1;
pub const IN_PART: u32 = 2;

/// How many numbers of 32 bits rows are.
fn numbers_in<T>(rows: &[T]) -> usize {
    std::mem::size_of_val(rows) / 4
}

/// Calls that are lent bytes and some numbers and tell one struct.
macro_rules! asking {
    ($($name:ident = $c:ident($($number:ident),*) -> $told:ty;)*) => {
        mod asking_c {
            use super::*;
            extern "C" {
                $(pub fn $c(bytes: *const u8, n: usize, $($number: u32,)* told: *mut $told) -> u32;)*
            }
        }

        $(pub fn $name(bytes: &[u8], $($number: u32),*) -> Result<$told, Refusal> {
            let mut told = <$told>::default();
            // SAFETY: the bytes are lent with their length, and `told` is a local.
            let answer = unsafe { asking_c::$c(bytes.as_ptr(), bytes.len(), $($number,)* &mut told) };
            answered(answer, told)
        })*
    };
}

asking! {
    judge = guide_judge() -> Header;
    fault = guide_fault() -> u32;
    mgt = guide_mgt() -> MgtFields;
    tvct = guide_tvct() -> TvctFields;
    rrt = guide_rrt() -> RrtFields;
    eit = guide_eit() -> EitFields;
    ett = guide_ett() -> EttFields;
    field_strings = guide_field_strings() -> u32;
    field_heading = guide_field_heading(string) -> HeadingTold;
    field_units = guide_field_units(string) -> UnitsTold;
    list_rating = guide_list_rating(region, dimension) -> RatingTold;
    list_descriptor = guide_list_descriptor(k) -> DescriptorTold;
    list_advisory = guide_list_advisory(region) -> Part;
}

/// Calls that tell all entries of a table, as rows.
macro_rules! listing {
    ($($name:ident = $c:ident -> $row:ty;)*) => {
        mod listing_c {
            use super::*;
            extern "C" {
                $(pub fn $c(section: *const u8, n: usize, rows: *mut $row, numbers: usize, count: *mut u32) -> u32;)*
            }
        }

        $(pub fn $name(section: &[u8], most: usize) -> Result<Vec<$row>, Refusal> {
            let mut rows = vec![<$row>::default(); most];
            let mut count = 0;
            // SAFETY: the bytes and the rows are lent with their lengths, the rows' in numbers of 32 bits, of which they are made.
            let answer = unsafe { listing_c::$c(section.as_ptr(), section.len(), rows.as_mut_ptr(), numbers_in(&rows), &mut count) };
            rows.truncate(count as usize);
            answered(answer, rows)
        })*
    };
}

listing! {
    mgt_tables = guide_mgt_tables -> TableFields;
    tvct_channels = guide_tvct_channels -> ChannelFields;
    rrt_dimensions = guide_rrt_dimensions -> DimensionFields;
    rrt_values = guide_rrt_values -> ValueRow;
}

extern "C" {
    fn guide_titles(
        section: *const u8,
        n: usize,
        rows: *mut TitledEvent,
        numbers: usize,
        units: *mut u16,
        room: usize,
        told: *mut TitlesTold,
    ) -> u32;
    fn guide_field_text(
        field: *const u8,
        n: usize,
        string: u32,
        units: *mut u16,
        room: usize,
        told: *mut UnitsTold,
    ) -> u32;
    fn guide_write_eit(
        given: *const Given,
        rows: *const EventRow,
        numbers: usize,
        bytes: *const u8,
        n: usize,
        out: *mut u8,
        room: usize,
        length: *mut u32,
    ) -> u32;
    fn guide_write_ett(
        given: *const Given,
        text: *const u8,
        n: usize,
        out: *mut u8,
        room: usize,
        length: *mut u32,
    ) -> u32;
}

/// All events of an EIT, and the units of their titles one after the other.
pub fn titles(section: &[u8], most: usize) -> Result<(Vec<TitledEvent>, Vec<u16>), Refusal> {
    let mut rows = vec![TitledEvent::default(); most];
    // A byte has at most eight units, and with so much room each title is decoded once.
    let mut units = vec![0; 8 * section.len()];
    let mut told = TitlesTold::default();
    // SAFETY: bytes, rows and units are lent with their lengths; the three vectors do not overlap.
    let answer = unsafe {
        let (s, n) = (section.as_ptr(), section.len());
        guide_titles(s, n, rows.as_mut_ptr(), numbers_in(&rows), units.as_mut_ptr(), units.len(), &mut told)
    };
    rows.truncate(told.events as usize);
    units.truncate(told.units as usize);
    answered(answer, (rows, units))
}

/// The units of a string.
pub fn field_text(field: &[u8], string: u32) -> Result<Vec<u16>, Refusal> {
    let mut units = vec![0; field_units(field, string)?.units as usize];
    let mut told = UnitsTold::default();
    // SAFETY: field and units are lent with their lengths.
    let answer =
        unsafe { guide_field_text(field.as_ptr(), field.len(), string, units.as_mut_ptr(), units.len(), &mut told) };
    units.truncate(told.units as usize);
    answered(answer, units)
}

/// A section that a writer puts into a buffer of the longest section's size.
fn written(write: impl FnOnce(&mut [u8], &mut u32) -> u32) -> Result<Vec<u8>, Refusal> {
    let mut out = vec![0; crate::LONGEST];
    let mut length = 0;
    let answer = write(&mut out, &mut length);
    out.truncate(length as usize);
    answered(answer, out)
}

pub fn write_eit(given: &Given, rows: &[EventRow], bytes: &[u8]) -> Result<Vec<u8>, Refusal> {
    // SAFETY: rows, bytes and buffer are lent with their lengths; the buffer is `written`'s own.
    written(|out, length| unsafe {
        let (text, n) = (bytes.as_ptr(), bytes.len());
        guide_write_eit(given, rows.as_ptr(), numbers_in(rows), text, n, out.as_mut_ptr(), out.len(), length)
    })
}

pub fn write_ett(given: &Given, text: &[u8]) -> Result<Vec<u8>, Refusal> {
    // SAFETY: text and buffer are lent with their lengths; the buffer is `written`'s own.
    written(|out, length| unsafe {
        guide_write_ett(given, text.as_ptr(), text.len(), out.as_mut_ptr(), out.len(), length)
    })
}

/// The memory of a shelf.
pub struct Lent {
    pub watches: Vec<Watch>,
    pub places: Vec<Place>,
    pub area: Vec<u8>,
}

macro_rules! shelf_calls {
    ($($c:ident)*) => {
        extern "C" {
            $(fn $c(watches: *mut Watch, records: usize, places: *mut Place, numbers: usize, area: *mut u8, size: usize, section: *const u8,
                    n: usize, question: *const Question, asked: usize, reply: *mut Reply, told: usize) -> u32;)*
        }
    };
}

shelf_calls! { lent_open lent_close lent_status lent_fetch lent_deliver }

type ShelfCall = unsafe extern "C" fn(
    *mut Watch,
    usize,
    *mut Place,
    usize,
    *mut u8,
    usize,
    *const u8,
    usize,
    *const Question,
    usize,
    *mut Reply,
    usize,
) -> u32;

impl Lent {
    fn change(&mut self, call: ShelfCall, question: Question, section: &[u8]) -> Result<(), Refusal> {
        let mut reply = Reply::default();
        // SAFETY: the three vectors are borrowed for writing and lent with their lengths, the places' in numbers of 32 bits, of which they are
        // made; the section is borrowed elsewhere, so it overlaps none of them. Question and reply are four and three numbers.
        let answer = unsafe {
            let (watches, places, area) = (&mut self.watches[..], &mut self.places[..], &mut self.area[..]);
            let (records, numbers, size) = (watches.len(), numbers_in(places), area.len());
            let (watches, places, area) = (watches.as_mut_ptr(), places.as_mut_ptr(), area.as_mut_ptr());
            call(
                watches,
                records,
                places,
                numbers,
                area,
                size,
                section.as_ptr(),
                section.len(),
                &question,
                4,
                &mut reply,
                3,
            )
        };
        answered(answer, ())
    }

    fn ask(&self, call: ShelfCall, question: Question) -> Result<Reply, Refusal> {
        let mut reply = Reply::default();
        // SAFETY: as above, but that the vectors are borrowed for reading. Status and fetching, which alone come here, write the reply and nothing
        // else (guide.h: a call that is done writes what its comment says), and a shelf is not shared between threads.
        let answer = unsafe {
            let (watches, places, area) = (self.watches.as_ptr(), self.places.as_ptr(), self.area.as_ptr());
            let (records, numbers, size) = (self.watches.len(), numbers_in(&self.places), self.area.len());
            let section = [].as_ptr();
            call(
                watches.cast_mut(),
                records,
                places.cast_mut(),
                numbers,
                area.cast_mut(),
                size,
                section,
                0,
                &question,
                4,
                &mut reply,
                3,
            )
        };
        answered(answer, reply)
    }

    pub fn open(&mut self, question: Question) -> Result<(), Refusal> {
        self.change(lent_open, question, &[])
    }

    pub fn close(&mut self, question: Question) -> Result<(), Refusal> {
        self.change(lent_close, question, &[])
    }

    pub fn deliver(&mut self, question: Question, section: &[u8]) -> Result<(), Refusal> {
        self.change(lent_deliver, question, section)
    }

    pub fn status(&self, question: Question) -> Result<Reply, Refusal> {
        self.ask(lent_status, question)
    }

    pub fn fetch(&self, question: Question) -> Result<Reply, Refusal> {
        self.ask(lent_fetch, question)
    }
}

/// The structs above are those of guide.h: sizes and offsets are asked of the C compiler, names and numbers read from its text.
#[cfg(test)]
mod header {
    use super::*;
    use std::path::PathBuf;
    use std::process::Command;

    fn include() -> PathBuf {
        PathBuf::from(env!("CARGO_MANIFEST_DIR")).join("../../include")
    }

    #[test]
    fn structs_are_laid_out_as_in_c() {
        let folder = std::env::temp_dir().join(format!("guide-layout-{}", std::process::id()));
        std::fs::create_dir_all(&folder).unwrap();
        let (source, program) = (folder.join("layout.c"), folder.join("layout"));
        let mut lines = String::from("#include <guide.h>\n#include <stdio.h>\nint main(void) {\n");
        for (name, _) in SIZES {
            lines += &format!("printf(\"%zu\\n\", sizeof({name}));\n");
        }
        for (name, field, _) in OFFSETS {
            lines += &format!("printf(\"%zu\\n\", offsetof({name}, {field}));\n");
        }
        std::fs::write(&source, lines + "return 0;\n}\n").unwrap();
        let compiled =
            Command::new("gcc").arg("-I").arg(include()).arg("-o").args([&program, &source]).status().unwrap();
        assert!(compiled.success());
        let said = String::from_utf8(Command::new(&program).output().unwrap().stdout).unwrap();
        std::fs::remove_dir_all(&folder).unwrap();
        let here = SIZES.iter().map(|&(_, size)| size).chain(OFFSETS.iter().map(|&(_, _, at)| at));
        assert_eq!(
            said.lines().map(|line| line.parse().unwrap()).collect::<Vec<usize>>(),
            here.collect::<Vec<usize>>()
        );
    }

    #[test]
    fn refusals_are_those_of_the_header() {
        let header = std::fs::read_to_string(include().join("guide.h")).unwrap();
        for refusal in Refusal::ALL {
            let words = format!("{refusal:?}");
            let name: String = words
                .chars()
                .enumerate()
                .flat_map(|(at, letter)| {
                    (at > 0 && letter.is_uppercase()).then_some('_').into_iter().chain(letter.to_uppercase())
                })
                .collect();
            let line = header.lines().find(|line| line.contains(&format!("GUIDE_{name} = {},", refusal.number())));
            assert!(
                line.is_some_and(|line| line.ends_with(&format!("/* {} */", refusal.sentence()))),
                "{name}: {line:?}"
            );
            assert_eq!(Refusal::of(refusal.number()), Some(refusal));
        }
        assert_eq!((Refusal::of(0), Refusal::of(25)), (None, None));
    }
}
