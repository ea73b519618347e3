//! Calls that are lent bytes and tell what stands in them: sections, text fields and descriptor lists. Each is asked of the library and of
//! the reference, whose answer is put into the numbers that guide.h says.

use crate::case::{hex, written, Case, Family, Tally, BEFORE, BEFORE_16, BEHIND};
use crate::chance::Chance;
use crate::library::*;
use crate::make;
use reference::list::{self, Advice};
use reference::section_text::{self, Where};
use reference::tables::{self, Body, Channel, Dimension, Event, MgtTable, Value};
use reference::text;
use reference::{fault, rating, section, Kind, Part, Rating, Refusal, Title};

const NO_VALUE: u32 = u32::MAX;

/// Which text of a section: the numbers of guide_which.
pub type Which = [u32; 4];

#[derive(Clone, Copy, Debug)]
pub enum Call {
    Judge,
    Fault,
    Mgt,
    MgtTable(u32),
    Tvct,
    TvctChannel(u32),
    Rrt,
    RrtDimension(u32),
    RrtValue(u32, u32),
    Eit,
    EitEvent(u32),
    Ett,
    MgtTables { numbers: usize },
    TvctChannels { numbers: usize },
    RrtDimensions { numbers: usize },
    RrtValues { numbers: usize },
    EitEvents { numbers: usize },
    Titles { numbers: usize, room: usize },
    Strings(Which),
    Heading(Which),
    Units(Which),
    Text(Which, usize),
    FieldStrings,
    FieldHeading(u32),
    FieldUnits(u32),
    FieldText(u32, usize),
    Rating { i: u32, region: u32, dimension: u32 },
    Descriptor { i: u32, k: u32 },
    Advisory { i: u32, region: u32 },
    ListRating { region: u32, dimension: u32 },
    ListDescriptor { k: u32 },
    ListAdvisory { region: u32 },
}

/// What a call that is done tells: its struct or count, rows, and units.
#[derive(Default)]
struct Told {
    numbers: Vec<u32>,
    rows: Vec<u32>,
    units: Vec<u16>,
}

type Answer = Result<Told, Refusal>;

fn numbers(numbers: Vec<u32>) -> Told {
    Told { numbers, ..Told::default() }
}

/// All rows, or 12 where they have no room.
fn rows(count: usize, rows: Vec<u32>, room: usize) -> Answer {
    if rows.len() > room {
        return Err(12);
    }
    Ok(Told { numbers: vec![count as u32], rows, ..Told::default() })
}

fn part(part: Part) -> [u32; 2] {
    [part.start as u32, part.length as u32]
}

fn table_row(table: &MgtTable) -> Vec<u32> {
    let own = [table.table_type.into(), table.pid.into(), table.version.into(), table.number_bytes];
    [&own[..], &part(table.descriptors)].concat()
}

fn channel_row(channel: &Channel) -> Vec<u32> {
    let own = [
        channel.major.into(),
        channel.minor.into(),
        channel.modulation.into(),
        channel.carrier,
        channel.channel_tsid.into(),
        channel.program_number.into(),
        channel.etm_location.into(),
        channel.access_controlled.into(),
        channel.hidden.into(),
        channel.six_bits.into(),
        channel.service_type.into(),
        channel.source_id.into(),
    ];
    [&channel.short_name.map(u32::from)[..], &own, &part(channel.descriptors)].concat()
}

fn dimension_row(dimension: &Dimension) -> Vec<u32> {
    [&part(dimension.name)[..], &[dimension.graduated_scale.into(), dimension.values.len() as u32]].concat()
}

fn value_row(value: &Value) -> Vec<u32> {
    [part(value.short), part(value.long)].concat()
}

fn event_start(event: &Event) -> [u32; 4] {
    [event.event_id.into(), event.start_time, event.etm_location.into(), event.length_in_seconds]
}

fn event_row(event: &Event) -> Vec<u32> {
    [&event_start(event)[..], &part(event.title_part), &part(event.descriptors)].concat()
}

fn event_fields(event: &Event) -> Vec<u32> {
    let title = match event.title {
        Title::None => [1, NO_VALUE, NO_VALUE],
        Title::NoStrings => [2, NO_VALUE, NO_VALUE],
        Title::Text(Part { start, length }) => [3, start as u32, length as u32],
    };
    [&event_start(event)[..], &title, &part(event.descriptors)].concat()
}

fn titles(bytes: &[u8], room_of_rows: usize, room: usize) -> Answer {
    let events = tables::eit(bytes)?.events;
    let mut told = Told::default();
    for event in &events {
        told.rows.extend(event_row(event));
        told.rows.extend(match event.title {
            Title::None => [1, NO_VALUE, NO_VALUE, NO_VALUE],
            Title::NoStrings => [2, NO_VALUE, NO_VALUE, NO_VALUE],
            Title::Text(place) => match text::units(place.of(bytes).ok_or(9)?, 0) {
                // A text with strings has string 0, so 13 does not come here; 10 and 11 are told for the sort.
                Err(refusal) => [refusal.into(), NO_VALUE, NO_VALUE, NO_VALUE],
                Ok(units) => {
                    let first = told.units.len() as u32;
                    told.units.extend(&units);
                    [3, first, units.len() as u32, 0]
                }
            },
        });
    }
    if told.rows.len() > room_of_rows || told.units.len() > room {
        return Err(12);
    }
    told.numbers = vec![events.len() as u32, told.units.len() as u32];
    Ok(told)
}

/// The text that guide_which means; 13 where its number is none of the seven, before the section is judged.
fn place(which: Which) -> Result<Where, Refusal> {
    let [text, i, j, _] = which;
    let (i, value) = (i as usize, j as usize);
    match text {
        1 => Ok(Where::EventTitle(i)),
        2 => Ok(Where::AdvisoryText { event: i, region: j }),
        3 => Ok(Where::Ett),
        4 => Ok(Where::RegionName),
        5 => Ok(Where::DimensionName(i)),
        6 => Ok(Where::ShortValue(i, value)),
        7 => Ok(Where::LongValue(i, value)),
        _ => Err(13),
    }
}

fn heading([first, second, third]: [u8; 3], segments: usize) -> Told {
    numbers(vec![u32::from_be_bytes([0, first, second, third]), segments as u32])
}

fn units(units: Vec<u16>) -> Told {
    Told { numbers: vec![units.len() as u32, 0], units, ..Told::default() }
}

fn rating(rating: Rating) -> Told {
    numbers(match rating {
        Rating::NoAdvisory => vec![1, NO_VALUE],
        Rating::RegionAbsent => vec![2, NO_VALUE],
        Rating::DimensionAbsent => vec![3, NO_VALUE],
        Rating::Value(value) => vec![4, value.into()],
    })
}

fn descriptor(tag: u8, content: Part) -> Told {
    numbers([&[u32::from(tag)][..], &part(content)].concat())
}

/// The rules' document has no place of a fault. That there is one is said by the second hand's walk, and where by docs/DECISIONS.md, 6; where the
/// two do not agree that there is one, the answer is that of no library.
fn place_of_fault(bytes: &[u8]) -> Result<u32, Refusal> {
    let found = fault::fault(bytes)?;
    let blamed = section::blamed(bytes)?;
    Ok(if found.is_some() == blamed.is_some() { blamed.map_or(NO_VALUE, |at| at as u32) } else { NO_VALUE - 1 })
}

impl Call {
    fn family(self) -> Family {
        use Call::*;
        match self {
            Judge | Fault => Family::Judging,
            Mgt | MgtTable(_) | Tvct | TvctChannel(_) | Rrt | RrtDimension(_) | RrtValue(..) | Eit | EitEvent(_)
            | Ett => Family::Tables,
            MgtTables { .. } | TvctChannels { .. } | RrtDimensions { .. } | RrtValues { .. } | EitEvents { .. } => {
                Family::Rows
            }
            Titles { .. } => Family::Titles,
            Strings(_) | Heading(_) | Units(_) | Text(..) => Family::Texts,
            FieldStrings | FieldHeading(_) | FieldUnits(_) | FieldText(..) => Family::Fields,
            Rating { .. } | Descriptor { .. } | Advisory { .. } => Family::Ratings,
            ListRating { .. } | ListDescriptor { .. } | ListAdvisory { .. } => Family::Lists,
        }
    }

    /// The room for rows and for units that the call is lent.
    fn room(self) -> (usize, usize) {
        use Call::*;
        match self {
            MgtTables { numbers }
            | TvctChannels { numbers }
            | RrtDimensions { numbers }
            | RrtValues { numbers }
            | EitEvents { numbers } => (numbers, 0),
            Titles { numbers, room } => (numbers, room),
            Text(_, room) | FieldText(_, room) => (0, room),
            _ => (0, 0),
        }
    }

    fn expected(self, bytes: &[u8]) -> Answer {
        use Call::*;
        Ok(match self {
            Judge => {
                let h = section::judge(bytes, None)?;
                numbers(vec![
                    h.kind.table_id().into(),
                    h.extension.into(),
                    h.version.into(),
                    h.current.into(),
                    h.number.into(),
                    h.last.into(),
                ])
            }
            Fault => numbers(vec![place_of_fault(bytes)?]),
            Mgt => {
                let table = tables::mgt(bytes)?;
                numbers([&[table.tables.len() as u32][..], &part(table.descriptors)].concat())
            }
            MgtTable(i) => numbers(table_row(&tables::mgt_table(bytes, i as usize)?)),
            Tvct => {
                let table = tables::tvct(bytes)?;
                numbers(
                    [&[table.header.extension.into(), table.channels.len() as u32][..], &part(table.descriptors)]
                        .concat(),
                )
            }
            TvctChannel(i) => numbers(channel_row(&tables::tvct_channel(bytes, i as usize)?)),
            Rrt => {
                let table = tables::rrt(bytes)?;
                let own = [table.header.extension.into(), table.region.into()];
                numbers(
                    [&own[..], &part(table.name), &[table.dimensions.len() as u32], &part(table.descriptors)].concat(),
                )
            }
            RrtDimension(i) => numbers(dimension_row(&tables::rrt_dimension(bytes, i as usize)?)),
            RrtValue(i, j) => numbers(value_row(&tables::rrt_value(bytes, i as usize, j as usize)?)),
            Eit => {
                let table = tables::eit(bytes)?;
                numbers(vec![table.source.into(), table.events.len() as u32])
            }
            EitEvent(i) => numbers(event_fields(&tables::eit_event(bytes, i as usize)?)),
            Ett => {
                let table = tables::ett(bytes)?;
                numbers([&[table.header.extension.into(), table.etm_id][..], &part(table.text)].concat())
            }
            MgtTables { numbers } => {
                let tables = tables::mgt(bytes)?.tables;
                rows(tables.len(), tables.iter().flat_map(table_row).collect(), numbers)?
            }
            TvctChannels { numbers } => {
                let channels = tables::tvct(bytes)?.channels;
                rows(channels.len(), channels.iter().flat_map(channel_row).collect(), numbers)?
            }
            RrtDimensions { numbers } => {
                let dimensions = tables::rrt(bytes)?.dimensions;
                rows(dimensions.len(), dimensions.iter().flat_map(dimension_row).collect(), numbers)?
            }
            RrtValues { numbers } => {
                let mut all = Vec::new();
                for (i, dimension) in tables::rrt(bytes)?.dimensions.iter().enumerate() {
                    for (j, value) in dimension.values.iter().enumerate() {
                        all.extend([i as u32, j as u32]);
                        all.extend(value_row(value));
                    }
                }
                rows(all.len() / 6, all, numbers)?
            }
            EitEvents { numbers } => {
                let events = tables::eit(bytes)?.events;
                rows(events.len(), events.iter().flat_map(event_row).collect(), numbers)?
            }
            Titles { numbers, room } => titles(bytes, numbers, room)?,
            Strings(which) => numbers(vec![section_text::section_number_of_strings(bytes, place(which)?)? as u32]),
            Heading(which) => {
                let (language, segments) = section_text::section_language(bytes, place(which)?, which[3] as usize)?;
                heading(language, segments)
            }
            Units(which) => Told {
                units: Vec::new(),
                ..units(section_text::section_units(bytes, place(which)?, which[3] as usize)?)
            },
            Text(which, room) => {
                units(section_text::section_units_within(bytes, place(which)?, which[3] as usize, room)?)
            }
            FieldStrings => numbers(vec![text::number_of_strings(bytes)? as u32]),
            FieldHeading(string) => {
                let text::Heading { language, segments } = text::heading(bytes, string as usize)?;
                heading(language, segments)
            }
            FieldUnits(string) => Told { units: Vec::new(), ..units(text::units(bytes, string as usize)?) },
            FieldText(string, room) => units(text::units_within(bytes, string as usize, room)?),
            Rating { i, region, dimension } => rating(rating::rating(bytes, i as usize, region, dimension)?),
            Descriptor { i, k } => {
                let found = rating::event_descriptor(bytes, i as usize, k as usize)?;
                descriptor(found.tag, found.content)
            }
            Advisory { i, region } => numbers(part(rating::advisory_text(bytes, i as usize, region)?).to_vec()),
            ListRating { region, dimension } => rating(match list::list_rating(bytes, region, dimension)? {
                list::Rating::NoAdvisory => rating::Rating::NoAdvisory,
                list::Rating::RegionAbsent => rating::Rating::RegionAbsent,
                list::Rating::DimensionAbsent => rating::Rating::DimensionAbsent,
                list::Rating::Value(value) => rating::Rating::Value(value),
            }),
            ListDescriptor { k } => {
                let found = list::list_descriptor(bytes, k as usize)?;
                descriptor(found.tag, found.content)
            }
            ListAdvisory { region } => match list::list_advice(bytes, region)? {
                Advice::Region(region) => numbers(part(region.text).to_vec()),
                Advice::NoAdvisory | Advice::RegionAbsent => return Err(13),
            },
        })
    }

    fn asked(self, bytes: &[u8], told: &mut [u32], rows: &mut [u32], units: &mut [u16]) -> u32 {
        use Call::*;
        let (s, n, told, rows, units) =
            (bytes.as_ptr(), bytes.len(), told.as_mut_ptr(), rows.as_mut_ptr(), units.as_mut_ptr());
        // SAFETY: every pointer is good for the length that is lent with it: `told` for more numbers than any struct has, `rows` and
        // `units` for the room that `room` says and BEHIND more. Nothing overlaps.
        unsafe {
            match self {
                Judge => guide_judge(s, n, told),
                Fault => guide_fault(s, n, told),
                Mgt => guide_mgt(s, n, told),
                MgtTable(i) => guide_mgt_table(s, n, i, told),
                Tvct => guide_tvct(s, n, told),
                TvctChannel(i) => guide_tvct_channel(s, n, i, told),
                Rrt => guide_rrt(s, n, told),
                RrtDimension(i) => guide_rrt_dimension(s, n, i, told),
                RrtValue(i, j) => guide_rrt_value(s, n, i, j, told),
                Eit => guide_eit(s, n, told),
                EitEvent(i) => guide_eit_event(s, n, i, told),
                Ett => guide_ett(s, n, told),
                MgtTables { numbers } => guide_mgt_tables(s, n, rows, numbers, told),
                TvctChannels { numbers } => guide_tvct_channels(s, n, rows, numbers, told),
                RrtDimensions { numbers } => guide_rrt_dimensions(s, n, rows, numbers, told),
                RrtValues { numbers } => guide_rrt_values(s, n, rows, numbers, told),
                EitEvents { numbers } => guide_eit_events(s, n, rows, numbers, told),
                Titles { numbers, room } => guide_titles(s, n, rows, numbers, units, room, told),
                Strings(which) => guide_strings(s, n, which.as_ptr(), told),
                Heading(which) => guide_heading(s, n, which.as_ptr(), told),
                Units(which) => guide_units(s, n, which.as_ptr(), told),
                Text(which, room) => guide_text(s, n, which.as_ptr(), units, room, told),
                FieldStrings => guide_field_strings(s, n, told),
                FieldHeading(string) => guide_field_heading(s, n, string, told),
                FieldUnits(string) => guide_field_units(s, n, string, told),
                FieldText(string, room) => guide_field_text(s, n, string, units, room, told),
                Rating { i, region, dimension } => guide_rating(s, n, i, region, dimension, told),
                Descriptor { i, k } => guide_descriptor(s, n, i, k, told),
                Advisory { i, region } => guide_advisory(s, n, i, region, told),
                ListRating { region, dimension } => guide_list_rating(s, n, region, dimension, told),
                ListDescriptor { k } => guide_list_descriptor(s, n, k, told),
                ListAdvisory { region } => guide_list_advisory(s, n, region, told),
            }
        }
    }
}

/// One call on some bytes.
#[derive(Clone)]
pub struct Asked {
    pub call: Call,
    pub bytes: Vec<u8>,
}

impl Case for Asked {
    fn family(&self) -> Family {
        self.call.family()
    }

    fn difference(&self, tally: &mut Tally) -> Option<String> {
        let (room_of_rows, room) = self.call.room();
        let mut told = [BEFORE; 24 + BEHIND];
        let mut rows = vec![BEFORE; room_of_rows + BEHIND];
        let mut units = vec![BEFORE_16; room + BEHIND];
        let refusal = self.call.asked(&self.bytes, &mut told, &mut rows, &mut units);
        let expected = self.call.expected(&self.bytes);
        let (number, memory) = match expected {
            Ok(told) => (0, told),
            Err(refusal) => (refusal.into(), Told::default()),
        };
        tally.add(self, number);
        let kept = written(&told, &memory.numbers, BEFORE)
            && written(&rows, &memory.rows, BEFORE)
            && written(&units, &memory.units, BEFORE_16);
        if refusal == number && kept {
            return None;
        }
        Some(format!(
            "reference: {number}, {:?} {:?} {:?}\nlibrary: {refusal}, {told:?} {rows:?} {units:?}, all {BEFORE} or {BEFORE_16} before",
            memory.numbers, memory.rows, memory.units
        ))
    }

    fn smaller(&self) -> Box<dyn Iterator<Item = Self> + '_> {
        Box::new(make::smaller(&self.bytes).map(|bytes| Asked { bytes, ..*self }))
    }

    fn shown(&self) -> String {
        format!("{:?} of {} bytes: {}", self.call, self.bytes.len(), hex(&self.bytes))
    }
}

fn region(chance: &mut Chance) -> u32 {
    chance.of(&[0, 0, 1, 1, 1, 2, 3, 255, 256, 257, 0x1_0001, u32::MAX])
}

/// A string of a text, and the room for its units; both as the reference would have them, or beside that.
fn string_and_room(chance: &mut Chance, field: Option<&[u8]>) -> (u32, usize) {
    let strings = field.and_then(|field| text::number_of_strings(field).ok()).unwrap_or(0);
    let string = chance.entry(strings);
    let exact = field.and_then(|field| text::units(field, string as usize).ok()).map_or(4, |units| units.len());
    (string, chance.room(exact))
}

/// Mostly one of the texts that a section of the kind has, and the room for it.
fn which(chance: &mut Chance, bytes: &[u8], kind: Kind, body: Option<&Body>) -> (Which, usize) {
    let mut which = match kind {
        _ if chance.often(5) => [chance.of(&[0, 1, 2, 3, 4, 5, 6, 7, 8, u32::MAX]), chance.entry(2), region(chance), 0],
        Kind::Eit => {
            let events = if let Some(Body::Eit(table)) = body { table.events.len() } else { 2 };
            [chance.of(&[1, 1, 2]), chance.entry(events), region(chance), 0]
        }
        Kind::Rrt => {
            let dimensions = if let Some(Body::Rrt(table)) = body { &table.dimensions[..] } else { &[] };
            let i = chance.entry(dimensions.len());
            let values = dimensions.get(i as usize).map_or(0, |dimension| dimension.values.len());
            [4 + chance.below(4) as u32, i, chance.entry(values), 0]
        }
        _ => [3, 0, 0, 0],
    };
    let field =
        place(which).ok().and_then(|place| section_text::text_at(bytes, place).ok()).and_then(|part| part.of(bytes));
    let (string, room) = string_and_room(chance, field);
    which[3] = string;
    (which, room)
}

/// The calls that are made of one section.
pub fn of_section(chance: &mut Chance, bytes: &[u8]) -> Vec<Call> {
    use Call::*;
    let body = tables::read(bytes, None).ok();
    let mut calls = vec![Judge, Fault];
    let kind = match bytes.first().and_then(|&id| Kind::of_table_id(id.into())) {
        Some(kind) if chance.often(95) => kind,
        _ => chance.of(&Kind::ALL),
    };
    let counts = match &body {
        Some(Body::Mgt(table)) => (table.tables.len(), 0),
        Some(Body::Tvct(table)) => (table.channels.len(), 0),
        Some(Body::Rrt(table)) => {
            (table.dimensions.len(), table.dimensions.iter().map(|dimension| dimension.values.len()).sum())
        }
        Some(Body::Eit(table)) => (table.events.len(), 0),
        _ => (1, 0),
    };
    let entry = chance.entry(counts.0);
    match kind {
        Kind::Mgt => calls.extend([Mgt, MgtTable(entry), MgtTables { numbers: chance.room(6 * counts.0) }]),
        Kind::Tvct => calls.extend([Tvct, TvctChannel(entry), TvctChannels { numbers: chance.room(21 * counts.0) }]),
        Kind::Rrt => calls.extend([
            Rrt,
            RrtDimension(entry),
            RrtValue(entry, chance.entry(2)),
            RrtDimensions { numbers: chance.room(4 * counts.0) },
            RrtValues { numbers: chance.room(6 * counts.1) },
        ]),
        Kind::Eit => {
            let exact = titles(bytes, usize::MAX, usize::MAX).map_or(4, |told| told.units.len());
            let room =
                if chance.often(30) { (8 * bytes.len()).saturating_sub(chance.below(2)) } else { chance.room(exact) };
            calls.extend([
                Eit,
                EitEvent(entry),
                EitEvents { numbers: chance.room(8 * counts.0) },
                Titles { numbers: if chance.often(60) { 12 * counts.0 } else { chance.room(12 * counts.0) }, room },
                Rating { i: entry, region: region(chance), dimension: region(chance) },
                Rating { i: chance.entry(counts.0), region: region(chance), dimension: region(chance) },
                Descriptor { i: entry, k: chance.entry(3) },
                Advisory { i: entry, region: region(chance) },
            ]);
        }
        Kind::Ett => calls.push(Ett),
    }
    if !matches!(kind, Kind::Mgt | Kind::Tvct) || chance.often(10) {
        let (one, room) = which(chance, bytes, kind, body.as_ref());
        calls.extend([Strings(one), Heading(one), Units(one), Text(one, room)]);
    }
    calls
}

/// The calls that are made of a text field.
pub fn of_field(chance: &mut Chance, bytes: &[u8]) -> Vec<Call> {
    let (string, room) = string_and_room(chance, Some(bytes));
    vec![Call::FieldStrings, Call::FieldHeading(string), Call::FieldUnits(string), Call::FieldText(string, room)]
}

/// The calls that are made of a descriptor list.
pub fn of_list(chance: &mut Chance) -> Vec<Call> {
    let region = region(chance);
    let dimension = self::region(chance);
    vec![
        Call::ListRating { region, dimension },
        Call::ListDescriptor { k: chance.entry(3) },
        Call::ListAdvisory { region },
    ]
}
