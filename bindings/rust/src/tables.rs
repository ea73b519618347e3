//! The five tables, each read by one kind's calls: refused by 1 to 9.

use crate::ffi;
use crate::part;
use crate::ratings::Descriptors;
use crate::refusal::Refusal;
use crate::sections::{judge, Header};
use crate::texts::Text;

/// A master guide table: the tables that are on the air.
///
/// ```
/// let section = b"\xc7\xf0\x19\0\0\xc1\0\0\0\0\x01\x01\0\xfd\0\xe3\0\0\0\x25\xf0\0\xf0\0\xca\x7b\xb8\x17";
/// let mgt = guide::Mgt::read(section)?;
/// let table = mgt.tables().next().unwrap();
/// assert_eq!((table.table_type, table.pid, table.version, table.bytes), (0x100, 0x1D00, 3, 37));
/// # Ok::<(), guide::Refusal>(())
/// ```
#[derive(Clone)]
pub struct Mgt<'a> {
    /// The section's header.
    pub header: Header,
    /// The descriptor list of the table itself, whose descriptors are opaque.
    pub descriptors: &'a [u8],
    section: &'a [u8],
    rows: Vec<ffi::TableFields>,
}

/// A table that an MGT defines.
#[derive(Clone, Copy, Debug, PartialEq, Eq)]
pub struct Defined<'a> {
    /// table_type.
    pub table_type: u16,
    /// The PID it is on.
    pub pid: u16,
    /// Its version.
    pub version: u8,
    /// number_bytes, its length.
    pub bytes: u32,
    /// Its descriptor list, whose descriptors are opaque.
    pub descriptors: &'a [u8],
}

impl<'a> Mgt<'a> {
    /// Reads an MGT.
    pub fn read(section: &'a [u8]) -> Result<Mgt<'a>, Refusal> {
        let fields = ffi::mgt(section)?;
        let rows = ffi::mgt_tables(section, fields.tables as usize)?;
        Ok(Mgt { header: judge(section)?, descriptors: part(section, fields.descriptors), section, rows })
    }

    /// The tables that it defines.
    pub fn tables(&self) -> impl ExactSizeIterator<Item = Defined<'a>> + '_ {
        self.rows.iter().map(|row| Defined {
            table_type: row.table_type as u16,
            pid: row.pid as u16,
            version: row.version as u8,
            bytes: row.bytes,
            descriptors: part(self.section, row.descriptors),
        })
    }
}

/// A terrestrial virtual channel table; the extension of its header is the transport stream.
#[derive(Clone)]
pub struct Tvct<'a> {
    /// The section's header.
    pub header: Header,
    /// The descriptor list of the table itself, whose descriptors are opaque.
    pub descriptors: &'a [u8],
    section: &'a [u8],
    rows: Vec<ffi::ChannelFields>,
}

/// A channel of a TVCT.
#[derive(Clone, Copy, Debug, PartialEq, Eq)]
pub struct Channel<'a> {
    /// short_name: UTF-16, behind its end zeros.
    pub short_name: [u16; 7],
    /// The major channel number.
    pub major: u16,
    /// The minor channel number.
    pub minor: u16,
    /// modulation_mode.
    pub modulation: u8,
    /// carrier_frequency.
    pub carrier: u32,
    /// channel_TSID.
    pub channel_tsid: u16,
    /// program_number.
    pub program_number: u16,
    /// ETM_location, 0 to 3.
    pub etm_location: u8,
    /// access_controlled.
    pub access_controlled: bool,
    /// hidden.
    pub hidden: bool,
    /// Six bits that are kept as one number.
    pub six_bits: u8,
    /// service_type.
    pub service_type: u8,
    /// source_id.
    pub source_id: u16,
    /// Its descriptor list, whose descriptors are opaque.
    pub descriptors: &'a [u8],
}

impl Channel<'_> {
    /// The name up to its first zero, as a `String`.
    pub fn name(&self) -> String {
        let end = self.short_name.iter().position(|&unit| unit == 0).unwrap_or(self.short_name.len());
        String::from_utf16_lossy(&self.short_name[..end])
    }
}

impl<'a> Tvct<'a> {
    /// Reads a TVCT.
    pub fn read(section: &'a [u8]) -> Result<Tvct<'a>, Refusal> {
        let fields = ffi::tvct(section)?;
        let rows = ffi::tvct_channels(section, fields.channels as usize)?;
        Ok(Tvct { header: judge(section)?, descriptors: part(section, fields.descriptors), section, rows })
    }

    /// Its channels.
    pub fn channels(&self) -> impl ExactSizeIterator<Item = Channel<'a>> + '_ {
        self.rows.iter().map(|row| Channel {
            short_name: row.name.map(|unit| unit as u16),
            major: row.major as u16,
            minor: row.minor as u16,
            modulation: row.modulation as u8,
            carrier: row.carrier,
            channel_tsid: row.channel_tsid as u16,
            program_number: row.program_number as u16,
            etm_location: row.etm_location as u8,
            access_controlled: row.access_controlled != 0,
            hidden: row.hidden != 0,
            six_bits: row.six_bits as u8,
            service_type: row.service_type as u8,
            source_id: row.source_id as u16,
            descriptors: part(self.section, row.descriptors),
        })
    }
}

/// A rating region table.
///
/// ```
/// // Region 5 with one dimension of one value, all texts empty.
/// let section = b"\xca\xf0\x12\xff\x05\xc1\0\0\0\0\x01\0\xf1\0\0\xfc\0\x85\xa5\x7d\x3e";
/// let rrt = guide::Rrt::read(section)?;
/// assert_eq!(rrt.region, 5);
/// for dimension in rrt.dimensions() {
///     assert!(dimension.graduated_scale && dimension.name.is_empty());
///     assert_eq!(dimension.values().len(), 1);
/// }
/// # Ok::<(), guide::Refusal>(())
/// ```
#[derive(Clone)]
pub struct Rrt<'a> {
    /// The section's header.
    pub header: Header,
    /// The region, the low byte of the extension.
    pub region: u8,
    /// The region's name.
    pub name: Text<'a>,
    /// The descriptor list of the table itself, whose descriptors are opaque.
    pub descriptors: &'a [u8],
    section: &'a [u8],
    rows: Vec<ffi::DimensionFields>,
    values: Vec<ffi::ValueRow>,
}

/// A dimension of an RRT.
#[derive(Clone, Copy)]
pub struct Dimension<'t> {
    /// Its name.
    pub name: Text<'t>,
    /// graduated_scale.
    pub graduated_scale: bool,
    section: &'t [u8],
    values: &'t [ffi::ValueRow],
}

/// A value of a dimension.
#[derive(Clone, Copy, Debug)]
pub struct Value<'t> {
    /// Its short text.
    pub short: Text<'t>,
    /// Its long text.
    pub long: Text<'t>,
}

/// An RRT has at most so many values: its body has 1,011 bytes, and each value two of them or more.
const MOST_VALUES: usize = 512;

impl<'a> Rrt<'a> {
    /// Reads an RRT.
    pub fn read(section: &'a [u8]) -> Result<Rrt<'a>, Refusal> {
        let fields = ffi::rrt(section)?;
        Ok(Rrt {
            header: judge(section)?,
            region: fields.region as u8,
            name: Text::judged(part(section, fields.name)),
            descriptors: part(section, fields.descriptors),
            section,
            rows: ffi::rrt_dimensions(section, fields.dimensions as usize)?,
            values: ffi::rrt_values(section, MOST_VALUES)?,
        })
    }

    /// Its dimensions, of which there is at least one.
    pub fn dimensions(&self) -> impl Iterator<Item = Dimension<'_>> + '_ {
        let mut values = &self.values[..];
        self.rows.iter().map(move |row| {
            let (own, others) = values.split_at(row.values as usize);
            values = others;
            let name = Text::judged(part(self.section, row.name));
            Dimension { name, graduated_scale: row.graduated_scale != 0, section: self.section, values: own }
        })
    }
}

impl<'t> Dimension<'t> {
    /// Its values, of which there is at least one.
    pub fn values(&self) -> impl ExactSizeIterator<Item = Value<'t>> + 't {
        let section = self.section;
        let text = move |place| Text::judged(part(section, place));
        self.values.iter().map(move |row| Value { short: text(row.short_text), long: text(row.long_text) })
    }
}

/// An event information table; the extension of its header is the source. The first strings of all titles are decoded when it is read.
#[derive(Clone)]
pub struct Eit<'a> {
    /// The section's header.
    pub header: Header,
    section: &'a [u8],
    rows: Vec<ffi::TitledEvent>,
    units: Vec<u16>,
}

/// An event of an EIT.
#[derive(Clone, Copy, Debug)]
pub struct Event<'t> {
    /// event_id.
    pub id: u16,
    /// Seconds since 6 January 1980, 00:00 UTC, leap seconds too.
    pub start_time: u32,
    /// ETM_location, 0 to 3.
    pub etm_location: u8,
    /// length_in_seconds.
    pub length: u32,
    /// Its title.
    pub title: Title<'t>,
    /// Its descriptors, and the rating question.
    pub descriptors: Descriptors<'t>,
}

/// A title is one of three.
#[derive(Clone, Copy, Debug)]
pub enum Title<'t> {
    /// It has no bytes.
    None,
    /// It says that it has no strings.
    NoStrings,
    /// It has strings. Decoding one may still be refused.
    Text(Text<'t>),
}

impl<'a> Eit<'a> {
    /// Reads an EIT.
    pub fn read(section: &'a [u8]) -> Result<Eit<'a>, Refusal> {
        let fields = ffi::eit(section)?;
        let (rows, units) = ffi::titles(section, fields.events as usize)?;
        Ok(Eit { header: judge(section)?, section, rows, units })
    }

    /// How many events it has. None at all is something that was heard.
    pub fn len(&self) -> usize {
        self.rows.len()
    }

    /// Whether it says that there are no events.
    pub fn is_empty(&self) -> bool {
        self.rows.is_empty()
    }

    /// Its events.
    pub fn events(&self) -> impl ExactSizeIterator<Item = Event<'_>> + '_ {
        self.rows.iter().map(|row| Event {
            id: row.event_id as u16,
            start_time: row.start_time,
            etm_location: row.etm_location as u8,
            length: row.length_in_seconds,
            title: self.title(row),
            descriptors: Descriptors::judged(part(self.section, row.descriptors)),
        })
    }

    fn title(&self, row: &ffi::TitledEvent) -> Title<'_> {
        let field = part(self.section, row.title);
        match row.sort {
            ffi::NO_TITLE => Title::None,
            ffi::NO_STRINGS => Title::NoStrings,
            ffi::TEXT => {
                Title::Text(Text::decoded(field, Ok(&self.units[row.first_unit as usize..][..row.units as usize])))
            }
            refusal => {
                Title::Text(Text::decoded(field, Err(Refusal::of(refusal).expect("guide.h: a sort, or 10 or 11"))))
            }
        }
    }
}

/// An extended text table.
#[derive(Clone, Copy, Debug)]
pub struct Ett<'a> {
    /// The section's header.
    pub header: Header,
    /// Which channel or event the text is of.
    pub etm_id: u32,
    /// The text. It has strings or says that it has none; it is never missing.
    pub text: Text<'a>,
}

impl<'a> Ett<'a> {
    /// Reads an ETT.
    pub fn read(section: &'a [u8]) -> Result<Ett<'a>, Refusal> {
        let fields = ffi::ett(section)?;
        Ok(Ett { header: judge(section)?, etm_id: fields.etm_id, text: Text::judged(part(section, fields.text)) })
    }
}
