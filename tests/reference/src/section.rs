//! Sections: the five kinds and their limits, the checksum, the header, and refusals 1 to 9 in their order.

use crate::tables;
use crate::Refusal;

#[derive(Clone, Copy, Debug, PartialEq, Eq)]
pub enum Kind {
    Mgt,
    Tvct,
    Rrt,
    Eit,
    Ett,
}

impl Kind {
    pub const ALL: [Kind; 5] = [Kind::Mgt, Kind::Tvct, Kind::Rrt, Kind::Eit, Kind::Ett];

    pub fn table_id(self) -> u8 {
        match self {
            Kind::Mgt => 0xC7,
            Kind::Tvct => 0xC8,
            Kind::Rrt => 0xCA,
            Kind::Eit => 0xCB,
            Kind::Ett => 0xCC,
        }
    }

    pub fn of_table_id(table_id: u32) -> Option<Kind> {
        Kind::ALL.into_iter().find(|kind| u32::from(kind.table_id()) == table_id)
    }

    /// The smallest section_length.
    pub fn smallest(self) -> usize {
        match self {
            Kind::Mgt => 14,
            Kind::Tvct => 13,
            Kind::Rrt => 18,
            Kind::Eit => 11,
            Kind::Ett => 15,
        }
    }

    /// The largest section_length.
    pub fn largest(self) -> usize {
        match self {
            Kind::Mgt | Kind::Eit | Kind::Ett => 4093,
            Kind::Tvct | Kind::Rrt => 1021,
        }
    }

    /// Whether last_section_number can only be 0.
    pub fn one_section(self) -> bool {
        matches!(self, Kind::Mgt | Kind::Rrt | Kind::Ett)
    }

    pub fn word(self) -> &'static str {
        match self {
            Kind::Mgt => "mgt",
            Kind::Tvct => "tvct",
            Kind::Rrt => "rrt",
            Kind::Eit => "eit",
            Kind::Ett => "ett",
        }
    }

    /// Refusal 8, for readers and writers alike.
    pub fn numbers_agree(self, number: u64, last: u64) -> bool {
        number <= last && (last == 0 || !self.one_section())
    }
}

#[derive(Clone, Copy, Debug, PartialEq, Eq)]
pub struct Header {
    pub kind: Kind,
    pub extension: u16,
    pub version: u8,
    pub current: bool,
    pub number: u8,
    pub last: u8,
}

/// Bytes before the body: up to and with protocol_version.
pub const BODY_START: usize = 9;
/// Bytes of CRC_32.
pub const CHECKSUM_BYTES: usize = 4;
/// Bytes up to and with section_length.
pub const LENGTH_END: usize = 3;

const fn checksum_step(top: u8) -> u32 {
    let mut register = (top as u32) << 24;
    let mut bit = 0;
    while bit < 8 {
        let out = register >> 31;
        register <<= 1;
        if out == 1 {
            register ^= 0x04C1_1DB7;
        }
        bit += 1;
    }
    register
}

const CHECKSUM_STEPS: [u32; 256] = {
    let mut steps = [0; 256];
    let mut top = 0;
    while top < 256 {
        steps[top] = checksum_step(top as u8);
        top += 1;
    }
    steps
};

/// The checksum register after the given bytes. Eight bits at a time; a test holds it against one bit at a time.
pub fn checksum(bytes: &[u8]) -> u32 {
    bytes.iter().fold(0xFFFF_FFFF, |register: u32, &byte| {
        register << 8 ^ CHECKSUM_STEPS[usize::from((register >> 24) as u8 ^ byte)]
    })
}

/// section_length as the second and third byte of a section have it.
pub fn section_length(second: u8, third: u8) -> usize {
    usize::from(second & 0x0F) << 8 | usize::from(third)
}

/// Refusals 1 to 8. `asked` is the kind the call reads; none reads all five.
pub(crate) fn header(bytes: &[u8], asked: Option<Kind>) -> Result<Header, Refusal> {
    let &[table_id, second, third, ..] = bytes else {
        return Err(1);
    };
    let kind = match Kind::of_table_id(u32::from(table_id)) {
        Some(kind) if asked.is_none() || asked == Some(kind) => kind,
        _ => return Err(2),
    };
    if second & 0x80 == 0 || second & 0x40 == 0 {
        return Err(3);
    }
    let length = section_length(second, third);
    if length < kind.smallest() || length > kind.largest() {
        return Err(4);
    }
    if bytes.len() != length + LENGTH_END {
        return Err(5);
    }
    if checksum(bytes) != 0 {
        return Err(6);
    }
    // The smallest section_length of all is 11, so the whole header is there once 5 is passed.
    let &[_, _, _, high, low, edition, number, last, protocol, ..] = bytes else {
        return Err(5);
    };
    if protocol != 0 {
        return Err(7);
    }
    if !kind.numbers_agree(u64::from(number), u64::from(last)) {
        return Err(8);
    }
    Ok(Header {
        kind,
        extension: u16::from_be_bytes([high, low]),
        version: edition >> 1 & 0x1F,
        current: edition & 1 == 1,
        number,
        last,
    })
}

/// The header and the walked body; the inner error is where the body fails.
pub(crate) fn walk(bytes: &[u8], asked: Option<Kind>) -> Result<(Header, Result<tables::Body, usize>), Refusal> {
    let header = header(bytes, asked)?;
    Ok((header, tables::body(bytes, &header)))
}

/// Refusals 1 to 9; the header of a sound section.
pub fn judge(bytes: &[u8], asked: Option<Kind>) -> Result<Header, Refusal> {
    let (header, body) = walk(bytes, asked)?;
    body.map(|_| header).map_err(|_| 9)
}

/// Refusals 1 to 8 as they are; then where refusal 9 shows by docs/DECISIONS.md, 6, since the rules have no such place: the first field in
/// byte order that fails. That is the length field that promises more than its container has, a field cut short (the byte of its first bit,
/// reserved bits before it counted in), the first byte left over, or the RRT count that is 0. None: sound.
pub fn blamed(bytes: &[u8]) -> Result<Option<usize>, Refusal> {
    Ok(walk(bytes, None)?.1.err())
}

#[cfg(test)]
mod tests {
    use super::*;
    use crate::samples::*;

    /// H.222.0's register, one bit at a time.
    fn checksum_by_bits(bytes: &[u8]) -> u32 {
        let mut register = 0xFFFF_FFFFu32;
        for byte in bytes {
            for bit in (0..8).rev() {
                let feedback = (register >> 31) as u8 ^ (byte >> bit & 1);
                register <<= 1;
                if feedback == 1 {
                    register ^= 0x04C1_1DB7;
                }
            }
        }
        register
    }

    #[test]
    fn checksum_is_the_plain_one() {
        let mut random = Random(1);
        for length in 0..300 {
            let bytes = random.bytes(length);
            assert_eq!(checksum(&bytes), checksum_by_bits(&bytes));
        }
        assert_eq!(checksum(b"123456789"), 0x0376_E6E7);
    }

    #[test]
    fn p1_to_p6_limits() {
        let limits = [
            (Kind::Eit, 11, 4093),
            (Kind::Tvct, 13, 1021),
            (Kind::Mgt, 14, 4093),
            (Kind::Rrt, 18, 1021),
            (Kind::Ett, 15, 4093),
        ];
        for (kind, smallest, largest) in limits {
            let small = smallest_section(kind);
            assert_eq!(small.len(), smallest + 3);
            assert_eq!(judge(&small, None).map(|h| h.kind), Ok(kind));
            let large = section_of_length(kind, largest);
            assert_eq!(large.len(), largest + 3);
            assert_eq!(judge(&large, Some(kind)).map(|h| h.kind), Ok(kind));
            for length in [0, smallest - 1, largest + 1, 4095] {
                let mut bytes = large.clone();
                bytes[1] = 0xF0 | (length >> 8) as u8;
                bytes[2] = length as u8;
                bytes.resize(length + 3, 0);
                assert_eq!(judge(&bytes, None), Err(4), "{kind:?} {length}");
            }
        }
    }

    #[test]
    fn p7_section_numbers() {
        let mut bytes = smallest_section(Kind::Eit);
        bytes[6] = 3;
        bytes[7] = 3;
        seal(&mut bytes);
        assert_eq!(judge(&bytes, None).map(|h| (h.number, h.last)), Ok((3, 3)));
        bytes[6] = 4;
        seal(&mut bytes);
        assert_eq!(judge(&bytes, None), Err(8));
    }

    #[test]
    fn last_must_be_zero_for_three_kinds() {
        for kind in Kind::ALL {
            let mut bytes = smallest_section(kind);
            bytes[7] = 1;
            seal(&mut bytes);
            assert_eq!(judge(&bytes, None).is_ok(), !kind.one_section());
            bytes[6] = 1;
            seal(&mut bytes);
            assert_eq!(judge(&bytes, None).is_ok(), !kind.one_section());
            bytes[7] = 0;
            seal(&mut bytes);
            assert_eq!(judge(&bytes, None), Err(8));
        }
    }

    #[test]
    fn refusals_in_order() {
        // All faults at once, then mended one by one, the lowest number first.
        let mut bytes = vec![0x00, 0x30];
        assert_eq!(judge(&bytes, None), Err(1));
        bytes.extend([0x00; 13]);
        assert_eq!(judge(&bytes, None), Err(2));
        bytes[0] = 0xCB;
        assert_eq!(judge(&bytes, Some(Kind::Ett)), Err(2));
        for syntax in [0x30, 0x70, 0xB0] {
            bytes[1] = syntax;
            assert_eq!(judge(&bytes, None), Err(3));
        }
        bytes[1] = 0xF0;
        bytes[2] = 10;
        assert_eq!(judge(&bytes, None), Err(4));
        bytes[2] = 11;
        assert_eq!(judge(&bytes, None), Err(5));
        bytes.pop();
        bytes[6] = 1;
        bytes[8] = 1;
        bytes[9] = 1;
        assert_eq!(judge(&bytes, None), Err(6));
        seal(&mut bytes);
        assert_eq!(judge(&bytes, None), Err(7));
        bytes[8] = 0;
        seal(&mut bytes);
        assert_eq!(judge(&bytes, None), Err(8));
        assert_eq!(blamed(&bytes), Err(8));
        bytes[6] = 0;
        seal(&mut bytes);
        assert_eq!(judge(&bytes, None), Err(9));
        assert_eq!(blamed(&bytes), Ok(Some(10)));
        bytes[9] = 0;
        seal(&mut bytes);
        assert_eq!(blamed(&bytes), Ok(None));
        let header = judge(&bytes, Some(Kind::Eit));
        assert_eq!(
            header,
            Ok(Header { kind: Kind::Eit, extension: 0, version: 0, current: false, number: 0, last: 0 })
        );
        bytes.pop();
        assert_eq!(judge(&bytes, None), Err(5));
        assert_eq!(judge(&bytes[..2], None), Err(1));
        assert_eq!(judge(&[], None), Err(1));
    }

    #[test]
    fn header_fields_without_reserved_bits() {
        for reserved in [0u8, 0xC0] {
            let mut bytes = smallest_section(Kind::Tvct);
            bytes[1] = bytes[1] & 0xCF | reserved >> 2;
            bytes[3..8].copy_from_slice(&[0x12, 0x34, reserved | 31 << 1 | 1, 5, 9]);
            seal(&mut bytes);
            assert_eq!(
                judge(&bytes, None),
                Ok(Header { kind: Kind::Tvct, extension: 0x1234, version: 31, current: true, number: 5, last: 9 })
            );
        }
    }
}
