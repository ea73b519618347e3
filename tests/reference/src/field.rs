//! Walking fields of bits inside a container of bytes. Every rule about "runs past its container" and
//! "bytes are left over" is here; a failure is told as the offset of the byte where it shows.

/// Some bytes of a larger list of bytes, told by where they stand.
#[derive(Clone, Copy, Debug, PartialEq, Eq)]
pub struct Part {
    pub start: usize,
    pub length: usize,
}

impl Part {
    pub fn whole(bytes: &[u8]) -> Part {
        Part { start: 0, length: bytes.len() }
    }

    /// The bytes themselves; none where the part does not lie inside `bytes`.
    pub fn of<'a>(&self, bytes: &'a [u8]) -> Option<&'a [u8]> {
        bytes.get(self.start..self.start.checked_add(self.length)?)
    }
}

/// The offset of the first byte of the first field that fails.
pub type Fault = usize;

/// A place in a container, counted in bits because reserved bits and fields share bytes.
pub struct Cursor<'a> {
    bytes: &'a [u8],
    bit: usize,
    end: usize,
}

impl<'a> Cursor<'a> {
    /// A container that is the given part of `bytes`; what would lie outside `bytes` is not in it.
    pub fn over(bytes: &'a [u8], part: Part) -> Cursor<'a> {
        let end = part.start.saturating_add(part.length).min(bytes.len());
        Cursor { bytes, bit: part.start.min(end) * 8, end }
    }

    /// The byte that the next bit stands in.
    pub fn offset(&self) -> usize {
        self.bit / 8
    }

    /// A field fails at the byte of its first bit, reserved bits before it counted in.
    fn need(&self, bits: usize) -> Result<(), Fault> {
        if bits > self.end * 8 - self.bit {
            Err(self.offset())
        } else {
            Ok(())
        }
    }

    fn take(&mut self, bits: usize) -> u64 {
        let mut value = 0;
        for _ in 0..bits {
            let byte = self.bytes[self.bit / 8];
            value = value << 1 | u64::from(byte >> (7 - self.bit % 8) & 1);
            self.bit += 1;
        }
        value
    }

    /// A field of at most 64 bits after `reserved` bits that nobody looks at.
    pub fn field(&mut self, reserved: usize, bits: usize) -> Result<u64, Fault> {
        self.need(reserved + bits)?;
        self.bit += reserved;
        Ok(self.take(bits))
    }

    /// One field that is N numbers of 16 bits.
    pub fn units<const N: usize>(&mut self) -> Result<[u16; N], Fault> {
        self.need(16 * N)?;
        Ok([(); N].map(|_| self.take(16) as u16))
    }

    /// One field that is N bytes.
    pub fn octets<const N: usize>(&mut self) -> Result<[u8; N], Fault> {
        self.need(8 * N)?;
        Ok([(); N].map(|_| self.take(8) as u8))
    }

    /// A length field and the bytes it promises. Where the container has not that many, it is the length
    /// field that fails.
    pub fn counted(&mut self, reserved: usize, bits: usize) -> Result<Part, Fault> {
        let at = self.offset();
        let length = self.field(reserved, bits)? as usize;
        if length > self.end - self.offset() {
            return Err(at);
        }
        let part = Part { start: self.offset(), length };
        self.bit += length * 8;
        Ok(part)
    }

    /// All that is left of the container.
    pub fn rest(&mut self) -> Part {
        let part = Part { start: self.offset(), length: self.end - self.offset() };
        self.bit = self.end * 8;
        part
    }

    pub fn at_end(&self) -> bool {
        self.offset() >= self.end
    }

    /// The container must be filled exactly; the first byte left over fails.
    pub fn finish(&self) -> Result<(), Fault> {
        if self.at_end() {
            Ok(())
        } else {
            Err(self.offset())
        }
    }
}
