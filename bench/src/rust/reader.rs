//! Bytes read from the front: numbers in groups of seven bits, and letters.

use std::ops::RangeInclusive;

pub const MOST_FILE_BYTES: usize = 65_536;

/// The first fault of a file, and where it is.
#[derive(Clone, Copy, Debug, PartialEq, Eq)]
pub struct Fault {
    pub number: u32,
    pub place: usize,
}

pub fn fault<T>(number: u32, place: usize) -> Result<T, Fault> {
    Err(Fault { number, place })
}

pub struct Reader<'a> {
    bytes: &'a [u8],
    pub at: usize,
}

impl<'a> Reader<'a> {
    /// A reader at the front of a file of the kind wanted.
    pub fn of_kind(bytes: &'a [u8], kind: u32) -> Result<Reader<'a>, Fault> {
        if bytes.len() > MOST_FILE_BYTES {
            return fault(4, MOST_FILE_BYTES);
        }
        let mut reader = Reader { bytes, at: 0 };
        if reader.number()? != kind {
            return fault(3, 0);
        }
        Ok(reader)
    }

    #[inline]
    pub fn number(&mut self) -> Result<u32, Fault> {
        match self.bytes.get(self.at) {
            Some(&byte) if byte < 0x80 => {
                self.at += 1;
                Ok(u32::from(byte))
            }
            _ => self.long_number(),
        }
    }

    fn long_number(&mut self) -> Result<u32, Fault> {
        let mut value = 0;
        for (index, &byte) in self.bytes[self.at..].iter().take(5).enumerate() {
            if (index == 4 && byte > 15) || (index > 0 && byte == 0) {
                return fault(2, self.at);
            }
            value |= u32::from(byte & 0x7F) << (7 * index);
            if byte < 0x80 {
                self.at += index + 1;
                return Ok(value);
            }
        }
        fault(1, self.bytes.len())
    }

    /// A number in a range, else 4.
    pub fn count(&mut self, range: RangeInclusive<usize>) -> Result<usize, Fault> {
        let place = self.at;
        let count = self.number()? as usize;
        if range.contains(&count) {
            Ok(count)
        } else {
            fault(4, place)
        }
    }

    /// So many letters.
    pub fn letters(&mut self, count: usize) -> Result<&'a [u8], Fault> {
        let rest = &self.bytes[self.at..];
        let letters = &rest[..count.min(rest.len())];
        if let Some(bad) = letters.iter().position(|&byte| !is_letter(byte)) {
            return fault(5, self.at + bad);
        }
        if letters.len() < count {
            return fault(1, self.bytes.len());
        }
        self.at += count;
        Ok(letters)
    }

    /// 10 where bytes are left over.
    pub fn end(&self) -> Result<(), Fault> {
        if self.at < self.bytes.len() {
            return fault(10, self.at);
        }
        Ok(())
    }
}

fn is_letter(byte: u8) -> bool {
    matches!(byte, b'A' | b'C' | b'G' | b'T')
}
