//! Numbers in groups of seven bits.
//!
//! "A number is written in groups of seven bits, lowest group first, the top
//! bit set in every byte but the last. It is at most 4,294,967,295, takes at
//! most five bytes, and is written in the fewest bytes."

/// A fault met while reading: the refusal number and the place of it.
/// The file it belongs to is added by whoever reads the file.
#[derive(Clone, Copy, Debug, PartialEq, Eq)]
pub struct Fault {
    pub number: u32,
    pub place: u64,
}

/// A fault as an `Err`, to be returned at once.
pub fn fault<T>(number: u32, place: usize) -> Result<T, Fault> {
    Err(Fault {
        number,
        place: place as u64,
    })
}

/// Reads the number whose first byte is at place `at`.
/// Answers the value and the place after its last byte, or the first fault.
///
/// "In a number, 2 comes as soon as seen (a fifth byte above 15, or a last
/// byte 0 of several), 1 if the bytes end first."
pub fn read_number(bytes: &[u8], at: usize) -> Result<(u32, usize), Fault> {
    // A place at or beyond the length: the bytes end, 1 at the file length.
    if at >= bytes.len() {
        return fault(1, bytes.len());
    }
    let mut value: u64 = 0;
    let mut worth: u64 = 1; // what one unit of the group is worth
    let mut group = 1; // groups are counted from 1
    let mut place = at;
    loop {
        if place >= bytes.len() {
            return fault(1, bytes.len());
        }
        let byte = bytes[place];
        // A fifth byte above 15: the number is too great or goes on too long.
        if group == 5 && byte > 15 {
            return fault(2, at);
        }
        // A last byte 0 of several: not in fewest bytes.
        if group > 1 && byte == 0 {
            return fault(2, at);
        }
        value += u64::from(byte % 128) * worth;
        place += 1;
        if byte < 128 {
            return Ok((value as u32, place));
        }
        worth *= 128;
        group += 1;
    }
}

/// The bytes of a number: groups of seven bits, lowest first, the top bit set
/// in every byte but the last.
pub fn write_number(value: u32) -> Vec<u8> {
    let mut bytes = Vec::new();
    let mut rest = value;
    while rest >= 128 {
        bytes.push((rest % 128) as u8 + 128);
        rest /= 128;
    }
    bytes.push(rest as u8);
    bytes
}
