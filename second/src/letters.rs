//! "Letters are the bytes A C G T."

use crate::number::{fault, Fault};

pub fn is_letter(byte: u8) -> bool {
    matches!(byte, b'A' | b'C' | b'G' | b'T')
}

/// Takes `count` letters one by one from place `at` on. At each: 1 if the
/// bytes end, 5 at that byte if it is not a letter.
pub fn read_letters(bytes: &[u8], at: usize, count: u32) -> Result<(Vec<u8>, usize), Fault> {
    let mut letters = Vec::new();
    let mut place = at;
    for _ in 0..count {
        if place >= bytes.len() {
            return fault(1, bytes.len());
        }
        if !is_letter(bytes[place]) {
            return fault(5, place);
        }
        letters.push(bytes[place]);
        place += 1;
    }
    Ok((letters, place))
}
