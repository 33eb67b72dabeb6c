//! The fixed list of number cases that `second numbers` prints.

use crate::number::{read_number, write_number};

/// Values around every group count, and some in between.
fn values() -> Vec<u32> {
    let mut list = vec![
        0, 1, 2, 15, 16, 63, 64, 65, 84, 100, 126, 127, 128, 129, 130, 200, 254, 255, 256, 257,
        300, 511, 512, 1000, 1023, 1024, 1025, 2047, 2048, 2049, 4095, 4096, 4097, 8191, 8192,
        8193, 10240, 12345, 16255, 16256, 16382, 16383, 16384, 16385, 16511, 16512, 32767, 32768,
        32769, 65535, 65536, 65537, 99999, 1000000, 2080768, 2097023, 2097024, 2097150, 2097151,
        2097152, 2097153, 2097279, 2097280, 2113535, 2113536, 16777215, 16777216, 123456789,
        268435327, 268435328, 268435454, 268435455, 268435456, 268435457, 268435583, 268435584,
        270532607, 270532608, 536870911, 536870912, 1073741823, 1073741824, 2147483647, 2147483648,
        2147483649, 2863311530, 3735928559, 4026531839, 4026531840, 4294967167, 4294967168,
        4294967293, 4294967294, 4294967295,
    ];
    list.dedup();
    list
}

/// Byte strings with the places at which a number is read from them.
fn reads() -> Vec<(Vec<u8>, Vec<usize>)> {
    let mut list: Vec<(Vec<u8>, Vec<usize>)> = Vec::new();

    // The cases checked by hand.
    for bytes in [
        &[0x7F][..],
        &[0x80, 0x01],
        &[0x80, 0x00],
        &[0xFF, 0xFF, 0xFF, 0xFF, 0x0F],
        &[0xFF, 0xFF, 0xFF, 0xFF, 0x10],
    ] {
        list.push((bytes.to_vec(), vec![0]));
    }

    // No bytes at all; the end and past the end.
    list.push((vec![], vec![0, 1, 2, 5, 65536, 4294967295]));
    list.push((vec![0x00], vec![0, 1, 2, 6, 65536, 4294967295]));
    list.push((vec![0x05, 0x80], vec![0, 1, 2, 3, 7]));
    list.push((
        vec![0x80, 0x80, 0x80, 0x80, 0x01],
        vec![0, 1, 2, 3, 4, 5, 6, 10],
    ));

    // Every value as written, and truncated at each length.
    for value in values() {
        let bytes = write_number(value);
        list.push((bytes, vec![0]));
    }
    for value in [
        128, 16383, 16384, 2097151, 2097152, 268435455, 268435456, 4294967295,
    ] {
        let bytes = write_number(value);
        for length in 1..bytes.len() {
            list.push((bytes[..length].to_vec(), vec![0]));
        }
    }

    // Over-long forms of every length: a last byte 0 of several. The same
    // with a byte after it, so that the 2 is not one of the end.
    for (first, middle) in [(0x80u8, 0x80u8), (0x81, 0x80), (0xFF, 0xFF), (0x80, 0x81)] {
        for length in 2..=6 {
            let mut bytes = vec![first];
            while bytes.len() + 1 < length {
                bytes.push(middle);
            }
            bytes.push(0);
            list.push((bytes.clone(), vec![0]));
            bytes.push(1);
            list.push((bytes, vec![0]));
        }
    }

    // Fifth bytes of every interesting size after four that go on: as the
    // last byte, with 0 after it, and with 1 after it.
    for four in [
        [0x80, 0x80, 0x80, 0x80],
        [0xFF, 0xFF, 0xFF, 0xFF],
        [0x81, 0x80, 0x80, 0x80],
        [0x80, 0x80, 0x80, 0x81],
    ] {
        list.push((four.to_vec(), vec![0]));
        for fifth in [
            0u8, 1, 2, 7, 8, 14, 15, 16, 17, 31, 32, 64, 127, 128, 129, 143, 144, 254, 255,
        ] {
            let mut bytes = four.to_vec();
            bytes.push(fifth);
            list.push((bytes.clone(), vec![0]));
            if [0, 1, 15, 16, 127, 128, 255].contains(&fifth) {
                let mut more = bytes.clone();
                more.push(0);
                list.push((more, vec![0]));
                bytes.push(1);
                list.push((bytes, vec![0]));
            }
        }
    }

    // Bytes that go on to the very end, of lengths 1 to 8.
    for byte in [0x80u8, 0xFF] {
        for length in 1..=8 {
            list.push((vec![byte; length], vec![0]));
        }
    }

    // In the middle of longer byte strings, at every place and past the end.
    for bytes in [
        vec![0x01, 0x04, 0x02, 0x41, 0x43, 0x01],
        vec![0x7F, 0x80, 0x01, 0xFF, 0x7F, 0x00],
        vec![0x00, 0x80, 0x00, 0x80, 0x80, 0x00],
        vec![0x0A, 0xFF, 0xFF, 0xFF, 0xFF, 0x0F, 0x0B],
        vec![0x0A, 0xFF, 0xFF, 0xFF, 0xFF, 0x10, 0x0B],
        vec![0x41, 0x80, 0x80, 0x80, 0x80, 0x80, 0x01, 0x41],
        vec![0x01, 0xFF, 0xFF, 0xFF, 0xFF, 0xFF, 0xFF, 0xFF],
        vec![0xAC, 0x02, 0x96, 0x01, 0xE5, 0x8E, 0x26, 0x80],
    ] {
        let places = (0..=bytes.len() + 2).collect();
        list.push((bytes, places));
    }
    list
}

/// Bytes in hex without spaces; `-` where there are none.
pub fn hex(bytes: &[u8]) -> String {
    if bytes.is_empty() {
        return "-".to_string();
    }
    bytes.iter().map(|byte| format!("{byte:02X}")).collect()
}

/// The whole table: reads first, then writes; no line comes twice.
pub fn numbers_table() -> String {
    let mut lines: Vec<String> = Vec::new();
    let mut put = |line: String| {
        if !lines.contains(&line) {
            lines.push(line);
        }
    };
    for (bytes, places) in reads() {
        for at in places {
            let answer = match read_number(&bytes, at) {
                Ok((value, next)) => format!("value {value} next {next}"),
                Err(fault) => format!("fault {} place {}", fault.number, fault.place),
            };
            put(format!("read {} at {at} -> {answer}", hex(&bytes)));
        }
    }
    for value in values() {
        put(format!("write {value} -> {}", hex(&write_number(value))));
    }
    let mut text = lines.join("\n");
    text.push('\n');
    text
}
