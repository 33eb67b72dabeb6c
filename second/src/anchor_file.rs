//! The anchor file: "2; r; the r letters of the read; N; for each anchor v, x,
//! c, length, weight."

use crate::graph_file::Graph;
use crate::letters::read_letters;
use crate::limits::*;
use crate::number::{fault, read_number, Fault};

/// One anchor. Its numbers are those of the file; y and d follow from them.
#[derive(Clone, Copy, Debug, PartialEq, Eq)]
pub struct Anchor {
    pub v: u32,
    pub x: u32,
    pub c: u32,
    pub length: u32,
    pub weight: u32,
}

impl Anchor {
    /// y = x + length - 1, a true sum (length is at least 1 where it is used).
    pub fn y(&self) -> u64 {
        u64::from(self.x) + u64::from(self.length) - 1
    }

    /// d = c + length - 1, likewise.
    pub fn d(&self) -> u64 {
        u64::from(self.c) + u64::from(self.length) - 1
    }

    /// "Anchors rise strictly by (v, x, y, c)."
    pub fn order(&self) -> (u32, u32, u64, u32) {
        (self.v, self.x, self.y(), self.c)
    }

    /// 11: "anchor outside label or read, or x, c or length 0".
    pub fn is_outside(&self, label_length: u64, r: u64) -> bool {
        self.x == 0 || self.c == 0 || self.length == 0 || self.y() > label_length || self.d() > r
    }

    /// "Label letters x..y of v equal read letters c..d."
    pub fn letters_agree(&self, label: &[u8], read: &[u8]) -> bool {
        let mut k: usize = 0;
        while k < self.length as usize {
            if label[self.x as usize - 1 + k] != read[self.c as usize - 1 + k] {
                return false;
            }
            k += 1;
        }
        true
    }
}

/// What an anchor file says: the read and the anchors.
#[derive(Clone, Debug, PartialEq, Eq, Default)]
pub struct Anchors {
    pub read: Vec<u8>,
    pub anchors: Vec<Anchor>,
}

/// An accepted anchor file: its content, and where the read's letters stand.
#[derive(Clone, Debug)]
pub struct AnchorFile {
    pub content: Anchors,
    pub read_place: usize,
}

/// Reads an anchor file over an accepted graph. File too long; then byte by
/// byte from the front.
pub fn read_anchors(graph: &Graph, bytes: &[u8]) -> Result<AnchorFile, Fault> {
    if bytes.len() > FILE_BYTES {
        return fault(4, FILE_BYTES);
    }
    read_anchors_from_the_front(graph, bytes)
}

/// The part of the reading after "file too long".
pub fn read_anchors_from_the_front(graph: &Graph, bytes: &[u8]) -> Result<AnchorFile, Fault> {
    let n = graph.n() as u32;

    // 2: the kind.
    let (kind, mut at) = read_number(bytes, 0)?;
    if kind != 2 {
        return fault(3, 0);
    }

    // r; 1 to 32,768; and the r letters of the read.
    let place_of_r = at;
    let (r, next) = read_number(bytes, at)?;
    at = next;
    if r < 1 || r > MOST_READ_LETTERS {
        return fault(4, place_of_r);
    }
    let read_place = at;
    let (read, next) = read_letters(bytes, at, r)?;
    at = next;

    // N; 0 to 2,048.
    let place_of_count = at;
    let (count, next) = read_number(bytes, at)?;
    at = next;
    if count > MOST_ANCHORS {
        return fault(4, place_of_count);
    }

    // "An anchor's five numbers are read, then 6, 11, 4 (place: the weight's
    // first byte), 12, 7."
    let mut anchors: Vec<Anchor> = Vec::new();
    for _ in 0..count {
        let place_of_anchor = at;
        let (v, next) = read_number(bytes, at)?;
        at = next;
        let (x, next) = read_number(bytes, at)?;
        at = next;
        let (c, next) = read_number(bytes, at)?;
        at = next;
        let (length, next) = read_number(bytes, at)?;
        at = next;
        let place_of_weight = at;
        let (weight, next) = read_number(bytes, at)?;
        at = next;
        let anchor = Anchor {
            v,
            x,
            c,
            length,
            weight,
        };
        if v < 1 || v > n {
            return fault(6, place_of_anchor);
        }
        if anchor.is_outside(graph.length(v as usize), u64::from(r)) {
            return fault(11, place_of_anchor);
        }
        if weight < 1 || weight > MOST_WEIGHT {
            return fault(4, place_of_weight);
        }
        if !anchor.letters_agree(&graph.labels[v as usize - 1], &read) {
            return fault(12, place_of_anchor);
        }
        if let Some(before) = anchors.last() {
            if before.order() >= anchor.order() {
                return fault(7, place_of_anchor);
            }
        }
        anchors.push(anchor);
    }

    // Bytes left over.
    if at < bytes.len() {
        return fault(10, at);
    }

    Ok(AnchorFile {
        content: Anchors { read, anchors },
        read_place,
    })
}
