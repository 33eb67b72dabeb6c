//! The anchor file over a graph.

use super::graph::Graph;
use super::reader::{fault, Fault, Reader};

pub const MOST_READ: usize = 32_768;
pub const MOST_ANCHORS: usize = 2_048;
pub const MOST_WEIGHT: u32 = 65_535;

#[derive(Clone, Copy, Default)]
pub struct Anchor {
    pub v: u32,
    pub x: u32,
    pub c: u32,
    pub length: u32,
    pub weight: u32,
}

impl Anchor {
    /// Its last letter in the label.
    pub fn y(&self) -> u32 {
        self.x + self.length - 1
    }

    /// Its last letter in the read.
    pub fn d(&self) -> u32 {
        self.c + self.length - 1
    }

    fn order(&self) -> (u32, u32, u32, u32) {
        (self.v, self.x, self.length, self.c)
    }

    fn is_outside(&self, label: u32, read: usize) -> bool {
        let [x, c, length] = [self.x, self.c, self.length].map(u64::from);
        x == 0
            || c == 0
            || length == 0
            || x + length > u64::from(label) + 1
            || c + length > read as u64 + 1
    }
}

/// What an accepted anchor file says.
pub struct Anchors<'a> {
    pub read: &'a [u8],
    /// Where the read's letters start in the file.
    pub place: u32,
    pub list: Vec<Anchor>,
}

impl<'a> Anchors<'a> {
    /// Reads the file over a graph, whose file's bytes are lent too.
    pub fn read(graph: &Graph, graph_bytes: &[u8], bytes: &'a [u8]) -> Result<Anchors<'a>, Fault> {
        let mut reader = Reader::of_kind(bytes, 2)?;
        let r = reader.count(1..=MOST_READ)?;
        let place = reader.at as u32;
        let read = reader.letters(r)?;
        let count = reader.count(0..=MOST_ANCHORS)?;
        let mut list: Vec<Anchor> = Vec::with_capacity(count);
        for _ in 0..count {
            let first = reader.at;
            let [v, x, c, length] = [
                reader.number()?,
                reader.number()?,
                reader.number()?,
                reader.number()?,
            ];
            let weight_place = reader.at;
            let weight = reader.number()?;
            let anchor = Anchor {
                v,
                x,
                c,
                length,
                weight,
            };
            if v < 1 || v as usize > graph.n() {
                return fault(6, first);
            }
            let vertex = v as usize - 1;
            if anchor.is_outside(graph.lengths[vertex], r) {
                return fault(11, first);
            }
            if !(1..=MOST_WEIGHT).contains(&weight) {
                return fault(4, weight_place);
            }
            let start = (graph.places[vertex] + x - 1) as usize;
            let label_part = &graph_bytes[start..start + length as usize];
            if label_part != &read[c as usize - 1..anchor.d() as usize] {
                return fault(12, first);
            }
            if list
                .last()
                .is_some_and(|last| last.order() >= anchor.order())
            {
                return fault(7, first);
            }
            list.push(anchor);
        }
        reader.end()?;
        Ok(Anchors { read, place, list })
    }
}
