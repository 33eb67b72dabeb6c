//! The view of one anchor's letters.
//!
//! "The letters of one anchor are handed back as they stand in whichever of
//! the two files the caller names, 1 or 2; the empty part at the front of the
//! graph file is handed back exactly when a file is refused, the anchor's
//! number is not 1 to N, or the file named is neither."

use crate::anchor_file::read_anchors;
use crate::graph_file::read_graph;

/// A part of one of the two files.
#[derive(Clone, Copy, Debug, PartialEq, Eq)]
pub struct Part {
    pub file: u32,
    pub start: usize,
    pub length: usize,
}

/// The empty part at the front of the graph file.
pub const EMPTY: Part = Part {
    file: 1,
    start: 0,
    length: 0,
};

/// Where the letters of anchor `number` stand in file `named`.
pub fn letters_of_anchor(graph_bytes: &[u8], anchor_bytes: &[u8], number: u32, named: u32) -> Part {
    let Ok(graph_file) = read_graph(graph_bytes) else {
        return EMPTY;
    };
    let Ok(anchor_file) = read_anchors(&graph_file.graph, anchor_bytes) else {
        return EMPTY;
    };
    let anchors = &anchor_file.content.anchors;
    if number < 1 || number as usize > anchors.len() {
        return EMPTY;
    }
    let anchor = anchors[number as usize - 1];
    let length = anchor.length as usize;
    match named {
        1 => {
            // Label letters x..y of v.
            let label = graph_file.label_places[anchor.v as usize - 1];
            Part {
                file: 1,
                start: label + anchor.x as usize - 1,
                length,
            }
        }
        2 => {
            // Read letters c..d.
            Part {
                file: 2,
                start: anchor_file.read_place + anchor.c as usize - 1,
                length,
            }
        }
        _ => EMPTY,
    }
}

/// The bytes of a part.
pub fn part<'a>(graph_bytes: &'a [u8], anchor_bytes: &'a [u8], part: Part) -> &'a [u8] {
    let bytes = if part.file == 1 {
        graph_bytes
    } else {
        anchor_bytes
    };
    &bytes[part.start..part.start + part.length]
}
