//! The two writers, from raw content in lent buffers to bytes or a refusal.
//!
//! "A writer gives 13, then 4 to 9, 11 and 12 as the reader would for that
//! content (with place 0 for faults of the content), then 4 with place 65,536
//! if the file would pass 65,536 bytes, then 14, which is given exactly if the
//! encoding is longer than the room."

use crate::anchor_file::{Anchor, Anchors};
use crate::answer::Refusal;
use crate::graph_file::{read_graph, Graph};
use crate::letters::is_letter;
use crate::limits::*;
use crate::number::write_number;

/// The graph writer's content: the counts, and the buffers laid out as
/// document 01 says. Nothing about it is trusted.
#[derive(Clone, Debug)]
pub struct GraphContent {
    pub n: u32,
    pub m: u32,
    pub k: u32,
    pub letters: Vec<u8>,
    pub lengths: Vec<u32>,
    pub edges: Vec<u32>,
    pub paths: Vec<u32>,
    pub counts: Vec<u32>,
}

/// The anchor writer's content.
#[derive(Clone, Debug)]
pub struct AnchorContent {
    pub r: u32,
    pub count: u32,
    pub letters: Vec<u8>,
    pub anchors: Vec<u32>,
}

impl GraphContent {
    /// A graph laid out in buffers of full size, 0 in the unused places.
    pub fn of(graph: &Graph) -> GraphContent {
        let mut content = GraphContent {
            n: graph.labels.len() as u32,
            m: graph.edges.len() as u32,
            k: graph.paths.len() as u32,
            letters: Vec::new(),
            lengths: Vec::new(),
            edges: Vec::new(),
            paths: vec![0; PATHS_SIZE],
            counts: Vec::new(),
        };
        for label in &graph.labels {
            content.letters.extend(label);
            content.lengths.push(label.len() as u32);
        }
        for &(from, to) in &graph.edges {
            content.edges.push(from);
            content.edges.push(to);
        }
        for (index, path) in graph.paths.iter().enumerate() {
            content.counts.push(path.len() as u32);
            for (step, &vertex) in path.iter().enumerate() {
                content.paths[path_start(index + 1) + step] = vertex;
            }
        }
        content.letters.resize(LETTERS_SIZE, 0);
        content.lengths.resize(LENGTHS_SIZE, 0);
        content.edges.resize(EDGES_SIZE, 0);
        content.counts.resize(COUNTS_SIZE, 0);
        content
    }
}

impl AnchorContent {
    /// Anchors laid out in buffers of full size, 0 in the unused places.
    pub fn of(content: &Anchors) -> AnchorContent {
        let mut letters = content.read.clone();
        letters.resize(LETTERS_SIZE, 0);
        let mut anchors = Vec::new();
        for anchor in &content.anchors {
            anchors.extend([anchor.v, anchor.x, anchor.c, anchor.length, anchor.weight]);
        }
        let count = content.anchors.len() as u32;
        anchors.resize(ANCHORS_SIZE, 0);
        AnchorContent {
            r: content.read.len() as u32,
            count,
            letters,
            anchors,
        }
    }
}

/// The graph writer: the bytes, or the refusal. `room` is the size of the
/// writer's output, the one buffer that may have any size.
pub fn write_graph(content: &GraphContent, room: usize) -> Result<Vec<u8>, Refusal> {
    // 13: a lent buffer below full size.
    if content.letters.len() < LETTERS_SIZE
        || content.lengths.len() < LENGTHS_SIZE
        || content.edges.len() < EDGES_SIZE
        || content.paths.len() < PATHS_SIZE
        || content.counts.len() < COUNTS_SIZE
    {
        return Err(Refusal::new(13, 0, 0));
    }
    // 4 to 9 as the reader would for that content, with place 0.
    let number = graph_content_fault(content);
    if number != 0 {
        return Err(Refusal::new(number, 1, 0));
    }
    let bytes = graph_bytes(content);
    // 4 with place 65,536 if the file would pass 65,536 bytes.
    if bytes.len() > FILE_BYTES {
        return Err(Refusal::new(4, 1, FILE_BYTES as u64));
    }
    // 14, exactly if the encoding is longer than the room.
    if bytes.len() > room {
        return Err(Refusal::new(14, 0, 0));
    }
    Ok(bytes)
}

/// The number of the first fault a reader would meet in this content, going
/// through it in the order of the file; 0 if there is none.
fn graph_content_fault(content: &GraphContent) -> u32 {
    // n.
    let n = content.n;
    if n < 1 || n > MOST_VERTICES {
        return 4;
    }
    // For each vertex its label length, then its letters.
    let mut together: u64 = 0;
    for v in 1..=n as usize {
        let length = u64::from(content.lengths[v - 1]);
        if length < 1 || together + length > MOST_LABEL_LETTERS {
            return 4;
        }
        for place in together..together + length {
            if !is_letter(content.letters[place as usize]) {
                return 5;
            }
        }
        together += length;
    }
    // m.
    if content.m > MOST_EDGES {
        return 4;
    }
    // The edges: 6, 7.
    let mut edges: Vec<(u32, u32)> = Vec::new();
    for e in 0..content.m as usize {
        let edge = (content.edges[2 * e], content.edges[2 * e + 1]);
        if edge.0 < 1 || edge.0 > n || edge.1 < 1 || edge.1 > n {
            return 6;
        }
        if e > 0 && edges[e - 1] >= edge {
            return 7;
        }
        edges.push(edge);
    }
    // K.
    if content.k < 1 || content.k > MOST_PATHS {
        return 4;
    }
    // The paths: the count, then each vertex: 6, 7, 8.
    let mut on_a_path = vec![false; n as usize + 1];
    for i in 1..=content.k as usize {
        let count = content.counts[i - 1];
        if count < 1 || count > n {
            return 4;
        }
        for step in 0..count as usize {
            let place = path_start(i) + step;
            let vertex = content.paths[place];
            if vertex < 1 || vertex > n {
                return 6;
            }
            if step > 0 {
                let before = content.paths[place - 1];
                if before >= vertex {
                    return 7;
                }
                if edges.binary_search(&(before, vertex)).is_err() {
                    return 8;
                }
            }
            on_a_path[vertex as usize] = true;
        }
    }
    // After the last path: 9.
    for v in 1..=n as usize {
        if !on_a_path[v] {
            return 9;
        }
    }
    0
}

/// The graph file of content without fault.
fn graph_bytes(content: &GraphContent) -> Vec<u8> {
    let mut bytes = write_number(1);
    bytes.extend(write_number(content.n));
    let mut at = 0;
    for v in 1..=content.n as usize {
        let length = content.lengths[v - 1];
        bytes.extend(write_number(length));
        bytes.extend(&content.letters[at..at + length as usize]);
        at += length as usize;
    }
    bytes.extend(write_number(content.m));
    for e in 0..2 * content.m as usize {
        bytes.extend(write_number(content.edges[e]));
    }
    bytes.extend(write_number(content.k));
    for i in 1..=content.k as usize {
        let count = content.counts[i - 1];
        bytes.extend(write_number(count));
        for step in 0..count as usize {
            bytes.extend(write_number(content.paths[path_start(i) + step]));
        }
    }
    bytes
}

/// The anchor writer: "takes content and the graph file's bytes, which are
/// checked right after 13."
pub fn write_anchors(
    content: &AnchorContent,
    graph_file: &[u8],
    room: usize,
) -> Result<Vec<u8>, Refusal> {
    // 13.
    if content.letters.len() < LETTERS_SIZE || content.anchors.len() < ANCHORS_SIZE {
        return Err(Refusal::new(13, 0, 0));
    }
    // The graph file's own refusal, with its own place.
    let graph = match read_graph(graph_file) {
        Ok(file) => file.graph,
        Err(fault) => return Err(Refusal::of(fault, 1)),
    };
    // 4 to 7, 11 and 12 as the reader would for that content, with place 0.
    let number = anchor_content_fault(content, &graph);
    if number != 0 {
        return Err(Refusal::new(number, 2, 0));
    }
    let bytes = anchor_bytes(content);
    // 4 with place 65,536. No content gets here; the rule stands all the same.
    if bytes.len() > FILE_BYTES {
        return Err(Refusal::new(4, 2, FILE_BYTES as u64));
    }
    // 14.
    if bytes.len() > room {
        return Err(Refusal::new(14, 0, 0));
    }
    Ok(bytes)
}

/// The number of the first fault a reader would meet in this content over
/// this graph; 0 if there is none.
fn anchor_content_fault(content: &AnchorContent, graph: &Graph) -> u32 {
    // r, then the letters of the read.
    if content.r < 1 || content.r > MOST_READ_LETTERS {
        return 4;
    }
    let read = &content.letters[..content.r as usize];
    for &byte in read {
        if !is_letter(byte) {
            return 5;
        }
    }
    // N.
    if content.count > MOST_ANCHORS {
        return 4;
    }
    // The anchors: 6, 11, 4, 12, 7.
    let mut before: Option<Anchor> = None;
    for index in 0..content.count as usize {
        let numbers = &content.anchors[5 * index..5 * index + 5];
        let anchor = Anchor {
            v: numbers[0],
            x: numbers[1],
            c: numbers[2],
            length: numbers[3],
            weight: numbers[4],
        };
        if anchor.v < 1 || anchor.v as usize > graph.n() {
            return 6;
        }
        if anchor.is_outside(graph.length(anchor.v as usize), u64::from(content.r)) {
            return 11;
        }
        if anchor.weight < 1 || anchor.weight > MOST_WEIGHT {
            return 4;
        }
        if !anchor.letters_agree(&graph.labels[anchor.v as usize - 1], read) {
            return 12;
        }
        if let Some(before) = before {
            if before.order() >= anchor.order() {
                return 7;
            }
        }
        before = Some(anchor);
    }
    0
}

/// The anchor file of content without fault.
fn anchor_bytes(content: &AnchorContent) -> Vec<u8> {
    let mut bytes = write_number(2);
    bytes.extend(write_number(content.r));
    bytes.extend(&content.letters[..content.r as usize]);
    bytes.extend(write_number(content.count));
    for &number in &content.anchors[..5 * content.count as usize] {
        bytes.extend(write_number(number));
    }
    bytes
}
