//! The graph file: "1; n; for each vertex its label length and letters; m;
//! for each edge the two vertices; K; for each path its vertex count and its
//! vertices."

use std::collections::BTreeSet;

use crate::letters::read_letters;
use crate::limits::*;
use crate::number::{fault, read_number, Fault};

/// What a graph file says. Vertices are numbered from 1: the label of vertex
/// v is `labels[v - 1]`; path i is `paths[i - 1]`.
#[derive(Clone, Debug, PartialEq, Eq, Default)]
pub struct Graph {
    pub labels: Vec<Vec<u8>>,
    pub edges: Vec<(u32, u32)>,
    pub paths: Vec<Vec<u32>>,
}

impl Graph {
    /// n.
    pub fn n(&self) -> usize {
        self.labels.len()
    }

    /// L(v), the length of the label of v.
    pub fn length(&self, v: usize) -> u64 {
        self.labels[v - 1].len() as u64
    }

    /// The letters of all labels together.
    pub fn letters(&self) -> usize {
        self.labels.iter().map(Vec::len).sum()
    }
}

/// An accepted graph file: its content, and where in the file each label's
/// letters stand (for the view of an anchor's letters).
#[derive(Clone, Debug)]
pub struct GraphFile {
    pub graph: Graph,
    pub label_places: Vec<usize>,
}

/// Reads a graph file. "File too long; then byte by byte from the front. The
/// first fault in this order is the answer."
pub fn read_graph(bytes: &[u8]) -> Result<GraphFile, Fault> {
    if bytes.len() > FILE_BYTES {
        return fault(4, FILE_BYTES);
    }
    read_graph_from_the_front(bytes)
}

/// The part of the reading after "file too long".
pub fn read_graph_from_the_front(bytes: &[u8]) -> Result<GraphFile, Fault> {
    // 1: the kind.
    let (kind, mut at) = read_number(bytes, 0)?;
    if kind != 1 {
        return fault(3, 0);
    }

    // n; 1 to 1,024.
    let place_of_n = at;
    let (n, next) = read_number(bytes, at)?;
    at = next;
    if n < 1 || n > MOST_VERTICES {
        return fault(4, place_of_n);
    }

    // For each vertex its label length and letters.
    let mut labels: Vec<Vec<u8>> = Vec::new();
    let mut label_places = Vec::new();
    let mut together: u64 = 0;
    for _ in 0..n {
        let place_of_length = at;
        let (length, next) = read_number(bytes, at)?;
        at = next;
        // Label length 1 up; all labels together at most 32,768.
        if length < 1 || together + u64::from(length) > MOST_LABEL_LETTERS {
            return fault(4, place_of_length);
        }
        together += u64::from(length);
        label_places.push(at);
        let (label, next) = read_letters(bytes, at, length)?;
        at = next;
        labels.push(label);
    }

    // m; 0 to 4,096.
    let place_of_m = at;
    let (m, next) = read_number(bytes, at)?;
    at = next;
    if m > MOST_EDGES {
        return fault(4, place_of_m);
    }

    // For each edge the two vertices. "An edge's two numbers are read, then
    // 6, 7."
    let mut edges: Vec<(u32, u32)> = Vec::new();
    for _ in 0..m {
        let place_of_edge = at;
        let (from, next) = read_number(bytes, at)?;
        at = next;
        let (to, next) = read_number(bytes, at)?;
        at = next;
        if from < 1 || from > n || to < 1 || to > n {
            return fault(6, place_of_edge);
        }
        if let Some(&before) = edges.last() {
            if before >= (from, to) {
                return fault(7, place_of_edge);
            }
        }
        edges.push((from, to));
    }
    let edge_set: BTreeSet<(u32, u32)> = edges.iter().copied().collect();

    // K; 1 to 16.
    let place_of_k = at;
    let (k, next) = read_number(bytes, at)?;
    at = next;
    if k < 1 || k > MOST_PATHS {
        return fault(4, place_of_k);
    }

    // For each path its vertex count and its vertices. "A path's vertex: 6,
    // 7, 8."
    let mut paths: Vec<Vec<u32>> = Vec::new();
    for _ in 0..k {
        let place_of_count = at;
        let (count, next) = read_number(bytes, at)?;
        at = next;
        if count < 1 || count > n {
            return fault(4, place_of_count);
        }
        let mut path: Vec<u32> = Vec::new();
        for _ in 0..count {
            let place_of_vertex = at;
            let (vertex, next) = read_number(bytes, at)?;
            at = next;
            if vertex < 1 || vertex > n {
                return fault(6, place_of_vertex);
            }
            if let Some(&before) = path.last() {
                if before >= vertex {
                    return fault(7, place_of_vertex);
                }
                if !edge_set.contains(&(before, vertex)) {
                    return fault(8, place_of_vertex);
                }
            }
            path.push(vertex);
        }
        paths.push(path);
    }

    // "After the last path: 9, then 10."
    for vertex in 1..=n {
        if !paths.iter().any(|path| path.contains(&vertex)) {
            return fault(9, at);
        }
    }
    if at < bytes.len() {
        return fault(10, at);
    }

    Ok(GraphFile {
        graph: Graph {
            labels,
            edges,
            paths,
        },
        label_places,
    })
}
