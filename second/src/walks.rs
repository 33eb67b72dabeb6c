//! Walks and their lengths, by search from every vertex.
//!
//! "A walk follows edges and may repeat vertices; its length is the sum of L
//! over all its vertices but the last, so a walk of no edges has length 0."

use std::cmp::Reverse;
use std::collections::{BinaryHeap, VecDeque};

use crate::graph_file::Graph;

/// The least lengths of walks of no edges or more, for every pair.
#[derive(Debug)]
pub struct Walks {
    n: usize,
    /// The edges out of each vertex; place v - 1.
    out: Vec<Vec<usize>>,
    /// The least length of a walk from u to v; place (u - 1) n + v - 1.
    least: Vec<Option<u64>>,
    /// L(v); place v - 1.
    lengths: Vec<u64>,
}

impl Walks {
    pub fn new(graph: &Graph) -> Walks {
        let n = graph.n();
        let mut out = vec![Vec::new(); n];
        for &(from, to) in &graph.edges {
            out[from as usize - 1].push(to as usize);
        }
        let lengths: Vec<u64> = (1..=n).map(|v| graph.length(v)).collect();
        let mut least = Vec::with_capacity(n * n);
        for u in 1..=n {
            let row = least_lengths_from(u, &out, &lengths);
            let met = vertices_met_from(u, &out);
            // The two searches agree on which vertices have a walk at all.
            for v in 1..=n {
                assert_eq!(row[v - 1].is_some(), met[v - 1]);
            }
            least.extend(row);
        }
        Walks {
            n,
            out,
            least,
            lengths,
        }
    }

    /// The least length of a walk of no edges or more from u to v.
    pub fn least(&self, u: usize, v: usize) -> Option<u64> {
        self.least[(u - 1) * self.n + v - 1]
    }

    /// Whether a walk of no edges or more goes from u to v.
    pub fn walk(&self, u: usize, v: usize) -> bool {
        self.least(u, v).is_some()
    }

    /// The least length of a walk of at least one edge from u to v: an edge
    /// from u to some w, then a walk of no edges or more from w to v.
    pub fn least_of_an_edge(&self, u: usize, v: usize) -> Option<u64> {
        let mut best: Option<u64> = None;
        for &w in &self.out[u - 1] {
            if let Some(rest) = self.least(w, v) {
                let length = self.lengths[u - 1] + rest;
                if best.is_none_or(|b| length < b) {
                    best = Some(length);
                }
            }
        }
        best
    }

    /// Whether a walk of at least one edge goes from u to v.
    pub fn walk_of_an_edge(&self, u: usize, v: usize) -> bool {
        self.out[u - 1].iter().any(|&w| self.walk(w, v))
    }
}

/// Search by least length: the vertex of least length so far is settled, and
/// its edges are followed.
fn least_lengths_from(u: usize, out: &[Vec<usize>], lengths: &[u64]) -> Vec<Option<u64>> {
    let mut least: Vec<Option<u64>> = vec![None; out.len()];
    let mut open = BinaryHeap::new();
    open.push(Reverse((0u64, u)));
    while let Some(Reverse((length, v))) = open.pop() {
        if least[v - 1].is_some() {
            continue;
        }
        least[v - 1] = Some(length);
        for &w in &out[v - 1] {
            if least[w - 1].is_none() {
                open.push(Reverse((length + lengths[v - 1], w)));
            }
        }
    }
    least
}

/// Search by breadth: the vertices that a walk from u meets, u itself too.
fn vertices_met_from(u: usize, out: &[Vec<usize>]) -> Vec<bool> {
    let mut met = vec![false; out.len()];
    let mut queue = VecDeque::new();
    met[u - 1] = true;
    queue.push_back(u);
    while let Some(v) = queue.pop_front() {
        for &w in &out[v - 1] {
            if !met[w - 1] {
                met[w - 1] = true;
                queue.push_back(w);
            }
        }
    }
    met
}
