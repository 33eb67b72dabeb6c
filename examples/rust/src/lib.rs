//! Safe Rust over the proved library `toadtrellis`. Content is owned: each function lends the library buffers of full size, and hands back the used
//! places, or the refusal with its number, file and place. Nothing is asked of a caller: the library checks every file itself.

pub mod raw;

use raw::{Engine, PATH_ROOM};
use raw::{FULL_ANCHORS, FULL_CHAIN, FULL_CLOSED, FULL_COUNTS, FULL_EDGES, FULL_LENGTHS, FULL_LETTERS, FULL_PATHS, FULL_SCORES, FULL_TABLE};
use std::fmt;

/// The most bytes of a file.
pub const MOST_FILE_BYTES: usize = 65_536;

const ROW: usize = 16;

/// The first fault: its number, its file (1 graph, 2 anchors) and its place in bytes from 0.
#[derive(Clone, Copy, Debug, PartialEq, Eq)]
pub struct Refusal {
    pub number: u32,
    pub file: u32,
    pub place: u32,
}

impl fmt::Display for Refusal {
    fn fmt(&self, f: &mut fmt::Formatter<'_>) -> fmt::Result {
        write!(f, "refused {} file {} place {}", self.number, self.file, self.place)
    }
}

impl std::error::Error for Refusal {}

fn answered(number: u32, file: u32, place: u32) -> Result<(), Refusal> {
    if number == 0 {
        Ok(())
    } else {
        Err(Refusal { number, file, place })
    }
}

/// A graph: the letters of each vertex's label, the edges, and the paths that cover it. Vertices are numbered from 1.
#[derive(Clone, Debug, PartialEq, Eq)]
pub struct Graph {
    pub labels: Vec<Vec<u8>>,
    pub edges: Vec<(u32, u32)>,
    pub paths: Vec<Vec<u32>>,
}

/// Reads a graph file.
pub fn read_graph(file: &[u8]) -> Result<Graph, Refusal> {
    let mut letters = vec![0u8; FULL_LETTERS];
    let mut lengths = vec![0u32; FULL_LENGTHS];
    let mut edges = vec![0u32; FULL_EDGES];
    let mut paths = vec![0u32; FULL_PATHS];
    let mut counts = vec![0u32; FULL_COUNTS];
    let r = raw::read_graph(file, &mut letters, &mut lengths, &mut edges, &mut paths, &mut counts);
    answered(r.number, r.file, r.place)?;
    let mut rest = &letters[..r.letters as usize];
    let mut labels = Vec::new();
    for &length in &lengths[..r.vertices as usize] {
        let (label, after) = rest.split_at(length as usize);
        labels.push(label.to_vec());
        rest = after;
    }
    let edges = edges.chunks(2).take(r.edges as usize).map(|e| (e[0], e[1])).collect();
    let paths = (0..r.paths as usize)
        .map(|i| paths[PATH_ROOM * i..][..counts[i] as usize].to_vec())
        .collect();
    Ok(Graph { labels, edges, paths })
}

/// Content at the front of a buffer of full size. What does not fit there is past a count that is out of range, which the library refuses before it
/// looks at any of it.
fn laid<T: Copy>(zero: T, full: usize, content: &[T]) -> Vec<T> {
    let mut room = content[..content.len().min(full)].to_vec();
    room.resize(full, zero);
    room
}

/// A count as the library takes it.
fn count(n: usize) -> u32 {
    u32::try_from(n).unwrap_or(u32::MAX)
}

/// Writes the file of a graph.
pub fn write_graph(graph: &Graph) -> Result<Vec<u8>, Refusal> {
    let lengths: Vec<u32> = graph.labels.iter().map(|l| count(l.len())).collect();
    let numbers: Vec<u32> = graph.edges.iter().flat_map(|&(u, v)| [u, v]).collect();
    let counts: Vec<u32> = graph.paths.iter().map(|p| count(p.len())).collect();
    let paths: Vec<u32> = graph.paths.iter().flat_map(|p| laid(0, PATH_ROOM, p)).collect();
    let letters = laid(0, FULL_LETTERS, &graph.labels.concat());
    let lengths = laid(0, FULL_LENGTHS, &lengths);
    let edges = laid(0, FULL_EDGES, &numbers);
    let paths = laid(0, FULL_PATHS, &paths);
    let counts = laid(0, FULL_COUNTS, &counts);
    let mut out = vec![0u8; MOST_FILE_BYTES];
    let [n, m, k] = [graph.labels.len(), graph.edges.len(), graph.paths.len()].map(count);
    let r = raw::write_graph(n, m, k, &letters, &lengths, &edges, &paths, &counts, &mut out);
    answered(r.number, r.file, r.place)?;
    out.truncate(r.bytes as usize);
    Ok(out)
}

/// An anchor: label letters x..y of vertex v equal read letters c..d, where y = x + length − 1 and d = c + length − 1.
#[derive(Clone, Copy, Debug, PartialEq, Eq)]
pub struct Anchor {
    pub v: u32,
    pub x: u32,
    pub c: u32,
    pub length: u32,
    pub weight: u32,
}

impl Anchor {
    /// The last letter of the label that matches.
    pub fn y(&self) -> u64 {
        (u64::from(self.x) + u64::from(self.length)).saturating_sub(1)
    }

    /// The last letter of the read that matches.
    pub fn d(&self) -> u64 {
        (u64::from(self.c) + u64::from(self.length)).saturating_sub(1)
    }
}

/// The content of an anchor file: the read's letters, and the anchors, numbered from 1.
#[derive(Clone, Debug, PartialEq, Eq)]
pub struct Anchors {
    pub read: Vec<u8>,
    pub anchors: Vec<Anchor>,
}

/// Reads an anchor file over a graph file, both of which are checked.
pub fn read_anchors(graph: &[u8], file: &[u8]) -> Result<Anchors, Refusal> {
    let mut letters = vec![0u8; FULL_LETTERS];
    let mut numbers = vec![0u32; FULL_ANCHORS];
    let r = raw::read_anchors(graph, file, &mut letters, &mut numbers);
    answered(r.number, r.file, r.place)?;
    letters.truncate(r.letters as usize);
    let anchors = numbers.chunks(5).take(r.anchors as usize).map(|a| Anchor {
        v: a[0],
        x: a[1],
        c: a[2],
        length: a[3],
        weight: a[4],
    });
    Ok(Anchors { read: letters, anchors: anchors.collect() })
}

/// Writes the file of anchors over a graph file, which is checked first.
pub fn write_anchors(anchors: &Anchors, graph: &[u8]) -> Result<Vec<u8>, Refusal> {
    let numbers: Vec<u32> = anchors.anchors.iter().flat_map(|a| [a.v, a.x, a.c, a.length, a.weight]).collect();
    let letters = laid(0, FULL_LETTERS, &anchors.read);
    let rooms = laid(0, FULL_ANCHORS, &numbers);
    let mut out = vec![0u8; MOST_FILE_BYTES];
    let [letters_count, anchors_count] = [anchors.read.len(), anchors.anchors.len()].map(count);
    let r = raw::write_anchors(letters_count, anchors_count, &letters, &rooms, graph, &mut out);
    answered(r.number, r.file, r.place)?;
    out.truncate(r.bytes as usize);
    Ok(out)
}

/// The tables of a graph: a row for each vertex with a cell for each path, the closed walks, and the rounds of the two tables.
#[derive(Clone, Debug, PartialEq, Eq)]
pub struct Tables {
    pub reach: Vec<Vec<u32>>,
    pub distance: Vec<Vec<u32>>,
    pub closed: Vec<u32>,
    pub reach_rounds: u32,
    pub distance_rounds: u32,
}

/// Makes the tables of a graph file.
pub fn tables(file: &[u8]) -> Result<Tables, Refusal> {
    let mut reach = vec![0u32; FULL_TABLE];
    let mut distance = vec![0u32; FULL_TABLE];
    let mut closed = vec![0u32; FULL_CLOSED];
    let r = raw::tables(file, &mut reach, &mut distance, &mut closed);
    answered(r.number, r.file, r.place)?;
    let rows = |cells: &[u32]| -> Vec<Vec<u32>> {
        let used = cells.chunks(ROW).take(r.vertices as usize);
        used.map(|row| row[..r.paths as usize].to_vec()).collect()
    };
    closed.truncate(r.vertices as usize);
    Ok(Tables {
        reach: rows(&reach),
        distance: rows(&distance),
        closed,
        reach_rounds: r.reach_rounds,
        distance_rounds: r.distance_rounds,
    })
}

/// The best chain: the best score ending at each anchor, the chain's anchors by number in read order, its score, and the rounds of the sweep.
#[derive(Clone, Debug, PartialEq, Eq)]
pub struct Chain {
    pub scores: Vec<u32>,
    pub anchors: Vec<u32>,
    pub score: u32,
    pub rounds: u32,
}

fn chain_by(engine: Engine, graph: &[u8], file: &[u8]) -> Result<Chain, Refusal> {
    let mut scores = vec![0u32; FULL_SCORES];
    let mut chain = vec![0u32; FULL_CHAIN];
    let r = engine(graph, file, &mut scores, &mut chain);
    answered(r.number, r.file, r.place)?;
    scores.truncate(r.anchors as usize);
    chain.truncate(r.length as usize);
    Ok(Chain { scores, anchors: chain, score: r.score, rounds: r.rounds })
}

/// Finds the best chain by the sweep.
pub fn sweep(graph: &[u8], file: &[u8]) -> Result<Chain, Refusal> {
    chain_by(raw::sweep, graph, file)
}

/// Finds it by the plain pass, which audits the sweep; its rounds are 0.
pub fn plain(graph: &[u8], file: &[u8]) -> Result<Chain, Refusal> {
    chain_by(raw::plain, graph, file)
}

/// The letters of one anchor as they stand in the file named, 1 graph or 2 anchors; empty where a file is refused, the number is not 1 to N, or the
/// file named is neither.
pub fn letters<'a>(graph: &'a [u8], file: &'a [u8], number: u32, which: u32) -> &'a [u8] {
    let p = raw::letters(graph, file, number, which);
    let named = if which == 2 { file } else { graph };
    &named[p.start as usize..][..p.length as usize]
}
