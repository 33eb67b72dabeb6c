//! Everything there is to say of a graph file, or of both files.

use crate::anchor_file::{read_anchors, AnchorFile};
use crate::answer::Refusal;
use crate::chains::{make_chaining, Chaining};
use crate::graph_file::{read_graph, GraphFile};
use crate::limits::*;
use crate::tables::{laid_out, make_tables, Cover, Tables};
use crate::walks::Walks;

/// An accepted graph file with its tables.
#[derive(Debug)]
pub struct GraphResults {
    pub file: GraphFile,
    pub tables: Tables,
    walks: Walks,
}

/// Both files accepted, with the tables and the chain.
#[derive(Debug)]
pub struct Results {
    pub graph: GraphResults,
    pub anchors: AnchorFile,
    pub chaining: Chaining,
}

/// The graph file alone.
pub fn judge_graph(graph_bytes: &[u8]) -> Result<GraphResults, Refusal> {
    let file = read_graph(graph_bytes).map_err(|fault| Refusal::of(fault, 1))?;
    Ok(with_tables(file))
}

fn with_tables(file: GraphFile) -> GraphResults {
    let walks = Walks::new(&file.graph);
    let tables = make_tables(&file.graph, &walks);
    check_cover(&file, &walks, &tables);
    GraphResults {
        file,
        tables,
        walks,
    }
}

/// "It exists exactly when u has a walk to v." And it is never less than the
/// least walk, since it is the length of one.
fn check_cover(file: &GraphFile, walks: &Walks, tables: &Tables) {
    let cover = Cover::new(&file.graph, tables);
    for u in 1..=file.graph.n() {
        for v in 1..=file.graph.n() {
            if u == v {
                continue;
            }
            let distance = cover.distance(u, v);
            assert_eq!(distance.is_some(), walks.walk(u, v));
            if let (Some(distance), Some(least)) = (distance, walks.least(u, v)) {
                assert!(distance >= least && distance >= file.graph.length(u));
            }
        }
    }
}

/// "A call on both files takes the whole graph file first."
pub fn judge(graph_bytes: &[u8], anchor_bytes: &[u8]) -> Result<Results, Refusal> {
    let file = read_graph(graph_bytes).map_err(|fault| Refusal::of(fault, 1))?;
    let anchors = read_anchors(&file.graph, anchor_bytes).map_err(|fault| Refusal::of(fault, 2))?;
    let graph = with_tables(file);
    let list = &anchors.content.anchors;
    let chaining = make_chaining(&graph.file.graph, list, &graph.walks, &graph.tables);
    Ok(Results {
        graph,
        anchors,
        chaining,
    })
}

/// A 64-bit FNV-1a digest, fed byte by byte.
pub struct Digest(u64);

impl Default for Digest {
    fn default() -> Digest {
        Digest::new()
    }
}

impl Digest {
    pub fn new() -> Digest {
        Digest(0xCBF2_9CE4_8422_2325)
    }

    pub fn bytes(&mut self, bytes: &[u8]) {
        for &byte in bytes {
            self.0 ^= u64::from(byte);
            self.0 = self.0.wrapping_mul(0x0000_0100_0000_01B3);
        }
    }

    /// Each number as 4 bytes, lowest first.
    pub fn numbers(&mut self, numbers: &[u32]) {
        for number in numbers {
            self.bytes(&number.to_le_bytes());
        }
    }

    pub fn value(&self) -> u64 {
        self.0
    }
}

/// `n letters m K reach_rounds distance_rounds digest`.
fn graph_line(results: &GraphResults) -> String {
    let graph = &results.file.graph;
    let (reach, distance, closed) = laid_out(&results.tables);
    let mut digest = Digest::new();
    digest.numbers(&reach);
    digest.numbers(&distance);
    digest.numbers(&closed);
    format!(
        "{} {} {} {} {} {} {}",
        graph.n(),
        graph.letters(),
        graph.edges.len(),
        graph.paths.len(),
        results.tables.reach_rounds,
        results.tables.distance_rounds,
        digest.value()
    )
}

/// `r N score rounds chain_length digest`.
fn chaining_line(results: &Results) -> String {
    let content = &results.anchors.content;
    let mut scores: Vec<u32> = results.chaining.scores.iter().map(|&s| s as u32).collect();
    scores.resize(SCORES_SIZE, 0);
    let mut chain = results.chaining.chain.clone();
    chain.resize(CHAIN_SIZE, 0);
    let mut digest = Digest::new();
    digest.numbers(&scores);
    digest.numbers(&chain);
    format!(
        "{} {} {} {} {} {}",
        content.read.len(),
        content.anchors.len(),
        results.chaining.score,
        results.chaining.rounds,
        results.chaining.chain.len(),
        digest.value()
    )
}

/// The expected line of a case of kind 1.
pub fn line_of_both(graph_bytes: &[u8], anchor_bytes: &[u8]) -> String {
    match judge(graph_bytes, anchor_bytes) {
        Ok(results) => format!("{} {}", graph_line(&results.graph), chaining_line(&results)),
        Err(refusal) => refusal.line(),
    }
}

/// The expected line of a case of kind 2.
pub fn line_of_graph(graph_bytes: &[u8]) -> String {
    match judge_graph(graph_bytes) {
        Ok(results) => graph_line(&results),
        Err(refusal) => refusal.line(),
    }
}
