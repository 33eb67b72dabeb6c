//! The calls that are measured, of the library and of the Rust program alike.

use crate::library::{self, ToadAnchors, ToadChain, ToadGraph, ToadPart, ToadTables};
use crate::library::{FULL_ANCHORS, FULL_CHAIN, FULL_CLOSED, FULL_COUNTS, FULL_EDGES};
use crate::library::{FULL_LENGTHS, FULL_LETTERS, FULL_PATHS, FULL_SCORES, FULL_TABLE};
use crate::rust::entries as rust;

#[derive(Clone, Copy, Debug, PartialEq, Eq)]
pub enum Who {
    Library,
    Rust,
}

#[derive(Clone, Copy, Debug, PartialEq, Eq)]
pub enum Call {
    /// The graph file alone: the letters of an anchor, the anchor file empty.
    CheckGraph,
    /// Both files: the letters of anchor 0.
    CheckBoth,
    ReadGraph,
    ReadAnchors,
    Tables,
    Sweep,
    Plain,
}

impl Call {
    pub const ALL: [Call; 7] = [
        Call::CheckGraph,
        Call::CheckBoth,
        Call::ReadGraph,
        Call::ReadAnchors,
        Call::Tables,
        Call::Sweep,
        Call::Plain,
    ];

    pub fn name(self) -> &'static str {
        match self {
            Call::CheckGraph => "check graph",
            Call::CheckBoth => "check both",
            Call::ReadGraph => "read graph",
            Call::ReadAnchors => "read anchors",
            Call::Tables => "tables",
            Call::Sweep => "sweep",
            Call::Plain => "plain pass",
        }
    }

    pub fn named(name: &str) -> Option<Call> {
        Call::ALL.into_iter().find(|call| call.name() == name)
    }

    pub fn takes_anchors(self) -> bool {
        !matches!(self, Call::CheckGraph | Call::ReadGraph | Call::Tables)
    }
}

/// An answer of any of the calls.
#[derive(Clone, Copy, Debug, PartialEq, Eq)]
pub enum Answer {
    Part(ToadPart),
    Graph(ToadGraph),
    Anchors(ToadAnchors),
    Tables(ToadTables),
    Chain(ToadChain),
}

/// Buffers of full size for every call.
#[derive(Clone, PartialEq, Eq)]
pub struct Buffers {
    letters: Vec<u8>,
    lengths: Vec<u32>,
    edges: Vec<u32>,
    paths: Vec<u32>,
    counts: Vec<u32>,
    anchors: Vec<u32>,
    reach: Vec<u32>,
    distance: Vec<u32>,
    closed: Vec<u32>,
    scores: Vec<u32>,
    chain: Vec<u32>,
}

impl Buffers {
    /// Filled with something that no call leaves there.
    pub fn new() -> Buffers {
        let numbers = |full| vec![0xDEAD_BEEF; full];
        Buffers {
            letters: vec![0xEE; FULL_LETTERS],
            lengths: numbers(FULL_LENGTHS),
            edges: numbers(FULL_EDGES),
            paths: numbers(FULL_PATHS),
            counts: numbers(FULL_COUNTS),
            anchors: numbers(FULL_ANCHORS),
            reach: numbers(FULL_TABLE),
            distance: numbers(FULL_TABLE),
            closed: numbers(FULL_CLOSED),
            scores: numbers(FULL_SCORES),
            chain: numbers(FULL_CHAIN),
        }
    }
}

impl Buffers {
    pub fn closed(&self) -> &[u32] {
        &self.closed
    }
}

impl Default for Buffers {
    fn default() -> Buffers {
        Buffers::new()
    }
}

/// A call of the program whose module is named; both have the same entries.
macro_rules! call_of {
    ($program:ident, $call:expr, $graph:expr, $file:expr, $b:expr) => {
        match $call {
            Call::CheckGraph => Answer::Part($program::letters($graph, &[], 0, 0)),
            Call::CheckBoth => Answer::Part($program::letters($graph, $file, 0, 0)),
            Call::ReadGraph => Answer::Graph($program::read_graph(
                $graph,
                &mut $b.letters,
                &mut $b.lengths,
                &mut $b.edges,
                &mut $b.paths,
                &mut $b.counts,
            )),
            Call::ReadAnchors => Answer::Anchors($program::read_anchors(
                $graph,
                $file,
                &mut $b.letters,
                &mut $b.anchors,
            )),
            Call::Tables => Answer::Tables($program::tables(
                $graph,
                &mut $b.reach,
                &mut $b.distance,
                &mut $b.closed,
            )),
            Call::Sweep => Answer::Chain($program::sweep(
                $graph,
                $file,
                &mut $b.scores,
                &mut $b.chain,
            )),
            Call::Plain => Answer::Chain($program::plain(
                $graph,
                $file,
                &mut $b.scores,
                &mut $b.chain,
            )),
        }
    };
}

/// Makes a call. What it does is counted by this function's name.
#[no_mangle]
#[inline(never)]
pub fn counted_call(who: Who, call: Call, graph: &[u8], file: &[u8], b: &mut Buffers) -> Answer {
    match who {
        Who::Library => call_of!(library, call, graph, file, b),
        Who::Rust => call_of!(rust, call, graph, file, b),
    }
}
