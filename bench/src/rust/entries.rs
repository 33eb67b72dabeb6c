//! The entries: the same calls as the library's, on the same lent buffers.

use super::anchors::{Anchor, Anchors};
use super::chains::{self, Cover};
use super::graph::Graph;
use super::reader::Fault;
use super::tables::{fill_tables, Row};
use crate::library::{Refusal, Refused, SMALL_BUFFER};
use crate::library::{ToadAnchors, ToadChain, ToadGraph, ToadPart, ToadTables};
use crate::library::{FULL_ANCHORS, FULL_CHAIN, FULL_CLOSED, FULL_COUNTS, FULL_EDGES};
use crate::library::{FULL_LENGTHS, FULL_LETTERS, FULL_PATHS, FULL_SCORES, FULL_TABLE, PATH_ROOM};

/// A fault of the file named.
fn of_file(file: u32) -> impl Fn(Fault) -> Refusal {
    move |fault| Refusal {
        number: fault.number,
        file,
        place: fault.place as u32,
    }
}

/// The answer of a call, a refusal as the library answers it.
fn answer<A: Refused>(call: impl FnOnce() -> Result<A, Refusal>) -> A {
    call().unwrap_or_else(A::refused)
}

/// Refuses buffers below full size: for each its size, and the full one.
fn full(sizes: &[(usize, usize)]) -> Result<(), Refusal> {
    if sizes.iter().any(|&(size, full)| size < full) {
        return Err(SMALL_BUFFER);
    }
    Ok(())
}

fn read_both<'a>(graph: &[u8], file: &'a [u8]) -> Result<(Graph, Anchors<'a>), Refusal> {
    let content = Graph::read(graph).map_err(of_file(1))?;
    let anchors = Anchors::read(&content, graph, file).map_err(of_file(2))?;
    Ok((content, anchors))
}

/// Fills the front of a buffer, and the rest up to its full size with 0.
fn lay<T: Copy + Default>(out: &mut [T], full: usize, used: &[T]) {
    let (front, rest) = out[..full].split_at_mut(used.len());
    front.copy_from_slice(used);
    rest.fill(T::default());
}

/// The same for groups of numbers, one after the other.
fn lay_groups<const N: usize>(
    out: &mut [u32],
    full: usize,
    groups: impl ExactSizeIterator<Item = [u32; N]>,
) {
    let (front, rest) = out[..full].split_at_mut(N * groups.len());
    for (place, group) in front.chunks_exact_mut(N).zip(groups) {
        place.copy_from_slice(&group);
    }
    rest.fill(0);
}

pub fn read_graph(
    file: &[u8],
    letters: &mut [u8],
    lengths: &mut [u32],
    edges: &mut [u32],
    paths: &mut [u32],
    counts: &mut [u32],
) -> ToadGraph {
    answer(|| {
        full(&[
            (letters.len(), FULL_LETTERS),
            (lengths.len(), FULL_LENGTHS),
            (edges.len(), FULL_EDGES),
            (paths.len(), FULL_PATHS),
            (counts.len(), FULL_COUNTS),
        ])?;
        let graph = Graph::read(file).map_err(of_file(1))?;
        lay(letters, FULL_LETTERS, &graph.letters);
        lay(lengths, FULL_LENGTHS, &graph.lengths);
        let pairs = graph.edges.iter().map(|&(from, to)| [from, to]);
        lay_groups(edges, FULL_EDGES, pairs);
        let mut rooms = paths[..FULL_PATHS].chunks_exact_mut(PATH_ROOM);
        let mut places = counts[..FULL_COUNTS].iter_mut();
        for path in &graph.paths {
            lay(rooms.next().expect("sixteen rooms"), PATH_ROOM, path);
            *places.next().expect("sixteen counts") = path.len() as u32;
        }
        rooms.for_each(|room| room.fill(0));
        places.for_each(|count| *count = 0);
        Ok(ToadGraph {
            vertices: graph.n() as u32,
            letters: graph.letters.len() as u32,
            edges: graph.edges.len() as u32,
            paths: graph.paths.len() as u32,
            ..ToadGraph::default()
        })
    })
}

pub fn read_anchors(
    graph: &[u8],
    file: &[u8],
    letters: &mut [u8],
    anchors: &mut [u32],
) -> ToadAnchors {
    answer(|| {
        full(&[(letters.len(), FULL_LETTERS), (anchors.len(), FULL_ANCHORS)])?;
        let (_, content) = read_both(graph, file)?;
        lay(letters, FULL_LETTERS, content.read);
        let fives = content
            .list
            .iter()
            .map(|a| [a.v, a.x, a.c, a.length, a.weight]);
        lay_groups(anchors, FULL_ANCHORS, fives);
        Ok(ToadAnchors {
            letters: content.read.len() as u32,
            anchors: content.list.len() as u32,
            ..ToadAnchors::default()
        })
    })
}

pub fn tables(
    file: &[u8],
    reach: &mut [u32],
    distance: &mut [u32],
    closed: &mut [u32],
) -> ToadTables {
    answer(|| {
        full(&[
            (reach.len(), FULL_TABLE),
            (distance.len(), FULL_TABLE),
            (closed.len(), FULL_CLOSED),
        ])?;
        let graph = Graph::read(file).map_err(of_file(1))?;
        let n = graph.n();
        let (reach, unreached) = reach[..FULL_TABLE].split_at_mut(16 * n);
        let (distance, undistanced) = distance[..FULL_TABLE].split_at_mut(16 * n);
        let (closed, unclosed) = closed[..FULL_CLOSED].split_at_mut(n);
        let rounds = fill_tables(
            &graph,
            reach.as_chunks_mut().0,
            distance.as_chunks_mut().0,
            closed,
        );
        unreached.fill(0);
        undistanced.fill(0);
        unclosed.fill(0);
        Ok(ToadTables {
            vertices: n as u32,
            paths: graph.paths.len() as u32,
            reach_rounds: rounds.reach,
            distance_rounds: rounds.distance,
            ..ToadTables::default()
        })
    })
}

/// A chaining call on the lent scores and chain: the engine gives the scores
/// and says its rounds.
fn place(
    (graph, file): (&[u8], &[u8]),
    (scores, chain): (&mut [u32], &mut [u32]),
    engine: impl Fn(&Cover, &[Anchor], &mut [u32]) -> u32,
) -> ToadChain {
    answer(|| {
        full(&[(scores.len(), FULL_SCORES), (chain.len(), FULL_CHAIN)])?;
        let (graph, anchors) = read_both(graph, file)?;
        let empty: Row = [0; 16];
        let mut reach = vec![empty; graph.n()];
        let mut distance = vec![empty; graph.n()];
        let mut closed = vec![0; graph.n()];
        fill_tables(&graph, &mut reach, &mut distance, &mut closed);
        let cover = Cover {
            graph: &graph,
            reach: &reach,
            distance: &distance,
            closed: &closed,
        };
        let (used, rest) = scores[..FULL_SCORES].split_at_mut(anchors.list.len());
        let rounds = engine(&cover, &anchors.list, used);
        rest.fill(0);
        let list = chains::chain(&cover, &anchors.list, used);
        lay(chain, FULL_CHAIN, &list);
        Ok(ToadChain {
            anchors: anchors.list.len() as u32,
            score: used.iter().copied().max().unwrap_or(0),
            rounds,
            length: list.len() as u32,
            ..ToadChain::default()
        })
    })
}

pub fn sweep(graph: &[u8], file: &[u8], scores: &mut [u32], chain: &mut [u32]) -> ToadChain {
    place((graph, file), (scores, chain), chains::sweep)
}

pub fn plain(graph: &[u8], file: &[u8], scores: &mut [u32], chain: &mut [u32]) -> ToadChain {
    place((graph, file), (scores, chain), |cover, anchors, scores| {
        chains::plain(cover, anchors, scores);
        0
    })
}

/// Where the letters of one anchor stand in the file named.
pub fn letters(graph: &[u8], file: &[u8], number: u32, which: u32) -> ToadPart {
    let part = || {
        let (graph, anchors) = read_both(graph, file).ok()?;
        let anchor = anchors.list.get((number as usize).checked_sub(1)?)?;
        let start = match which {
            1 => graph.places[anchor.v as usize - 1] + anchor.x - 1,
            2 => anchors.place + anchor.c - 1,
            _ => return None,
        };
        Some(ToadPart {
            start,
            length: anchor.length,
        })
    };
    part().unwrap_or_default()
}
