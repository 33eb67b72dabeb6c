//! Good files at random, and the worst cases.

use std::collections::BTreeSet;

use crate::anchor_file::{Anchor, Anchors};
use crate::graph_file::Graph;
use crate::limits::*;
use crate::prng::Prng;
use crate::tokens::{anchor_file_bytes, graph_file_bytes};

/// How great a random file may be.
#[derive(Clone, Copy, Debug, PartialEq, Eq)]
pub enum Size {
    /// A few vertices, a few anchors.
    Small,
    /// Tens of vertices, up to a hundred anchors or so.
    Medium,
    /// Up to the limits.
    Large,
}

/// Letters from an alphabet of one to four: few letters make many ties.
fn random_alphabet(prng: &mut Prng) -> Vec<u8> {
    let size = prng.pick(&[1, 2, 2, 3, 4, 4]);
    let mut letters = b"ACGT".to_vec();
    while letters.len() > size {
        let at = prng.below(letters.len());
        letters.remove(at);
    }
    letters
}

/// A random good graph: labels, a cover of rising paths, the edges the paths
/// need, and more edges of several kinds.
pub fn random_graph(prng: &mut Prng, size: Size) -> Graph {
    if size != Size::Large && prng.chance(15) {
        return bubbles(prng, size);
    }
    loop {
        let graph = try_graph(prng, size);
        let fits = graph.edges.len() <= MOST_EDGES as usize
            && graph.letters() as u64 <= MOST_LABEL_LETTERS
            && graph_file_bytes(&graph).len() <= FILE_BYTES;
        if fits {
            return graph;
        }
    }
}

fn try_graph(prng: &mut Prng, size: Size) -> Graph {
    let (n, longest, most_paths) = match size {
        Size::Small => (prng.between(1, 8), prng.pick(&[1, 2, 3, 4, 6, 12]), 4),
        Size::Medium => (prng.between(8, 60), prng.pick(&[1, 3, 8, 20, 200]), 16),
        Size::Large => {
            let n = prng.pick(&[100, 127, 128, 129, 300, 700, 1000, 1023, 1024]);
            (n, prng.pick(&[1, 4, 20, 60]), 16)
        }
    };

    let alphabet = random_alphabet(prng);
    let mut labels = Vec::new();
    for _ in 0..n {
        let length = prng.between(1, longest);
        labels.push(
            (0..length)
                .map(|_| prng.pick(&alphabet))
                .collect::<Vec<u8>>(),
        );
    }

    // Each vertex on one path or more; a path takes its vertices in rising
    // number. Paths without vertices fall away.
    let wanted = prng.between(1, most_paths);
    let crowd = if size == Size::Large {
        prng.pick(&[0, 5, 15])
    } else {
        prng.pick(&[0, 10, 30, 60])
    };
    let mut paths: Vec<Vec<u32>> = vec![Vec::new(); wanted];
    for v in 1..=n as u32 {
        let home = prng.below(wanted);
        for (index, path) in paths.iter_mut().enumerate() {
            if index == home || prng.chance(crowd) {
                path.push(v);
            }
        }
    }
    paths.retain(|path| !path.is_empty());
    // Equal paths, sometimes.
    while paths.len() < MOST_PATHS as usize && prng.chance(15) {
        let copied = paths[prng.below(paths.len())].clone();
        paths.push(copied);
    }

    // The steps of the paths are edges.
    let mut edges: BTreeSet<(u32, u32)> = BTreeSet::new();
    for path in &paths {
        for pair in path.windows(2) {
            edges.insert((pair[0], pair[1]));
        }
    }
    // More edges: none, or forward only, or back edges, or any, or every path
    // step both ways, or all there can be.
    let more = match size {
        Size::Small => prng.between(0, 2 * n),
        Size::Medium => prng.between(0, 3 * n),
        Size::Large => prng.pick(&[0, 10, n / 2, 2 * n]),
    };
    let kind = prng.below(8);
    if kind == 6 {
        for pair in edges.clone() {
            edges.insert((pair.1, pair.0));
        }
    }
    if kind == 7 && n <= 6 {
        for u in 1..=n as u32 {
            for v in 1..=n as u32 {
                edges.insert((u, v));
            }
        }
    }
    for _ in 0..more {
        let u = prng.between(1, n) as u32;
        let v = prng.between(1, n) as u32;
        match kind {
            0 => (),
            1 => {
                if u < v {
                    edges.insert((u, v));
                }
            }
            // Back edges that are short, so that loops are small.
            2 => {
                let back = prng.between(0, 3.min(u as usize - 1)) as u32;
                edges.insert((u, u - back));
            }
            // Edges to itself.
            3 => {
                edges.insert((u, u));
            }
            _ => {
                edges.insert((u, v));
            }
        }
    }

    Graph {
        labels,
        edges: edges.into_iter().collect(),
        paths,
    }
}

/// Layers of one to three vertices with the same label, every vertex of a
/// layer with an edge to every one of the next, and sometimes back again: many
/// ways of the same length, so many ties.
fn bubbles(prng: &mut Prng, size: Size) -> Graph {
    let layers = if size == Size::Small {
        prng.between(1, 4)
    } else {
        prng.between(4, 15)
    };
    let alphabet = random_alphabet(prng);
    let mut labels = Vec::new();
    let mut layer_of: Vec<Vec<u32>> = Vec::new();
    for _ in 0..layers {
        let length = prng.between(1, 3);
        let label: Vec<u8> = (0..length).map(|_| prng.pick(&alphabet)).collect();
        let mut layer = Vec::new();
        for _ in 0..prng.between(1, 3) {
            labels.push(label.clone());
            layer.push(labels.len() as u32);
        }
        layer_of.push(layer);
    }
    let mut edges: BTreeSet<(u32, u32)> = BTreeSet::new();
    for pair in layer_of.windows(2) {
        for &u in &pair[0] {
            for &v in &pair[1] {
                edges.insert((u, v));
            }
        }
    }
    if prng.chance(50) {
        let (first, last) = (layer_of[0][0], layer_of[layers - 1][0]);
        edges.insert((last, first));
    }
    // Three paths hold every vertex; in no order, and perhaps one more.
    let mut paths: Vec<Vec<u32>> = (0..3)
        .map(|k| {
            layer_of
                .iter()
                .map(|layer| layer[k % layer.len()])
                .collect()
        })
        .collect();
    if prng.chance(30) {
        paths.push(layer_of.iter().map(|layer| prng.pick(layer)).collect());
    }
    paths.rotate_left(prng.below(3));
    Graph {
        labels,
        edges: edges.into_iter().collect(),
        paths,
    }
}

/// How the weights of a file are drawn.
#[derive(Clone, Copy)]
enum Weights {
    Ones,
    Length,
    Few,
    Some,
    Any,
    Greatest,
}

fn random_weight(prng: &mut Prng, weights: Weights, length: u32) -> u32 {
    match weights {
        Weights::Ones => 1,
        Weights::Length => length.min(MOST_WEIGHT),
        Weights::Few => prng.between(1, 4) as u32,
        Weights::Some => prng.between(1, 40) as u32,
        Weights::Any => prng.between(1, MOST_WEIGHT as usize) as u32,
        Weights::Greatest => MOST_WEIGHT,
    }
}

/// A random good anchor file over a graph. The read is built along walks, and
/// the anchors are laid where it was, so that chains exist; then some anchors
/// are laid wherever letters agree.
pub fn random_anchors(prng: &mut Prng, graph: &Graph, size: Size) -> Anchors {
    loop {
        let anchors = try_anchors(prng, graph, size);
        if anchor_file_bytes(&anchors).len() <= FILE_BYTES {
            return anchors;
        }
    }
}

fn try_anchors(prng: &mut Prng, graph: &Graph, size: Size) -> Anchors {
    let n = graph.n();
    let (read_goal, most) = match size {
        Size::Small => {
            let most = match prng.below(100) {
                0..=3 => 0,
                4..=33 => prng.between(1, 4),
                _ => prng.between(5, 10),
            };
            (prng.between(1, 40), most)
        }
        Size::Medium => (prng.between(20, 300), prng.between(5, 120)),
        Size::Large => {
            let goal = prng.pick(&[500, 2_000, 8_000, 32_768]);
            (goal, prng.pick(&[200, 1_000, 2_047, 2_048]))
        }
    };
    let mut out: Vec<Vec<u32>> = vec![Vec::new(); n];
    for &(from, to) in &graph.edges {
        out[from as usize - 1].push(to);
    }
    let weights = prng.pick(&[
        Weights::Ones,
        Weights::Length,
        Weights::Length,
        Weights::Few,
        Weights::Few,
        Weights::Some,
        Weights::Any,
        Weights::Greatest,
    ]);

    let mut read: Vec<u8> = Vec::new();
    let mut laid: Vec<Anchor> = Vec::new();
    let mut v = prng.between(1, n);
    while read.len() < read_goal {
        // A part of the label of v, or a letter or two of anything.
        let label = &graph.labels[v - 1];
        let x = if prng.chance(60) {
            1
        } else {
            prng.between(1, label.len())
        };
        let longest = label.len() - x + 1;
        let length = if prng.chance(60) {
            longest
        } else {
            prng.between(1, longest)
        };
        if prng.chance(85) && read.len() + length <= MOST_READ_LETTERS as usize {
            let c = read.len() + 1;
            read.extend(&label[x - 1..x - 1 + length]);
            if prng.chance(85) {
                laid.push(Anchor {
                    v: v as u32,
                    x: x as u32,
                    c: c as u32,
                    length: length as u32,
                    weight: 0,
                });
            }
        }
        if prng.chance(15) && read.len() < MOST_READ_LETTERS as usize {
            read.push(prng.pick(b"ACGT"));
        }
        // On along an edge, or stay, or start elsewhere.
        if !out[v - 1].is_empty() && prng.chance(80) {
            v = prng.pick(&out[v - 1]) as usize;
        } else if prng.chance(70) {
            v = prng.between(1, n);
        }
    }
    if read.is_empty() {
        read.push(b'A');
    }

    // Parts of anchors that are there already.
    for index in 0..laid.len() {
        if laid[index].length > 1 && prng.chance(30) {
            let whole = laid[index];
            let cut = prng.between(0, whole.length as usize - 1) as u32;
            let length = prng.between(1, (whole.length - cut) as usize) as u32;
            laid.push(Anchor {
                x: whole.x + cut,
                c: whole.c + cut,
                length,
                ..whole
            });
        }
    }
    // The same anchors on other vertices with the same label.
    for index in 0..laid.len() {
        for v in 1..=n {
            let one = laid[index];
            let same =
                v != one.v as usize && graph.labels[v - 1] == graph.labels[one.v as usize - 1];
            if size != Size::Large && same && prng.chance(20) {
                laid.push(Anchor { v: v as u32, ..one });
            }
        }
    }
    // Anchors wherever letters agree.
    for _ in 0..most {
        let v = prng.between(1, n);
        let label = &graph.labels[v - 1];
        let x = prng.between(1, label.len());
        let c = prng.between(1, read.len());
        let most_length = (label.len() - x + 1).min(read.len() - c + 1);
        let mut agree = 0;
        while agree < most_length && label[x - 1 + agree] == read[c - 1 + agree] {
            agree += 1;
        }
        if agree > 0 {
            let length = if prng.chance(50) {
                agree
            } else {
                prng.between(1, agree)
            };
            laid.push(Anchor {
                v: v as u32,
                x: x as u32,
                c: c as u32,
                length: length as u32,
                weight: 0,
            });
        }
    }
    // No more than wanted: a stretch of the read, so that chains stay whole,
    // or any; then in order, each once; then the weights.
    if prng.chance(60) && laid.len() > most {
        laid.sort_by_key(|anchor| (anchor.c, anchor.order()));
        let start = prng.between(0, laid.len() - most);
        laid = laid[start..start + most].to_vec();
    }
    while laid.len() > most {
        let at = prng.below(laid.len());
        laid.swap_remove(at);
    }
    laid.sort_by_key(Anchor::order);
    laid.dedup_by_key(|anchor| anchor.order());
    for anchor in &mut laid {
        anchor.weight = random_weight(prng, weights, anchor.length);
    }
    Anchors {
        read,
        anchors: laid,
    }
}

/// The two-way path 1 <-> 2 <-> .. <-> n under one path: the tables take n
/// rounds.
pub fn two_way_path(n: u32, label: &[u8]) -> Graph {
    let mut edges = BTreeSet::new();
    for v in 1..n {
        edges.insert((v, v + 1));
        edges.insert((v + 1, v));
    }
    Graph {
        labels: vec![label.to_vec(); n as usize],
        edges: edges.into_iter().collect(),
        paths: vec![(1..=n).collect()],
    }
}

/// One vertex with an edge to itself, its label `count` letters A; anchors of
/// one letter, x falling as c rises: the sweep takes `count` rounds.
pub fn falling_anchors(count: u32, weight: u32) -> (Graph, Anchors) {
    let graph = Graph {
        labels: vec![vec![b'A'; count as usize]],
        edges: vec![(1, 1)],
        paths: vec![vec![1]],
    };
    let mut anchors = Vec::new();
    for x in 1..=count {
        anchors.push(Anchor {
            v: 1,
            x,
            c: count + 1 - x,
            length: 1,
            weight,
        });
    }
    (
        graph,
        Anchors {
            read: vec![b'A'; count as usize],
            anchors,
        },
    )
}

/// Sixteen equal paths through all of 1,024 vertices; the labels share
/// `letters` letters, so that the file is of any length wanted.
pub fn sixteen_long_paths(letters: usize) -> Graph {
    let n = MOST_VERTICES;
    let mut labels = Vec::new();
    for v in 0..n as usize {
        let length = letters / n as usize + usize::from(v < letters % n as usize);
        labels.push((0..length).map(|k| b"ACGT"[(v + k) % 4]).collect());
    }
    Graph {
        labels,
        edges: (1..n).map(|v| (v, v + 1)).collect(),
        paths: vec![(1..=n).collect(); MOST_PATHS as usize],
    }
}

/// The same, with letters enough that the file has exactly `bytes` bytes.
pub fn graph_of_file_length(bytes: usize) -> Graph {
    // 1,024 letters make labels of one letter each; every further letter is
    // one more byte as long as each label stays under 128 letters.
    let least = graph_file_bytes(&sixteen_long_paths(MOST_VERTICES as usize)).len();
    let graph = sixteen_long_paths(MOST_VERTICES as usize + bytes - least);
    assert_eq!(graph_file_bytes(&graph).len(), bytes);
    graph
}

/// Content at every limit at once: n, letters, m, K and every path's count.
/// Its encoding passes 65,536 bytes.
pub fn all_limits() -> Graph {
    let mut graph = sixteen_long_paths(MOST_LABEL_LETTERS as usize);
    let mut edges: BTreeSet<(u32, u32)> = graph.edges.iter().copied().collect();
    let mut u = MOST_VERTICES;
    'fill: loop {
        for v in 1..=MOST_VERTICES {
            if edges.len() == MOST_EDGES as usize {
                break 'fill;
            }
            edges.insert((u, v));
        }
        u -= 1;
    }
    graph.edges = edges.into_iter().collect();
    graph
}

/// Two anchors as far apart as can be, on the read and by the cover: the
/// step's candidate lies far below zero.
pub fn far_apart() -> (Graph, Anchors) {
    let most = MOST_LABEL_LETTERS as u32;
    let graph = Graph {
        labels: vec![b"A".to_vec(), vec![b'A'; most as usize - 2], b"A".to_vec()],
        edges: vec![(1, 2), (2, 3), (3, 2)],
        paths: vec![vec![1, 2, 3]],
    };
    let anchors = vec![
        Anchor {
            v: 1,
            x: 1,
            c: 1,
            length: 1,
            weight: 1,
        },
        Anchor {
            v: 2,
            x: most - 2,
            c: MOST_READ_LETTERS,
            length: 1,
            weight: 1,
        },
    ];
    (
        graph,
        Anchors {
            read: vec![b'A'; MOST_READ_LETTERS as usize],
            anchors,
        },
    )
}

/// 2,048 anchors of the greatest weight without a gap: the greatest score.
pub fn greatest_score() -> (Graph, Anchors) {
    let label = vec![b'C'; MOST_ANCHORS as usize];
    let anchors = (1..=MOST_ANCHORS)
        .map(|x| Anchor {
            v: 1,
            x,
            c: x,
            length: 1,
            weight: MOST_WEIGHT,
        })
        .collect();
    let graph = Graph {
        labels: vec![label.clone()],
        edges: vec![],
        paths: vec![vec![1]],
    };
    (
        graph,
        Anchors {
            read: label,
            anchors,
        },
    )
}

/// A long read over a graph of one vertex whose label has 32,768 letters, and
/// 2,048 anchors.
pub fn one_long_label(prng: &mut Prng) -> (Graph, Anchors) {
    let label: Vec<u8> = (0..MOST_LABEL_LETTERS)
        .map(|_| prng.pick(b"ACGT"))
        .collect();
    let mut anchors = Vec::new();
    for k in 0..MOST_ANCHORS {
        let x = 16 * k + 1;
        let length = prng.between(1, 16) as u32;
        anchors.push(Anchor {
            v: 1,
            x,
            c: x,
            length,
            weight: prng.between(1, 40) as u32,
        });
    }
    let graph = Graph {
        labels: vec![label.clone()],
        edges: vec![],
        paths: vec![vec![1]],
    };
    (
        graph,
        Anchors {
            read: label,
            anchors,
        },
    )
}
