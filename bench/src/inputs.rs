//! The inputs that are measured: the worst, and typical ones.

use second::anchor_file::{Anchor, Anchors};
use second::generator::{falling_anchors, random_anchors, two_way_path, Size};
use second::graph_file::Graph;
use second::prng::Prng;
use second::tokens::{anchor_file_bytes, graph_file_bytes};
use std::collections::BTreeSet;

const N: u32 = 1_024;
const FILE_BYTES: usize = 65_536;

pub struct Input {
    pub name: &'static str,
    pub graph: Vec<u8>,
    /// None where only the calls on a graph file are measured.
    pub anchors: Option<Vec<u8>>,
}

fn input(name: &'static str, graph: &Graph, anchors: Option<&Anchors>) -> Input {
    Input {
        name,
        graph: graph_file_bytes(graph),
        anchors: anchors.map(anchor_file_bytes),
    }
}

/// All inputs, the same in every run.
pub fn all() -> Vec<Input> {
    let full = full_file();
    let wide = wide_graph();
    let ladder = two_way_ladder();
    let (loop_graph, loop_anchors) = falling_anchors(512, 1_000);
    let cycles = random_graph(&mut Prng::new(5), N as usize, 8, 3_000, true);
    let cycle_anchors = random_anchors(&mut Prng::new(6), &cycles, Size::Large);
    let middle = random_graph(&mut Prng::new(7), 200, 6, 500, true);
    let middle_anchors = most_anchors(&middle, 300, 8_000);
    let forward = random_graph(&mut Prng::new(8), 400, 8, 900, false);
    let forward_anchors = most_anchors(&forward, 500, 12_000);
    let small = random_graph(&mut Prng::new(9), 20, 3, 40, true);
    let small_anchors = random_anchors(&mut Prng::new(10), &small, Size::Medium);
    vec![
        input("worst: 65,536 bytes", &full, None),
        input(
            "worst: 2,048 anchors",
            &wide,
            Some(&most_anchors(&wide, 2_048, 29_000)),
        ),
        input("worst: two-way path", &two_way_path(N, b"A"), None),
        input("worst: two-way ladder", &ladder, None),
        input("worst: a round an anchor", &loop_graph, Some(&loop_anchors)),
        input("typical: 1,024, cycles", &cycles, Some(&cycle_anchors)),
        input("typical: 400, no cycle", &forward, Some(&forward_anchors)),
        input("typical: 200, cycles", &middle, Some(&middle_anchors)),
        input("typical: 20, cycles", &small, Some(&small_anchors)),
    ]
}

fn label(prng: &mut Prng, length: usize) -> Vec<u8> {
    (0..length).map(|_| prng.pick(b"ACGT")).collect()
}

/// Adds edges between any two vertices until there are m.
fn fill_edges(prng: &mut Prng, edges: &mut BTreeSet<(u32, u32)>, m: usize) {
    while edges.len() < m {
        let u = prng.between(1, N as usize) as u32;
        let v = prng.between(1, N as usize) as u32;
        edges.insert((u, v));
    }
}

/// A file of 65,536 bytes: sixteen paths through all 1,024 vertices, 4,086
/// edges, and letters for the rest.
fn full_file() -> Graph {
    let mut prng = Prng::new(1);
    let mut edges: BTreeSet<(u32, u32)> = (1..N).map(|v| (v, v + 1)).collect();
    fill_edges(&mut prng, &mut edges, 4_086);
    let mut graph = Graph {
        labels: vec![b"A".to_vec(); N as usize],
        edges: edges.into_iter().collect(),
        paths: vec![(1..=N).collect(); 16],
    };
    let left = FILE_BYTES - graph_file_bytes(&graph).len();
    for (v, labels) in graph.labels.iter_mut().enumerate() {
        let more = left / N as usize + usize::from(v < left % N as usize);
        labels.extend(label(&mut prng, more));
    }
    assert_eq!(graph_file_bytes(&graph).len(), FILE_BYTES);
    graph
}

/// 1,024 vertices, 4,096 edges, sixteen different paths of about 900 vertices,
/// and every vertex reached from every path's end.
fn wide_graph() -> Graph {
    let mut prng = Prng::new(2);
    let mut edges: BTreeSet<(u32, u32)> = BTreeSet::new();
    for v in 1..N {
        edges.insert((v, v + 1));
    }
    for v in 1..N - 1 {
        edges.insert((v, v + 2));
    }
    edges.insert((N, 1));
    fill_edges(&mut prng, &mut edges, 4_096);
    let mut paths = vec![(1..=N).collect::<Vec<u32>>()];
    while paths.len() < 16 {
        let mut path = vec![1];
        while path[path.len() - 1] < N {
            let last = path[path.len() - 1];
            path.push((last + if prng.chance(12) { 2 } else { 1 }).min(N));
        }
        paths.push(path);
    }
    Graph {
        labels: (0..N).map(|_| label(&mut prng, 16)).collect(),
        edges: edges.into_iter().collect(),
        paths,
    }
}

/// The two-way path with more edges: v to v + 1, v + 2 and v + 3, and back by
/// one; 4,096 edges and sixteen paths. The tables take n rounds.
fn two_way_ladder() -> Graph {
    let mut edges: BTreeSet<(u32, u32)> = BTreeSet::new();
    for step in 1..=3 {
        for v in 1..=N - step {
            edges.insert((v, v + step));
        }
    }
    for v in 2..=N {
        edges.insert((v, v - 1));
    }
    edges.extend((1..=7).map(|v| (v, v)));
    assert_eq!(edges.len(), 4_096);
    Graph {
        labels: vec![b"A".to_vec(); N as usize],
        edges: edges.into_iter().collect(),
        paths: vec![(1..=N).collect(); 16],
    }
}

/// A random graph whose k paths share its vertices out, with more edges: any,
/// or forward only.
fn random_graph(prng: &mut Prng, n: usize, k: usize, more: usize, any: bool) -> Graph {
    let mut paths = vec![Vec::new(); k];
    for v in 1..=n as u32 {
        let home = prng.below(k);
        for (i, path) in paths.iter_mut().enumerate() {
            if i == home || prng.chance(15) {
                path.push(v);
            }
        }
    }
    let mut edges: BTreeSet<(u32, u32)> = BTreeSet::new();
    for path in &paths {
        edges.extend(path.windows(2).map(|pair| (pair[0], pair[1])));
    }
    for _ in 0..more {
        let u = prng.between(1, n) as u32;
        let v = prng.between(1, n) as u32;
        if edges.len() < 4_096 && (any || u < v) {
            edges.insert((u, v));
        }
    }
    let labels = (0..n)
        .map(|_| {
            let length = prng.between(4, 30);
            label(prng, length)
        })
        .collect();
    Graph {
        labels,
        edges: edges.into_iter().collect(),
        paths,
    }
}

/// So many anchors spread over all vertices of a graph, on a read that is laid
/// along random vertices: each a whole label.
fn most_anchors(graph: &Graph, count: usize, read_goal: usize) -> Anchors {
    let mut prng = Prng::new(3);
    let n = graph.labels.len();
    let mut read = Vec::new();
    let mut anchors = Vec::new();
    while anchors.len() < count {
        let v = prng.below(n);
        let label = &graph.labels[v];
        let c = if read.len() + label.len() <= read_goal {
            read.extend(label);
            read.len() + 1 - label.len()
        } else {
            // A part of an anchor that is there.
            let old: Anchor = prng.pick(&anchors);
            let cut = prng.below(old.length as usize) as u32;
            let length = prng.between(1, (old.length - cut) as usize) as u32;
            let anchor = Anchor {
                x: old.x + cut,
                c: old.c + cut,
                length,
                ..old
            };
            anchors.push(anchor);
            anchors.sort_by_key(Anchor::order);
            anchors.dedup_by_key(|anchor| anchor.order());
            continue;
        };
        anchors.push(Anchor {
            v: v as u32 + 1,
            x: 1,
            c: c as u32,
            length: label.len() as u32,
            weight: 2 * label.len() as u32,
        });
    }
    anchors.sort_by_key(Anchor::order);
    Anchors { read, anchors }
}
