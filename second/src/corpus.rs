//! The cases and what is expected of them. The formats are in README.md.

use std::collections::BTreeMap;

use crate::damage::*;
use crate::generator::*;
use crate::hand;
use crate::judge::{line_of_both, line_of_graph};
use crate::limits::*;
use crate::prng::Prng;
use crate::tokens::{anchor_file_bytes, graph_file_bytes};

/// Kind 1: both files and all results. Kind 2: the graph file only.
#[derive(Clone, Debug)]
pub struct Case {
    pub kind: u8,
    pub graph: Vec<u8>,
    pub anchors: Vec<u8>,
}

impl Case {
    pub fn both(graph: Vec<u8>, anchors: Vec<u8>) -> Case {
        Case {
            kind: 1,
            graph,
            anchors,
        }
    }

    pub fn graph_only(graph: Vec<u8>) -> Case {
        Case {
            kind: 2,
            graph,
            anchors: Vec::new(),
        }
    }

    /// The expected line.
    pub fn line(&self) -> String {
        if self.kind == 1 {
            line_of_both(&self.graph, &self.anchors)
        } else {
            line_of_graph(&self.graph)
        }
    }
}

/// The cases that are the same for every seed.
pub fn fixed_cases() -> Vec<Case> {
    let mut cases = Vec::new();

    // The cases checked by hand.
    for (graph, anchors) in hand::pairs() {
        cases.push(Case::both(graph, anchors));
    }
    for graph in hand::graph_files() {
        cases.push(Case::graph_only(graph));
    }

    // Truncations of small files at every place, and one byte more.
    for graph in [hand::G1.to_vec(), graph_file_bytes(&hand::g2())] {
        for length in 0..graph.len() {
            cases.push(Case::graph_only(graph[..length].to_vec()));
        }
        cases.push(Case::graph_only([&graph[..], &[0]].concat()));
    }
    for (graph, anchors) in [&hand::pairs()[0], &hand::pairs()[3]] {
        for length in 0..anchors.len() {
            cases.push(Case::both(graph.clone(), anchors[..length].to_vec()));
        }
        cases.push(Case::both(graph.clone(), [&anchors[..], &[0]].concat()));
    }

    // Both files empty; either file empty; the files the wrong way round.
    cases.push(Case::both(vec![], vec![]));
    cases.push(Case::both(hand::G1.to_vec(), vec![]));
    cases.push(Case::both(vec![], hand::G1_ANCHORS.to_vec()));
    cases.push(Case::both(hand::G1_ANCHORS.to_vec(), hand::G1.to_vec()));
    cases.push(Case::both(hand::G1.to_vec(), hand::G1.to_vec()));

    // Numbers too long as the first number of either file.
    for spoiled in [
        &[0x81, 0x00][..],
        &[0x80, 0x80, 0x80, 0x80, 0x10],
        &[0x80, 0x80, 0x80, 0x80],
    ] {
        cases.push(Case::graph_only(spoiled.to_vec()));
        cases.push(Case::both(hand::G1.to_vec(), spoiled.to_vec()));
    }

    // Files of 65,536 and 65,537 bytes, good and bad.
    cases.push(Case::graph_only(graph_file_bytes(&graph_of_file_length(
        FILE_BYTES,
    ))));
    cases.push(Case::graph_only(graph_file_bytes(&graph_of_file_length(
        FILE_BYTES + 1,
    ))));
    for length in [FILE_BYTES, FILE_BYTES + 1] {
        cases.push(Case::graph_only(padded(&hand::G1, length, 0)));
        cases.push(Case::both(
            hand::G1.to_vec(),
            padded(&hand::G1_ANCHORS, length, 0),
        ));
    }
    cases.push(Case::both(
        hand::G1[..30].to_vec(),
        padded(&hand::G1_ANCHORS, FILE_BYTES + 1, 1),
    ));

    // The two-way path: the tables take n rounds.
    for n in [1, 2, 3, 10, 127, 128, MOST_VERTICES] {
        let mut prng = Prng::new(u64::from(n));
        let graph = two_way_path(n, if n % 2 == 0 { b"A" } else { b"ACG" });
        let size = if n < 100 { Size::Small } else { Size::Medium };
        let anchors = random_anchors(&mut prng, &graph, size);
        cases.push(Case::both(
            graph_file_bytes(&graph),
            anchor_file_bytes(&anchors),
        ));
    }

    // x falling as c rises: the sweep takes N rounds, or one where the weight
    // does not pay for the loop.
    for (count, weight) in [
        (1, 1),
        (2, 3),
        (3, 3),
        (10, 9),
        (10, 8),
        (100, 150),
        (2_048, 3_000),
    ] {
        let (graph, anchors) = falling_anchors(count, weight);
        cases.push(Case::both(
            graph_file_bytes(&graph),
            anchor_file_bytes(&anchors),
        ));
    }

    // One label of 32,768 letters, read whole, with 2,048 anchors.
    let (graph, anchors) = one_long_label(&mut Prng::new(1));
    cases.push(Case::both(
        graph_file_bytes(&graph),
        anchor_file_bytes(&anchors),
    ));

    // The least candidate or nearly so, and the greatest score.
    for (graph, anchors) in [far_apart(), greatest_score()] {
        cases.push(Case::both(
            graph_file_bytes(&graph),
            anchor_file_bytes(&anchors),
        ));
    }

    // Sixteen paths through 1,024 vertices, with anchors.
    let graph = sixteen_long_paths(3_000);
    let anchors = random_anchors(&mut Prng::new(2), &graph, Size::Large);
    cases.push(Case::both(
        graph_file_bytes(&graph),
        anchor_file_bytes(&anchors),
    ));

    cases
}

/// One random case.
pub fn random_case(prng: &mut Prng) -> Case {
    let size = match prng.below(1_000) {
        0..=9 => Size::Large,
        10..=99 => Size::Medium,
        _ => Size::Small,
    };
    if prng.chance(2) {
        // x falling as c rises, the weight about what the loop costs.
        let count = prng.between(1, 14) as u32;
        let weight = prng.between(1, 2 * count as usize) as u32;
        let (graph, anchors) = falling_anchors(count, weight);
        return Case::both(graph_file_bytes(&graph), anchor_file_bytes(&anchors));
    }
    let graph = if prng.chance(2) {
        two_way_path(
            prng.between(2, 12) as u32,
            prng.pick(&[&b"A"[..], b"AC", b"CCG"]),
        )
    } else {
        random_graph(prng, size)
    };
    let graph_bytes = graph_file_bytes(&graph);
    let choice = prng.below(100);
    if choice < 6 {
        return Case::graph_only(graph_bytes);
    }
    if choice < 20 {
        return Case::graph_only(damaged_graph(prng, &graph));
    }
    if choice < 25 {
        return Case::graph_only(changed_bytes(prng, &graph_bytes));
    }
    if choice < 27 {
        return Case::graph_only(random_bytes(prng, 1));
    }
    let anchors = random_anchors(prng, &graph, size);
    let anchor_bytes = anchor_file_bytes(&anchors);
    match choice {
        // Both files good.
        27..=71 => Case::both(graph_bytes, anchor_bytes),
        // The anchor file damaged, changed, of another graph, or nothing.
        72..=87 => Case::both(graph_bytes, damaged_anchors(prng, &graph, &anchors)),
        88..=92 => Case::both(graph_bytes, changed_bytes(prng, &anchor_bytes)),
        93..=94 => {
            let other = random_graph(prng, Size::Small);
            Case::both(graph_file_bytes(&other), anchor_bytes)
        }
        95 => Case::both(graph_bytes, random_bytes(prng, 2)),
        // The graph file damaged, the anchor file good or not.
        96..=97 => Case::both(damaged_graph(prng, &graph), anchor_bytes),
        98 => Case::both(changed_bytes(prng, &graph_bytes), anchor_bytes),
        _ => {
            let graph_bytes = damaged_graph(prng, &graph);
            Case::both(graph_bytes, changed_bytes(prng, &anchor_bytes))
        }
    }
}

/// `count` random cases.
pub fn random_cases(seed: u64, count: usize) -> Vec<Case> {
    let mut prng = Prng::new(seed);
    (0..count).map(|_| random_case(&mut prng)).collect()
}

/// The fixed cases, then random ones, `count` in all.
pub fn corpus_cases(seed: u64, count: usize) -> Vec<Case> {
    let mut cases = fixed_cases();
    cases.truncate(count);
    let rest = count - cases.len();
    cases.extend(random_cases(seed, rest));
    cases
}

/// The cases file.
pub fn cases_file(cases: &[Case]) -> Vec<u8> {
    let mut bytes = Vec::new();
    for case in cases {
        bytes.push(case.kind);
        bytes.extend((case.graph.len() as u32).to_le_bytes());
        bytes.extend(&case.graph);
        bytes.extend((case.anchors.len() as u32).to_le_bytes());
        bytes.extend(&case.anchors);
    }
    bytes.push(0);
    bytes
}

/// The expected text, one line per case.
pub fn expected_text(cases: &[Case]) -> String {
    let mut text = String::new();
    for case in cases {
        text += &case.line();
        text.push('\n');
    }
    text
}

/// How often each kind of line comes.
pub fn summary(expected: &str) -> String {
    let mut counts: BTreeMap<(u32, u32), usize> = BTreeMap::new();
    let mut accepted = [0; 2];
    for line in expected.lines() {
        let words: Vec<&str> = line.split(' ').collect();
        if words[0] == "refused" {
            let number = words[1].parse().expect("a number");
            let file = words[3].parse().expect("a number");
            *counts.entry((file, number)).or_default() += 1;
        } else {
            accepted[usize::from(words.len() > 7)] += 1;
        }
    }
    let mut text = format!(
        "accepted: graph alone {}, both {}\n",
        accepted[0], accepted[1]
    );
    for ((file, number), count) in counts {
        text += &format!("refused {number} file {file}: {count}\n");
    }
    text
}
