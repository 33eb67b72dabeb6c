//! Self-consistency on random files.

use std::collections::BTreeMap;

use second::anchor_file::read_anchors;
use second::chains::*;
use second::corpus::{cases_file, corpus_cases, expected_text, random_cases};
use second::damage::*;
use second::generator::*;
use second::graph_file::{read_graph, read_graph_from_the_front, Graph};
use second::judge::{judge, judge_graph};
use second::limits::*;
use second::number::{read_number, write_number};
use second::prng::Prng;
use second::tables::make_tables;
use second::tokens::{anchor_file_bytes, graph_file_bytes};
use second::view::{letters_of_anchor, part, EMPTY};
use second::walks::Walks;
use second::writer_cases::{self, random_anchor_content, random_graph_content, writer_cases};
use second::writers::*;

#[test]
fn numbers_there_and_back() {
    let mut prng = Prng::new(11);
    for _ in 0..20_000 {
        let value = (prng.draw() >> prng.between(32, 63)) as u32;
        let mut bytes = write_number(value);
        let length = bytes.len();
        assert_eq!(length, (38 - (value | 1).leading_zeros() as usize) / 7);
        for cut in 0..length {
            assert_eq!(read_number(&bytes[..cut], 0).unwrap_err().number, 1);
        }
        bytes.push(prng.below(256) as u8);
        assert_eq!(read_number(&bytes, 0), Ok((value, length)));
    }
    // What is read is what would be written.
    for _ in 0..20_000 {
        let bytes: Vec<u8> = (0..6)
            .map(|_| prng.pick(&[0, 1, 15, 16, 127, 128, 129, 255]))
            .collect();
        if let Ok((value, next)) = read_number(&bytes, 0) {
            assert_eq!(write_number(value), bytes[..next]);
        }
    }
}

#[test]
fn good_files_are_accepted_and_written_again_the_same() {
    let mut prng = Prng::new(12);
    for turn in 0..600 {
        let size = if turn % 20 == 0 {
            Size::Medium
        } else {
            Size::Small
        };
        let graph = random_graph(&mut prng, size);
        let graph_bytes = graph_file_bytes(&graph);
        assert_eq!(read_graph(&graph_bytes).expect("accepted").graph, graph);
        let written = write_graph(&GraphContent::of(&graph), graph_bytes.len());
        assert_eq!(written.as_ref(), Ok(&graph_bytes));

        let anchors = random_anchors(&mut prng, &graph, size);
        let anchor_bytes = anchor_file_bytes(&anchors);
        let read = read_anchors(&graph, &anchor_bytes).expect("accepted");
        assert_eq!(read.content, anchors);
        let content = AnchorContent::of(&anchors);
        let written = write_anchors(&content, &graph_bytes, anchor_bytes.len());
        assert_eq!(written.as_ref(), Ok(&anchor_bytes));

        // Every proper prefix is refused with 1 at its own length; one byte
        // more is refused with 10 there.
        for length in 0..graph_bytes.len() {
            let fault = read_graph(&graph_bytes[..length]).unwrap_err();
            assert_eq!((fault.number, fault.place), (1, length as u64));
        }
        for length in 0..anchor_bytes.len() {
            let fault = read_anchors(&graph, &anchor_bytes[..length]).unwrap_err();
            assert_eq!((fault.number, fault.place), (1, length as u64));
        }
        let fault = read_graph(&[&graph_bytes[..], &[1]].concat()).unwrap_err();
        assert_eq!((fault.number, fault.place), (10, graph_bytes.len() as u64));
        let fault = read_anchors(&graph, &[&anchor_bytes[..], &[1]].concat()).unwrap_err();
        assert_eq!((fault.number, fault.place), (10, anchor_bytes.len() as u64));

        // The views of each anchor show the same letters in both files.
        for number in 1..=anchors.anchors.len() as u32 {
            let anchor = anchors.anchors[number as usize - 1];
            let one = letters_of_anchor(&graph_bytes, &anchor_bytes, number, 1);
            let two = letters_of_anchor(&graph_bytes, &anchor_bytes, number, 2);
            let one = part(&graph_bytes, &anchor_bytes, one);
            assert_eq!(one, part(&graph_bytes, &anchor_bytes, two));
            let label = &graph.labels[anchor.v as usize - 1];
            assert_eq!(one, &label[anchor.x as usize - 1..anchor.y() as usize]);
            assert!(!one.is_empty());
        }
        assert_eq!(letters_of_anchor(&graph_bytes, &anchor_bytes, 0, 1), EMPTY);
    }
}

/// The random files have what they are for: ties, loops, chains, rounds.
#[test]
fn results_agree_and_cover_what_they_should() {
    let mut prng = Prng::new(13);
    let mut seen: BTreeMap<&str, usize> = BTreeMap::new();
    for _ in 0..1_500 {
        let graph = random_graph(&mut prng, Size::Small);
        let anchors = random_anchors(&mut prng, &graph, Size::Small);
        // All the comparing is done within.
        let results = judge(&graph_file_bytes(&graph), &anchor_file_bytes(&anchors));
        let results = results.expect("accepted");
        let (tables, chaining) = (&results.graph.tables, &results.chaining);
        let list = &anchors.anchors;
        let walks = Walks::new(&graph);
        let steps = make_steps(&graph, list, &walks, tables);
        let mut see = |what: &'static str, is: bool| {
            *seen.entry(what).or_default() += usize::from(is);
        };
        see("no anchors", list.is_empty());
        see("chain of three", chaining.chain.len() >= 3);
        see("three rounds", chaining.rounds >= 3);
        see(
            "as many rounds as anchors",
            chaining.rounds as usize == list.len() && list.len() > 1,
        );
        let n = graph.n();
        see(
            "as many table rounds as vertices",
            tables.reach_rounds as usize == n && n > 2,
        );
        // A reach cell gets its last value when its distance is first known.
        assert!(tables.distance_rounds >= tables.reach_rounds);
        see(
            "more distance rounds",
            tables.distance_rounds > tables.reach_rounds,
        );
        see(
            "closed walk",
            tables.closed.iter().any(|&length| length > 0),
        );
        let last = graph.paths.len() - 1;
        see(
            "equal paths",
            last > 0 && graph.paths[0] == graph.paths[last],
        );
        let best = chaining
            .scores
            .iter()
            .filter(|&&score| score == chaining.score)
            .count();
        see("equal ends", best > 1);
        for (b, anchor) in list.iter().enumerate() {
            let gives = |&&(a, gaps): &&(usize, i64)| {
                candidate(chaining.scores[a], anchor.weight, gaps) == chaining.scores[b]
            };
            let givers = steps.into[b].iter().filter(gives).count();
            let at_weight = chaining.scores[b] == i64::from(anchor.weight);
            let on_chain = chaining.chain.contains(&(b as u32 + 1));
            see(
                "equal givers on the chain",
                on_chain && !at_weight && givers > 1,
            );
            see(
                "weight and giver on the chain",
                on_chain && at_weight && givers > 0,
            );
            let below = steps.into[b]
                .iter()
                .any(|&(a, gaps)| candidate(chaining.scores[a], anchor.weight, gaps) < 0);
            see("candidate below zero", below);
        }
        for pair in chaining.chain.windows(2) {
            see("back in number along the chain", pair[0] > pair[1]);
            let (a, b) = (&list[pair[0] as usize - 1], &list[pair[1] as usize - 1]);
            see("loop on one vertex", a.v == b.v && a.y() >= u64::from(b.x));
            see("same vertex, forward", a.v == b.v && a.y() < u64::from(b.x));
        }
        // A cover distance that is more than the least walk.
        let cover = second::tables::Cover::new(&graph, tables);
        let detour = (1..=graph.n())
            .any(|u| (1..=graph.n()).any(|v| u != v && cover.distance(u, v) != walks.least(u, v)));
        see("cover distance a detour", detour);
    }
    for (what, &count) in &seen {
        println!("{what}: {count}");
    }
    for (what, &count) in &seen {
        assert!(count >= 10, "{what}: only {count}");
    }
}

/// The least closed walk by going through every walk of up to n edges.
#[test]
fn closed_walks_and_least_walks_by_every_walk() {
    fn go(
        graph: &Graph,
        at: u32,
        edges: usize,
        length: u64,
        least: &mut [Option<u64>],
        one: &mut [Option<u64>],
    ) {
        let keep = |cell: &mut Option<u64>| *cell = Some(cell.map_or(length, |c| c.min(length)));
        keep(&mut least[at as usize - 1]);
        if edges > 0 {
            keep(&mut one[at as usize - 1]);
        }
        if edges == graph.n() {
            return;
        }
        for &(from, to) in &graph.edges {
            if from == at {
                go(
                    graph,
                    to,
                    edges + 1,
                    length + graph.length(at as usize),
                    least,
                    one,
                );
            }
        }
    }
    let mut prng = Prng::new(14);
    let mut done = 0;
    while done < 300 {
        let graph = random_graph(&mut prng, Size::Small);
        if graph.n() > 5 {
            continue;
        }
        done += 1;
        let walks = Walks::new(&graph);
        let tables = make_tables(&graph, &walks);
        for u in 1..=graph.n() {
            let mut least = vec![None; graph.n()];
            let mut one = vec![None; graph.n()];
            go(&graph, u as u32, 0, 0, &mut least, &mut one);
            for v in 1..=graph.n() {
                assert_eq!(walks.least(u, v), least[v - 1]);
                assert_eq!(walks.least_of_an_edge(u, v), one[v - 1]);
                assert_eq!(walks.walk_of_an_edge(u, v), one[v - 1].is_some());
            }
            assert_eq!(u64::from(tables.closed[u - 1]), one[u - 1].unwrap_or(0));
        }
    }
}

#[test]
fn medium_and_large_files() {
    let mut prng = Prng::new(15);
    for turn in 0..40 {
        let size = if turn < 36 { Size::Medium } else { Size::Large };
        let graph = random_graph(&mut prng, size);
        let anchors = random_anchors(&mut prng, &graph, size);
        let results = judge(&graph_file_bytes(&graph), &anchor_file_bytes(&anchors));
        assert!(results.is_ok());
    }
}

#[test]
fn every_refusal_number_comes() {
    let mut prng = Prng::new(16);
    let mut seen: BTreeMap<(u32, u32), usize> = BTreeMap::new();
    for turn in 0..4_000 {
        let graph = random_graph(&mut prng, Size::Small);
        let anchors = random_anchors(&mut prng, &graph, Size::Small);
        let mut graph_bytes = graph_file_bytes(&graph);
        let mut anchor_bytes = anchor_file_bytes(&anchors);
        match turn % 4 {
            0 => graph_bytes = damaged_graph(&mut prng, &graph),
            1 => graph_bytes = changed_bytes(&mut prng, &graph_bytes),
            2 => anchor_bytes = damaged_anchors(&mut prng, &graph, &anchors),
            _ => anchor_bytes = changed_bytes(&mut prng, &anchor_bytes),
        }
        match judge(&graph_bytes, &anchor_bytes) {
            // What is accepted is written again the same.
            Ok(results) => {
                let content = GraphContent::of(&results.graph.file.graph);
                assert_eq!(write_graph(&content, FILE_BYTES), Ok(graph_bytes.clone()));
                let content = AnchorContent::of(&results.anchors.content);
                let written = write_anchors(&content, &graph_bytes, FILE_BYTES);
                assert_eq!(written, Ok(anchor_bytes));
            }
            Err(refusal) => {
                *seen.entry((refusal.file, refusal.number)).or_default() += 1;
                // A place within the file, or its end; and what comes before
                // the place of a 10 is a good file.
                let bytes = if refusal.file == 1 {
                    &graph_bytes
                } else {
                    &anchor_bytes
                };
                assert!(refusal.place <= bytes.len() as u64);
                if refusal.number == 10 && refusal.file == 1 {
                    assert!(judge_graph(&bytes[..refusal.place as usize]).is_ok());
                }
                // Only 1 and 9 can have the file's length as their place.
                let at_end = refusal.place == bytes.len() as u64;
                assert_eq!(refusal.number == 1, at_end && refusal.number != 9);
            }
        }
    }
    for number in 1..=10 {
        assert!(
            seen.get(&(1, number)).copied().unwrap_or(0) >= 10,
            "file 1 number {number}"
        );
    }
    for number in [1, 2, 3, 4, 5, 6, 7, 10, 11, 12] {
        assert!(
            seen.get(&(2, number)).copied().unwrap_or(0) >= 10,
            "file 2 number {number}"
        );
    }
}

/// The bytes of content as far as the buffers have it, whatever it is.
fn loose_graph_bytes(content: &GraphContent) -> Vec<u8> {
    let mut bytes = write_number(1);
    bytes.extend(write_number(content.n));
    let mut at = 0;
    for v in 0..content.n as usize {
        if v >= content.lengths.len() {
            return bytes;
        }
        let length = content.lengths[v] as usize;
        bytes.extend(write_number(content.lengths[v]));
        for _ in 0..length {
            if at >= content.letters.len() {
                return bytes;
            }
            bytes.push(content.letters[at]);
            at += 1;
        }
    }
    bytes.extend(write_number(content.m));
    for e in 0..2 * content.m as usize {
        if e >= content.edges.len() {
            return bytes;
        }
        bytes.extend(write_number(content.edges[e]));
    }
    bytes.extend(write_number(content.k));
    for i in 0..content.k as usize {
        if i >= content.counts.len() {
            return bytes;
        }
        bytes.extend(write_number(content.counts[i]));
        for step in 0..content.counts[i] as usize {
            if 1_024 * i + step >= content.paths.len() {
                return bytes;
            }
            bytes.extend(write_number(content.paths[1_024 * i + step]));
        }
    }
    bytes
}

fn loose_anchor_bytes(content: &AnchorContent) -> Vec<u8> {
    let mut bytes = write_number(2);
    bytes.extend(write_number(content.r));
    for at in 0..content.r as usize {
        if at >= content.letters.len() {
            return bytes;
        }
        bytes.push(content.letters[at]);
    }
    bytes.extend(write_number(content.count));
    for at in 0..5 * content.count as usize {
        if at >= content.anchors.len() {
            return bytes;
        }
        bytes.extend(write_number(content.anchors[at]));
    }
    bytes
}

/// "As the reader would for that content": the reader is asked.
#[test]
fn writers_refuse_as_the_reader_would() {
    let mut prng = Prng::new(17);
    let mut seen: BTreeMap<(u32, u32), usize> = BTreeMap::new();
    for _ in 0..3_000 {
        let content = random_graph_content(&mut prng);
        let answer = write_graph(&content, FILE_BYTES);
        let (number, file) = answer
            .as_ref()
            .map_or_else(|r| (r.number, r.file), |_| (0, 0));
        *seen.entry((file, number)).or_default() += 1;
        if number == 13 {
            continue;
        }
        let loose = loose_graph_bytes(&content);
        match read_graph_from_the_front(&loose) {
            Ok(_) => assert_eq!(answer, Ok(loose)),
            Err(fault) => assert_eq!((fault.number, 1), (number, file)),
        }
    }
    for _ in 0..3_000 {
        let (content, graph_file) = random_anchor_content(&mut prng);
        let answer = write_anchors(&content, &graph_file, FILE_BYTES);
        let (number, file) = answer
            .as_ref()
            .map_or_else(|r| (r.number, r.file), |_| (0, 0));
        *seen.entry((file, number)).or_default() += 1;
        if number == 13 {
            continue;
        }
        let Ok(graph) = read_graph(&graph_file) else {
            assert_eq!(file, 1);
            continue;
        };
        let loose = loose_anchor_bytes(&content);
        match read_anchors(&graph.graph, &loose) {
            Ok(_) => assert_eq!(answer, Ok(loose)),
            Err(fault) => assert_eq!((fault.number, 2), (number, file)),
        }
    }
    for number in 4..=9 {
        assert!(
            seen.get(&(1, number)).copied().unwrap_or(0) >= 10,
            "graph writer {number}"
        );
    }
    for number in [4, 5, 6, 7, 11, 12] {
        assert!(
            seen.get(&(2, number)).copied().unwrap_or(0) >= 10,
            "anchor writer {number}"
        );
    }
}

#[test]
fn same_seed_same_bytes() {
    let one = random_cases(7, 60);
    let two = random_cases(7, 60);
    assert_eq!(cases_file(&one), cases_file(&two));
    assert_eq!(expected_text(&one), expected_text(&two));
    assert_ne!(cases_file(&one), cases_file(&random_cases(8, 60)));
    assert_eq!(corpus_cases(7, 10).len(), 10);
    let writers = || writer_cases::cases_file(&writer_cases(3, 40));
    assert_eq!(writers(), writers());
}
