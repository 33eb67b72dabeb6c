//! How document 01 is read where its words leave a choice, as far as it can be
//! tried out.

use second::anchor_file::{Anchor, Anchors};
use second::answer::Refusal;
use second::generator::*;
use second::graph_file::{read_graph, Graph};
use second::hand;
use second::judge::{judge, judge_graph};
use second::limits::*;
use second::listing::{listing, listing_of_folder};
use second::number::{read_number, write_number, Fault};
use second::prng::Prng;
use second::tokens::{anchor_file_bytes, graph_file_bytes};
use second::view::{letters_of_anchor, part, Part, EMPTY};
use second::writers::*;

/// Number and place of a graph file's refusal; (0, 0) if it is accepted.
fn graph_answer(bytes: &[u8]) -> (u32, u64) {
    match read_graph(bytes) {
        Ok(_) => (0, 0),
        Err(Fault { number, place }) => (number, place),
    }
}

/// Number and place of an anchor file's refusal over G1.
fn anchor_answer(bytes: &[u8]) -> (u32, u64) {
    match judge(&hand::G1, bytes) {
        Ok(_) => (0, 0),
        Err(refusal) => {
            assert_eq!(refusal.file, 2);
            (refusal.number, refusal.place)
        }
    }
}

/// The bytes of numbers one after another.
fn numbers(list: &[u32]) -> Vec<u8> {
    list.iter()
        .flat_map(|&number| write_number(number))
        .collect()
}

#[test]
fn r01_all_labels_together() {
    // The first label takes all 32,768 letters; the second length is over.
    let mut bytes = numbers(&[1, 2, 32_768]);
    bytes.extend(vec![b'A'; 32_768]);
    let place = bytes.len() as u64;
    bytes.extend([1, b'x']);
    assert_eq!(graph_answer(&bytes), (4, place));
    // Before any of that label's letters is looked at.
    assert_eq!(
        graph_answer(&[1, 2, 1, b'A', 0x80, 0x80, 0x02, b'x']),
        (4, 4)
    );
    assert_eq!(
        graph_answer(&[1, 2, 1, b'A', 0xFF, 0xFF, 0x01, b'x']),
        (5, 7)
    );
    assert_eq!(graph_answer(&[1, 1, 0]), (4, 2));
}

#[test]
fn r02_letters_one_by_one() {
    assert_eq!(graph_answer(&[1, 1, 5, b'A', b'B']), (5, 4));
    assert_eq!(graph_answer(&[1, 1, 5, b'A', b'A']), (1, 5));
    assert_eq!(anchor_answer(&[2, 9, b'A', b'a']), (5, 3));
    assert_eq!(anchor_answer(&[2, 9, b'A', b'C']), (1, 4));
}

#[test]
fn r03_numbers() {
    for fifth in 0..=255u8 {
        let expected = if (1..=15).contains(&fifth) {
            Ok((u32::from(fifth) << 28, 5))
        } else {
            Err(Fault {
                number: 2,
                place: 0,
            })
        };
        assert_eq!(read_number(&[0x80, 0x80, 0x80, 0x80, fifth], 0), expected);
    }
    for length in 0..=4 {
        let end = Err(Fault {
            number: 1,
            place: length as u64,
        });
        assert_eq!(read_number(&vec![0x80; length], 0), end);
    }
    assert_eq!(
        read_number(&[1, 2], 2),
        Err(Fault {
            number: 1,
            place: 2
        })
    );
    assert_eq!(
        read_number(&[1, 2], 3),
        Err(Fault {
            number: 1,
            place: 2
        })
    );
    // The range follows: 2 and 1 come before 4.
    assert_eq!(graph_answer(&[1, 0x80, 0x00]), (2, 1));
    assert_eq!(graph_answer(&[1, 0xFF, 0xFF]), (1, 3));
    assert_eq!(graph_answer(&[1, 0xFF, 0x7F]), (4, 1));
}

#[test]
fn r04_the_kind_is_a_number_like_any_other() {
    assert_eq!(graph_answer(&[0x81, 0x00]), (2, 0));
    assert_eq!(graph_answer(&[0x81]), (1, 1));
    assert_eq!(graph_answer(&[0x81, 0x01]), (3, 0));
    assert_eq!(graph_answer(&[2]), (3, 0));
    assert_eq!(anchor_answer(&[0x82, 0x00]), (2, 0));
    assert_eq!(anchor_answer(&[1]), (3, 0));
}

#[test]
fn r05_edges_and_anchors_are_read_whole() {
    let two = [1, 2, 1, b'A', 1, b'C', 1];
    let with = |rest: &[u8]| graph_answer(&[&two[..], rest].concat());
    assert_eq!(with(&[0, 1, 1]), (6, 7));
    assert_eq!(with(&[1, 3, 1]), (6, 7));
    assert_eq!(with(&[0, 0x80, 0x00]), (2, 8));
    assert_eq!(with(&[0, 0x80]), (1, 9));
    // An anchor's five numbers.
    let start = [2, 2, b'A', b'C', 1];
    let with = |rest: &[u8]| anchor_answer(&[&start[..], rest].concat());
    assert_eq!(with(&[9, 1, 1, 1, 1]), (6, 5));
    assert_eq!(with(&[9, 1, 1, 1, 0x80, 0x00]), (2, 9));
    assert_eq!(with(&[9, 1, 1, 1]), (1, 9));
    // 6, 11, 4, 12, 7, each with all the later ones there too.
    assert_eq!(with(&[9, 0, 0, 0, 0]), (6, 5));
    assert_eq!(with(&[1, 1, 1, 0, 0]), (11, 5));
    assert_eq!(with(&[1, 1, 2, 1, 0]), (4, 9));
    assert_eq!(with(&[1, 1, 2, 1, 1]), (12, 5));
    let start = [2, 2, b'A', b'C', 2, 1, 2, 2, 1, 1];
    let with = |rest: &[u8]| anchor_answer(&[&start[..], rest].concat());
    assert_eq!(with(&[1, 1, 2, 1, 1]), (12, 10));
    assert_eq!(with(&[1, 1, 1, 1, 0x80, 0x80, 0x04]), (4, 14));
    assert_eq!(with(&[1, 1, 1, 1, 1]), (7, 10));
}

#[test]
fn r06_rising_against_the_entry_just_before() {
    let two = [1, 2, 1, b'A', 1, b'C', 2];
    let with = |rest: &[u8]| graph_answer(&[&two[..], rest].concat());
    assert_eq!(with(&[1, 2, 1, 2]), (7, 9));
    assert_eq!(with(&[1, 2, 1, 1]), (7, 9));
    assert_eq!(with(&[2, 1, 1, 2]), (7, 9));
    assert_eq!(with(&[1, 2, 2, 1, 1, 2, 1, 2]), (0, 0));
    // A path starts anew: its first vertex has neither 7 nor 8.
    assert_eq!(with(&[1, 2, 2, 1, 2, 2, 1, 2, 1, 1]), (0, 0));
    assert_eq!(with(&[1, 2, 2, 1, 1, 2, 2, 1]), (7, 14));
    assert_eq!(with(&[1, 2, 2, 1, 1, 2, 1, 1]), (7, 14));
    assert_eq!(with(&[1, 1, 2, 2, 1, 2, 1, 2]), (8, 14));
    // The weight is no part of an anchor's order.
    let same = [2, 2, b'A', b'C', 2, 1, 1, 1, 1, 1, 1, 1, 1, 1, 2];
    assert_eq!(anchor_answer(&same), (7, 10));
    // By y before c.
    let by_y = [
        2, 4, b'A', b'C', b'A', b'C', 2, 1, 1, 3, 1, 1, 1, 1, 1, 2, 1,
    ];
    assert_eq!(anchor_answer(&by_y), (0, 0));
}

#[test]
fn r07_paths() {
    assert_eq!(graph_answer(&[1, 1, 1, b'A', 0, 1, 2, 1, 1]), (4, 6));
    assert_eq!(graph_answer(&[1, 1, 1, b'A', 0, 1, 0]), (4, 6));
    // Equal paths, and K above n.
    assert_eq!(
        graph_answer(&[1, 1, 1, b'A', 0, 3, 1, 1, 1, 1, 1, 1]),
        (0, 0)
    );
    assert_eq!(graph_answer(&[1, 1, 1, b'A', 0, 17]), (4, 5));
    let sixteen = [&[1, 1, 1, b'A', 0, 16][..], &[1; 32]].concat();
    assert_eq!(graph_answer(&sixteen), (0, 0));
    // A path's vertex: the place is that vertex's.
    assert_eq!(graph_answer(&[1, 1, 1, b'A', 0, 1, 1, 2]), (6, 7));
    assert_eq!(graph_answer(&[1, 1, 1, b'A', 0, 1, 1, 0]), (6, 7));
}

#[test]
fn r08_true_sums() {
    let start = [2, 2, b'A', b'C', 1];
    let most = u32::MAX;
    for anchor in [
        [1, 2, 1, most, 1],
        [1, most, 1, 2, 1],
        [1, 1, most, 2, 1],
        [1, most, most, 2, 1],
        [1, 1, 1, most, 1],
        [1, 3, 1, 1, 1],
        [1, 1, 3, 1, 1],
        [1, 0, 1, 1, 1],
        [1, 1, 0, 1, 1],
        [1, 1, 1, 0, 1],
        [1, 1, 1, 3, 1],
    ] {
        assert_eq!(
            anchor_answer(&[&start[..], &numbers(&anchor)].concat()),
            (11, 5)
        );
    }
}

#[test]
fn r09_a_vertex_on_no_path() {
    let two = [1, 2, 1, b'A', 1, b'C', 0, 1, 1];
    assert_eq!(graph_answer(&[&two[..], &[1]].concat()), (9, 10));
    assert_eq!(graph_answer(&[&two[..], &[1, 7, 7]].concat()), (9, 10));
    assert_eq!(graph_answer(&[&two[..], &[2]].concat()), (9, 10));
}

#[test]
fn r10_file_too_long_in_its_turn() {
    let long = vec![9; FILE_BYTES + 1];
    let place = FILE_BYTES as u64;
    let answer = |graph: &[u8], anchors: &[u8]| judge(graph, anchors).err();
    assert_eq!(answer(&long, &long), Some(Refusal::new(4, 1, place)));
    assert_eq!(answer(&hand::G1[..5], &long), Some(Refusal::new(1, 1, 5)));
    assert_eq!(answer(&hand::G1, &long), Some(Refusal::new(4, 2, place)));
    assert_eq!(answer(&hand::G1, &long[1..]), Some(Refusal::new(3, 2, 0)));
}

#[test]
fn r11_the_writers_at_65536() {
    let exact = GraphContent::of(&graph_of_file_length(FILE_BYTES));
    let bytes = write_graph(&exact, FILE_BYTES).expect("written");
    assert_eq!(bytes.len(), FILE_BYTES);
    assert_eq!(graph_answer(&bytes), (0, 0));
    assert_eq!(
        write_graph(&exact, FILE_BYTES - 1),
        Err(Refusal::new(14, 0, 0))
    );
    let over = GraphContent::of(&graph_of_file_length(FILE_BYTES + 1));
    for room in [0, FILE_BYTES + 1] {
        assert_eq!(write_graph(&over, room), Err(Refusal::new(4, 1, 65_536)));
    }
    // Every limit at once is content without fault, and too long.
    let all = GraphContent::of(&all_limits());
    assert_eq!((all.n, all.m, all.k), (1_024, 4_096, 16));
    assert_eq!(graph_file_bytes(&all_limits()).len(), 80_313);
    assert_eq!(
        write_graph(&all, 1_000_000),
        Err(Refusal::new(4, 1, 65_536))
    );
    // A fault of the content comes before the length.
    let mut faulty = all.clone();
    faulty.paths[PATHS_SIZE - 1] = 1_025;
    assert_eq!(write_graph(&faulty, 1_000_000), Err(Refusal::new(6, 1, 0)));
    // No anchor content is longer than 61,446 bytes: the most for each part.
    assert_eq!(1 + 3 + 32_768 + 2 + 2_048 * (2 + 3 + 3 + 3 + 3), 61_446);
}

#[test]
fn r12_faults_of_content() {
    let good = GraphContent::of(&hand::g2());
    let file = graph_file_bytes(&hand::g2());
    assert_eq!(write_graph(&good, file.len()).as_deref(), Ok(&file[..]));
    let answer = |change: &dyn Fn(&mut GraphContent)| {
        let mut content = good.clone();
        change(&mut content);
        match write_graph(&content, 10_000) {
            Ok(_) => (0, 0, 0),
            Err(refusal) => (refusal.number, refusal.file, refusal.place),
        }
    };
    assert_eq!(answer(&|c| c.n = 0), (4, 1, 0));
    assert_eq!(answer(&|c| c.n = 5_000), (4, 1, 0));
    assert_eq!(answer(&|c| c.n = 4), (4, 1, 0)); // a label length 0
    assert_eq!(answer(&|c| c.lengths[0] = 32_769), (4, 1, 0));
    assert_eq!(answer(&|c| c.lengths[2] = u32::MAX), (4, 1, 0));
    assert_eq!(answer(&|c| c.lengths[2] = 2), (5, 1, 0)); // the letter there is 0
    assert_eq!(answer(&|c| c.letters[3] = b'g'), (5, 1, 0));
    assert_eq!(answer(&|c| c.letters[4] = b'g'), (0, 0, 0)); // not used
    assert_eq!(answer(&|c| c.m = 4_097), (4, 1, 0));
    assert_eq!(answer(&|c| c.m = 4), (6, 1, 0));
    assert_eq!(answer(&|c| c.edges[1] = 4), (6, 1, 0));
    assert_eq!(answer(&|c| c.edges[2] = 1), (8, 1, 0)); // 1-2, 1-3, 3-2
    assert_eq!(answer(&|c| c.edges[4] = 2), (7, 1, 0)); // 2-3 then 2-2
    assert_eq!(answer(&|c| c.k = 0), (4, 1, 0));
    assert_eq!(answer(&|c| c.k = 17), (4, 1, 0));
    assert_eq!(answer(&|c| c.k = 2), (4, 1, 0)); // a path of no vertex
    assert_eq!(answer(&|c| c.counts[0] = 4), (4, 1, 0));
    assert_eq!(answer(&|c| c.counts[0] = 2), (9, 1, 0));
    assert_eq!(answer(&|c| c.paths[1] = 9), (6, 1, 0));
    assert_eq!(answer(&|c| c.paths[1] = 1), (7, 1, 0));
    assert_eq!(answer(&|c| c.paths[1] = 3), (8, 1, 0)); // 1-3 is no edge
    assert_eq!(answer(&|c| c.paths[3] = u32::MAX), (0, 0, 0)); // not used
                                                               // Labels come before m, edges before K.
    assert_eq!(answer(&|c| (c.letters[0], c.m) = (0, u32::MAX)), (5, 1, 0));
    assert_eq!(answer(&|c| (c.edges[0], c.k) = (9, 0)), (6, 1, 0));
    // 13 before everything, for each buffer; more than full size is well.
    assert_eq!(
        answer(&|c| (c.n, c.letters) = (0, vec![0; LETTERS_SIZE - 1])),
        (13, 0, 0)
    );
    assert_eq!(
        answer(&|c| c.lengths.truncate(LENGTHS_SIZE - 1)),
        (13, 0, 0)
    );
    assert_eq!(answer(&|c| c.edges.truncate(EDGES_SIZE - 1)), (13, 0, 0));
    assert_eq!(answer(&|c| c.paths.truncate(PATHS_SIZE - 1)), (13, 0, 0));
    assert_eq!(answer(&|c| c.counts.truncate(COUNTS_SIZE - 1)), (13, 0, 0));
    assert_eq!(answer(&|c| c.counts.push(7)), (0, 0, 0));
    // 14 last.
    assert_eq!(
        write_graph(&good, file.len() - 1),
        Err(Refusal::new(14, 0, 0))
    );
    assert_eq!(
        write_graph(&GraphContent { n: 0, ..good }, 0),
        Err(Refusal::new(4, 1, 0))
    );
}

#[test]
fn r12_faults_of_anchor_content() {
    let graph_file = graph_file_bytes(&hand::g2());
    let content = hand::anchors(
        "CCGCC",
        &[[2, 1, 1, 2, 2], [2, 1, 4, 2, 2], [3, 1, 3, 1, 1]],
    );
    let good = AnchorContent::of(&content);
    let file = anchor_file_bytes(&content);
    let written = write_anchors(&good, &graph_file, file.len());
    assert_eq!(written.as_deref(), Ok(&file[..]));
    let answer = |change: &dyn Fn(&mut AnchorContent)| {
        let mut content = good.clone();
        change(&mut content);
        match write_anchors(&content, &graph_file, 10_000) {
            Ok(_) => (0, 0, 0),
            Err(refusal) => (refusal.number, refusal.file, refusal.place),
        }
    };
    assert_eq!(answer(&|c| c.r = 0), (4, 2, 0));
    assert_eq!(answer(&|c| c.r = 32_769), (4, 2, 0));
    assert_eq!(answer(&|c| c.r = 6), (5, 2, 0));
    assert_eq!(answer(&|c| c.r = 4), (11, 2, 0));
    assert_eq!(answer(&|c| c.letters[4] = b'T'), (12, 2, 0));
    assert_eq!(answer(&|c| c.count = 2_049), (4, 2, 0));
    assert_eq!(answer(&|c| c.count = 4), (6, 2, 0)); // an anchor of zeros
    assert_eq!(answer(&|c| c.count = 0), (0, 0, 0));
    assert_eq!(answer(&|c| c.anchors[0] = 4), (6, 2, 0));
    assert_eq!(answer(&|c| c.anchors[1] = 0), (11, 2, 0));
    assert_eq!(answer(&|c| c.anchors[3] = u32::MAX), (11, 2, 0));
    assert_eq!(answer(&|c| c.anchors[4] = 0), (4, 2, 0));
    assert_eq!(answer(&|c| c.anchors[4] = 65_536), (4, 2, 0));
    assert_eq!(answer(&|c| c.anchors[7] = 1), (7, 2, 0));
    // The graph file right after 13, with its own place; then the content.
    let mut bad = AnchorContent {
        r: 0,
        ..good.clone()
    };
    assert_eq!(
        write_anchors(&bad, &graph_file[..4], 0),
        Err(Refusal::new(1, 1, 4))
    );
    assert_eq!(
        write_anchors(&bad, &graph_file, 0),
        Err(Refusal::new(4, 2, 0))
    );
    let long = vec![0; FILE_BYTES + 1];
    assert_eq!(
        write_anchors(&bad, &long, 0),
        Err(Refusal::new(4, 1, 65_536))
    );
    bad.anchors.truncate(ANCHORS_SIZE - 1);
    assert_eq!(write_anchors(&bad, &[], 0), Err(Refusal::new(13, 0, 0)));
    bad = good.clone();
    bad.letters.truncate(LETTERS_SIZE - 1);
    assert_eq!(write_anchors(&bad, &[], 0), Err(Refusal::new(13, 0, 0)));
    let short = write_anchors(&good, &graph_file, file.len() - 1);
    assert_eq!(short, Err(Refusal::new(14, 0, 0)));
}

#[test]
fn r13_every_proper_prefix() {
    for (graph, anchors) in hand::pairs() {
        for length in 0..graph.len() {
            assert_eq!(graph_answer(&graph[..length]), (1, length as u64));
        }
        for length in 0..anchors.len() {
            let answer = judge(&graph, &anchors[..length]).err();
            assert_eq!(answer, Some(Refusal::new(1, 2, length as u64)));
        }
    }
}

#[test]
fn r14_r15_rounds() {
    // n rounds on the two-way path, the most there can be.
    for n in [1, 2, 3, 4, 10, 100, 1_024] {
        let graph = two_way_path(n, b"AC");
        let results = judge_graph(&graph_file_bytes(&graph)).expect("accepted");
        assert_eq!(results.tables.reach_rounds, n);
        assert_eq!(results.tables.distance_rounds, n);
        assert_eq!(results.tables.reach[0], [n]);
        assert_eq!(results.tables.distance[0], [2 * (n - 1)]);
    }
    // Cells with reach 0 over an edge: no distance is known, they end as 0.
    let graph = hand::graph(&["A", "C", "G"], &[(1, 2)], &[&[1, 2], &[3]]);
    let results = judge_graph(&graph_file_bytes(&graph)).expect("accepted");
    assert_eq!(results.tables.reach, [[1, 0], [2, 0], [0, 1]]);
    assert_eq!(results.tables.distance, [[0, 0], [0, 0], [0, 0]]);
    assert_eq!(
        (results.tables.reach_rounds, results.tables.distance_rounds),
        (1, 1)
    );
}

fn chain_of(graph: &Graph, anchors: &Anchors) -> (i64, u32, Vec<u32>) {
    let results = judge(&graph_file_bytes(graph), &anchor_file_bytes(anchors));
    let chaining = results.expect("accepted").chaining;
    (chaining.score, chaining.rounds, chaining.chain)
}

#[test]
fn r16_first_case_also_with_a_closed_walk() {
    let graph = hand::graph(&["AAAAA"], &[(1, 1)], &[&[1]]);
    let anchors = hand::anchors("AAAAA", &[[1, 1, 1, 1, 5], [1, 3, 3, 1, 5]]);
    // One letter between on both: 10 less 2.
    assert_eq!(chain_of(&graph, &anchors), (8, 2, vec![1, 2]));
}

#[test]
fn r17_stop_where_the_score_is_the_weight() {
    // The first anchor gives the second exactly its weight: 2 + 3 - 1 - 1.
    let graph = hand::graph(&["AAAAA"], &[], &[&[1]]);
    let anchors = hand::anchors("AAAAA", &[[1, 1, 1, 1, 2], [1, 3, 3, 1, 3]]);
    assert_eq!(chain_of(&graph, &anchors), (3, 1, vec![2]));
}

#[test]
fn r18_lowest_numbered_that_gives_the_score() {
    // Two equal first halves, on vertices 1 and 2; both give the third's score.
    let graph = hand::graph(&["A", "A", "C"], &[(1, 3), (2, 3)], &[&[1, 3], &[2, 3]]);
    let anchors = hand::anchors("AC", &[[1, 1, 1, 1, 1], [2, 1, 1, 1, 1], [3, 1, 2, 1, 1]]);
    assert_eq!(chain_of(&graph, &anchors), (2, 2, vec![1, 3]));
    // Of equal ends the lowest-numbered.
    let graph = hand::graph(&["A", "C", "C"], &[(1, 2), (1, 3)], &[&[1, 2], &[1, 3]]);
    let anchors = hand::anchors("AC", &[[1, 1, 1, 1, 1], [2, 1, 2, 1, 1], [3, 1, 2, 1, 1]]);
    assert_eq!(chain_of(&graph, &anchors), (2, 2, vec![1, 2]));
}

#[test]
fn r19_bounds() {
    // N rounds of the sweep.
    for (count, weight) in [(1, 1), (2, 3), (7, 20), (200, 300)] {
        let (graph, anchors) = falling_anchors(count, weight);
        let (score, rounds, chain) = chain_of(&graph, &anchors);
        let gaps = i64::from(count - 1) * (i64::from(count) - 2);
        assert_eq!(score, i64::from(count * weight) - gaps);
        assert_eq!(rounds, count);
        assert_eq!(chain, (1..=count).rev().collect::<Vec<u32>>());
    }
    // The greatest score.
    let (graph, anchors) = greatest_score();
    assert_eq!(chain_of(&graph, &anchors).0, 134_215_680);
    // Far below zero: the score is the weight.
    let (graph, anchors) = far_apart();
    assert_eq!(chain_of(&graph, &anchors), (1, 1, vec![1]));
    // One label of 32,768 letters with 2,048 anchors.
    let (graph, anchors) = one_long_label(&mut Prng::new(5));
    assert_eq!(graph.letters(), 32_768);
    assert_eq!(anchors.anchors.len(), 2_048);
    chain_of(&graph, &anchors);
}

#[test]
fn r20_listing_without_anchors() {
    let text = listing(Some(&hand::G1), Some(&[2, 1, b'A', 0]));
    assert_eq!(text, "anchors 0 score 0 rounds 0\n");
    let text = listing(Some(&hand::G1[..30]), Some(&[]));
    assert_eq!(text, "refused 1 file 1 place 30\n");
    let text = listing(Some(&hand::G1), Some(&[2, 1, b'A', 0, 0]));
    assert_eq!(text, "refused 10 file 2 place 4\n");
}

#[test]
fn r21_files_that_cannot_be_read() {
    assert_eq!(listing(None, None), "no file 1\n");
    assert_eq!(listing(None, Some(&[])), "no file 1\n");
    assert_eq!(listing(Some(&[]), None), "no file 2\n");
    // In a folder of its own, a folder under a file's name too.
    let name = format!("second-listing-{}", std::process::id());
    let folder = std::env::temp_dir().join(name);
    std::fs::create_dir_all(folder.join("graph.bin")).unwrap();
    assert_eq!(listing_of_folder(&folder), "no file 1\n");
    std::fs::remove_dir(folder.join("graph.bin")).unwrap();
    assert_eq!(listing_of_folder(&folder), "no file 1\n");
    std::fs::write(folder.join("graph.bin"), [9]).unwrap();
    assert_eq!(listing_of_folder(&folder), "no file 2\n");
    std::fs::create_dir_all(folder.join("anchors.bin")).unwrap();
    assert_eq!(listing_of_folder(&folder), "no file 2\n");
    std::fs::remove_dir(folder.join("anchors.bin")).unwrap();
    std::fs::write(folder.join("anchors.bin"), hand::G1_ANCHORS).unwrap();
    assert_eq!(listing_of_folder(&folder), "refused 3 file 1 place 0\n");
    std::fs::write(folder.join("graph.bin"), hand::G1).unwrap();
    let text = listing(Some(&hand::G1), Some(&hand::G1_ANCHORS));
    assert_eq!(listing_of_folder(&folder), text);
    std::fs::remove_dir_all(folder).unwrap();
}

#[test]
fn letters_of_an_anchor() {
    let (graph, anchors) = (&hand::G1[..], &hand::G1_ANCHORS[..]);
    let view = |number, named| letters_of_anchor(graph, anchors, number, named);
    assert_eq!(
        view(1, 1),
        Part {
            file: 1,
            start: 3,
            length: 2
        }
    );
    assert_eq!(
        view(2, 1),
        Part {
            file: 1,
            start: 8,
            length: 2
        }
    );
    assert_eq!(
        view(3, 2),
        Part {
            file: 2,
            start: 6,
            length: 2
        }
    );
    assert_eq!(part(graph, anchors, view(2, 1)), b"TT");
    assert_eq!(part(graph, anchors, view(2, 2)), b"TT");
    for (number, named) in [(0, 1), (4, 1), (u32::MAX, 2), (1, 0), (1, 3), (1, u32::MAX)] {
        assert_eq!(view(number, named), EMPTY);
    }
    assert_eq!(letters_of_anchor(&graph[..30], anchors, 1, 2), EMPTY);
    assert_eq!(letters_of_anchor(graph, &anchors[..23], 1, 1), EMPTY);
}

#[test]
fn the_order_of_anchors() {
    let anchor = Anchor {
        v: 3,
        x: 5,
        c: 7,
        length: 2,
        weight: 9,
    };
    assert_eq!((anchor.y(), anchor.d()), (6, 8));
    assert_eq!(anchor.order(), (3, 5, 6, 7));
}
