//! Every case of document 01's chapter "Checked by hand", marked or not, the
//! listing example, and the slips to guard against.

use second::anchor_file::{read_anchors, Anchor};
use second::chains::*;
use second::graph_file::read_graph;
use second::hand::*;
use second::judge::*;
use second::listing::listing;
use second::number::{read_number, write_number, Fault};
use second::tables::{make_tables, Cover};
use second::tokens::{anchor_file_bytes, graph_file_bytes};
use second::walks::Walks;

fn graph_fault(bytes: &[u8]) -> (u32, u64) {
    let Err(Fault { number, place }) = read_graph(bytes) else {
        panic!("accepted");
    };
    (number, place)
}

/// The number of `graph` judged with these anchors.
fn judged(graph: &second::graph_file::Graph, anchors: &second::anchor_file::Anchors) -> Results {
    match judge(&graph_file_bytes(graph), &anchor_file_bytes(anchors)) {
        Ok(results) => results,
        Err(refusal) => panic!("{}", refusal.line()),
    }
}

#[test]
fn numbers() {
    assert_eq!(write_number(127), [0x7F]);
    assert_eq!(read_number(&[0x7F], 0), Ok((127, 1)));
    assert_eq!(write_number(128), [0x80, 0x01]);
    assert_eq!(read_number(&[0x80, 0x01], 0), Ok((128, 2)));
    assert_eq!(
        read_number(&[0x80, 0x00], 0),
        Err(Fault {
            number: 2,
            place: 0
        })
    );
    let greatest = [0xFF, 0xFF, 0xFF, 0xFF, 0x0F];
    assert_eq!(read_number(&greatest, 0), Ok((4_294_967_295, 5)));
    assert_eq!(write_number(4_294_967_295), greatest);
    let too_great = [0xFF, 0xFF, 0xFF, 0xFF, 0x10];
    assert_eq!(
        read_number(&too_great, 0),
        Err(Fault {
            number: 2,
            place: 0
        })
    );
}

#[test]
fn graph_file_cases() {
    assert_eq!(graph_fault(&[]), (1, 0));
    let file = read_graph(&ONE_VERTEX).expect("accepted");
    assert_eq!(file.graph, one_vertex(false));
    assert_eq!(graph_fault(&ONE_VERTEX[..7]), (1, 7));
    assert_eq!(graph_fault(&[&ONE_VERTEX[..], &[0]].concat()), (10, 8));
    assert_eq!(graph_fault(&[0x01, 0x01, 0x01, 0x41, 0x00, 0x00]), (4, 5));
    let on_no_path = [0x01, 0x02, 0x01, 0x41, 0x01, 0x43, 0x00, 0x01, 0x01, 0x01];
    assert_eq!(graph_fault(&on_no_path), (9, 10));
}

#[test]
fn g1_tables() {
    let results = judge_graph(&G1).expect("accepted");
    let expected = graph(
        &["AC", "G", "TT", "CA"],
        &[(1, 2), (1, 3), (2, 4), (3, 4)],
        &[&[1, 2, 4], &[1, 3, 4]],
    );
    assert_eq!(results.file.graph, expected);
    assert_eq!(graph_file_bytes(&expected), G1);
    assert_eq!(results.tables.reach, [[1, 1], [2, 1], [1, 2], [3, 3]]);
    assert_eq!(results.tables.distance, [[0, 0], [0, 2], [2, 0], [0, 0]]);
    assert_eq!(results.tables.closed, [0, 0, 0, 0]);
}

#[test]
fn g1_first_and_third_anchors_only() {
    let graph = read_graph(&G1).expect("accepted").graph;
    let walks = Walks::new(&graph);
    let tables = make_tables(&graph, &walks);
    let cover = Cover::new(&graph, &tables);
    let two = anchors("ACTTCA", &[[1, 1, 1, 2, 2], [4, 1, 5, 2, 2]]);
    let [first, third] = two.anchors[..] else {
        panic!()
    };
    // The gaps are 2 and 1, the candidate 1.
    assert!(comes_before(&first, &third, &walks));
    assert_eq!(read_gap(&first, &third), 2);
    assert_eq!(graph_gap(&first, &third, &tables, &cover), 1);
    assert_eq!(candidate(2, third.weight, 3), 1);
    // The score 2, the chain the first alone, one round.
    let results = judged(&graph, &two);
    assert_eq!(results.chaining.scores, [2, 2]);
    assert_eq!(results.chaining.score, 2);
    assert_eq!(results.chaining.chain, [1]);
    assert_eq!(results.chaining.rounds, 1);
    // With weights 1 the candidate is -1.
    assert_eq!(candidate(1, 1, 3), -1);
    let ones = anchors("ACTTCA", &[[1, 1, 1, 2, 1], [4, 1, 5, 2, 1]]);
    let results = judged(&graph, &ones);
    assert_eq!(results.chaining.scores, [1, 1]);
    assert_eq!(results.chaining.chain, [1]);
    assert_eq!(results.chaining.rounds, 1);
}

#[test]
fn g2_tables() {
    let results = judge_graph(&graph_file_bytes(&g2())).expect("accepted");
    assert_eq!(results.tables.reach, [[1], [3], [3]]);
    assert_eq!(results.tables.distance, [[0], [1], [0]]);
    assert_eq!(results.tables.closed, [0, 3, 3]);
}

#[test]
fn g2_ccgcc() {
    let three = anchors(
        "CCGCC",
        &[[2, 1, 1, 2, 2], [2, 1, 4, 2, 2], [3, 1, 3, 1, 1]],
    );
    let results = judged(&g2(), &three);
    assert_eq!(results.chaining.score, 5);
    assert_eq!(results.chaining.chain, [1, 3, 2]);
    assert_eq!(results.chaining.rounds, 3);
    // "Stopping after one round: CCGCC would get 3."
    let graph = g2();
    let walks = Walks::new(&graph);
    let tables = make_tables(&graph, &walks);
    let steps = make_steps(&graph, &three.anchors, &walks, &tables);
    let mut scores = [2, 2, 1];
    for b in 0..3 {
        for &(a, gaps) in &steps.into[b] {
            scores[b] = scores[b].max(candidate(scores[a], three.anchors[b].weight, gaps));
        }
    }
    assert_eq!(scores.iter().max(), Some(&3));
}

#[test]
fn g2_acc() {
    let graph = g2();
    let walks = Walks::new(&graph);
    let tables = make_tables(&graph, &walks);
    assert_eq!(Cover::new(&graph, &tables).distance(1, 2), Some(4));
    let two = anchors("ACC", &[[1, 1, 1, 1, 1], [2, 1, 2, 2, 2]]);
    let results = judged(&graph, &two);
    assert_eq!(results.chaining.score, 2);
    assert_eq!(results.chaining.chain, [2]);
}

#[test]
fn one_vertex_aaa() {
    let three = anchors("AAA", &[[1, 1, 1, 1, 1], [1, 1, 2, 1, 1], [1, 1, 3, 1, 1]]);
    let results = judged(&one_vertex(false), &three);
    assert_eq!(results.chaining.score, 1);
    assert_eq!(results.chaining.chain, [1]);
    let results = judged(&one_vertex(true), &three);
    assert_eq!(results.chaining.score, 3);
    assert_eq!(results.chaining.chain, [1, 2, 3]);
}

#[test]
fn listing_example() {
    let text = "anchors 3 score 6 rounds 2\n\
                1 1 1 2 1 2 2\n\
                2 3 1 2 3 4 4\n\
                3 4 1 2 5 6 6\n";
    assert_eq!(listing(Some(&G1), Some(&G1_ANCHORS)), text);
    let graph = read_graph(&G1).expect("accepted").graph;
    let file = read_anchors(&graph, &G1_ANCHORS).expect("accepted");
    let expected = anchors(
        "ACTTCA",
        &[[1, 1, 1, 2, 2], [3, 1, 3, 2, 2], [4, 1, 5, 2, 2]],
    );
    assert_eq!(file.content, expected);
    assert_eq!(anchor_file_bytes(&expected), G1_ANCHORS);
}

#[test]
fn slips_to_guard_against() {
    // An anchor does not follow itself, nor an equal read place, round a loop.
    let graph = one_vertex(true);
    let walks = Walks::new(&graph);
    let a = Anchor {
        v: 1,
        x: 1,
        c: 1,
        length: 1,
        weight: 9,
    };
    assert!(!comes_before(&a, &a, &walks));
    let b = Anchor { c: 2, ..a };
    assert!(comes_before(&a, &b, &walks) && !comes_before(&b, &a, &walks));
    // No loop is charged where A.y < B.x on one vertex.
    let looped = second::hand::graph(&["AAAA"], &[(1, 1)], &[&[1]]);
    let two = anchors("AAAA", &[[1, 1, 1, 2, 2], [1, 3, 3, 2, 2]]);
    assert_eq!(judged(&looped, &two).chaining.score, 4);
    // Distance 0 is "no walk" only with a reach cell 0.
    let apart = second::hand::graph(&["A", "C"], &[], &[&[1], &[2]]);
    let results = judge_graph(&graph_file_bytes(&apart)).expect("accepted");
    assert_eq!(results.tables.reach, [[1, 0], [0, 1]]);
    assert_eq!(results.tables.distance, [[0, 0], [0, 0]]);
}
