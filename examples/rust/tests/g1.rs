//! The example G1 of document 01 through the safe functions, and files that are refused.

use toadtrellis::*;

const GRAPH: &[u8] = include_bytes!("../../g1/graph.bin");
const ANCHORS: &[u8] = include_bytes!("../../g1/anchors.bin");

#[test]
fn a_file_read_and_written_again_is_the_same() {
    let graph = read_graph(GRAPH).unwrap();
    assert_eq!(graph.labels, [&b"AC"[..], b"G", b"TT", b"CA"]);
    assert_eq!(graph.edges, [(1, 2), (1, 3), (2, 4), (3, 4)]);
    assert_eq!(graph.paths, [[1, 2, 4], [1, 3, 4]]);
    assert_eq!(write_graph(&graph).unwrap(), GRAPH);
    let anchors = read_anchors(GRAPH, ANCHORS).unwrap();
    assert_eq!(anchors.read, b"ACTTCA");
    assert_eq!(write_anchors(&anchors, GRAPH).unwrap(), ANCHORS);
}

#[test]
fn the_tables() {
    let t = tables(GRAPH).unwrap();
    assert_eq!(t.reach, [[1, 1], [2, 1], [1, 2], [3, 3]]);
    assert_eq!(t.distance, [[0, 0], [0, 2], [2, 0], [0, 0]]);
    assert_eq!(t.closed, [0, 0, 0, 0]);
}

#[test]
fn the_chain_by_both_engines() {
    let s = sweep(GRAPH, ANCHORS).unwrap();
    assert_eq!((s.score, s.rounds), (6, 2));
    assert_eq!((&s.scores[..], &s.anchors[..]), (&[2, 4, 6][..], &[1, 2, 3][..]));
    let p = plain(GRAPH, ANCHORS).unwrap();
    assert_eq!(p, Chain { rounds: 0, ..s });
}

#[test]
fn the_letters_of_an_anchor() {
    for (number, text) in [(1, &b"AC"[..]), (2, b"TT"), (3, b"CA"), (0, b""), (4, b"")] {
        assert_eq!(letters(GRAPH, ANCHORS, number, 1), text);
        assert_eq!(letters(GRAPH, ANCHORS, number, 2), text);
    }
    assert_eq!(letters(GRAPH, ANCHORS, 1, 3), b"");
    assert_eq!(letters(b"", b"", 1, 2), b"");
}

#[test]
fn every_proper_prefix_is_refused_at_its_end() {
    for n in 0..GRAPH.len() {
        let place = n as u32;
        assert_eq!(read_graph(&GRAPH[..n]), Err(Refusal { number: 1, file: 1, place }));
        assert_eq!(sweep(&GRAPH[..n], ANCHORS), Err(Refusal { number: 1, file: 1, place }));
    }
    for n in 0..ANCHORS.len() {
        let place = n as u32;
        assert_eq!(read_anchors(GRAPH, &ANCHORS[..n]), Err(Refusal { number: 1, file: 2, place }));
        assert_eq!(plain(GRAPH, &ANCHORS[..n]), Err(Refusal { number: 1, file: 2, place }));
    }
}

#[test]
fn content_that_no_buffer_holds_is_refused() {
    let refused = Err(Refusal { number: 4, file: 1, place: 0 });
    let graph = read_graph(GRAPH).unwrap();
    let many = |n: usize| vec![b"A".to_vec(); n];
    assert_eq!(write_graph(&Graph { labels: many(1_025), ..graph.clone() }), refused);
    assert_eq!(write_graph(&Graph { labels: vec![vec![b'A'; 32_769]], ..graph.clone() }), refused);
    assert_eq!(write_graph(&Graph { edges: vec![(1, 2); 4_097], ..graph.clone() }), refused);
    assert_eq!(write_graph(&Graph { paths: vec![vec![1, 2, 4]; 17], ..graph.clone() }), refused);
    assert_eq!(write_graph(&Graph { paths: vec![vec![1; 1_025]], ..graph.clone() }), refused);
    let refused = Err(Refusal { number: 4, file: 2, place: 0 });
    let anchors = read_anchors(GRAPH, ANCHORS).unwrap();
    assert_eq!(write_anchors(&Anchors { read: vec![b'A'; 32_769], ..anchors.clone() }, GRAPH), refused);
    assert_eq!(write_anchors(&Anchors { anchors: vec![anchors.anchors[0]; 2_049], ..anchors }, GRAPH), refused);
}
