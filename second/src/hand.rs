//! The files of document 01's chapters "Listing" and "Checked by hand".

use crate::anchor_file::{Anchor, Anchors};
use crate::graph_file::Graph;
use crate::tokens::{anchor_file_bytes, graph_file_bytes};

/// Graph G1, as its bytes stand in document 01.
pub const G1: [u8; 31] = [
    0x01, 0x04, 0x02, 0x41, 0x43, 0x01, 0x47, 0x02, 0x54, 0x54, 0x02, 0x43, 0x41, 0x04, 0x01, 0x02,
    0x01, 0x03, 0x02, 0x04, 0x03, 0x04, 0x02, 0x03, 0x01, 0x02, 0x04, 0x03, 0x01, 0x03, 0x04,
];

/// The anchors over G1.
pub const G1_ANCHORS: [u8; 24] = [
    0x02, 0x06, 0x41, 0x43, 0x54, 0x54, 0x43, 0x41, 0x03, 0x01, 0x01, 0x01, 0x02, 0x02, 0x03, 0x01,
    0x03, 0x02, 0x02, 0x04, 0x01, 0x05, 0x02, 0x02,
];

/// The smallest graph file: one vertex A, no edge, one path.
pub const ONE_VERTEX: [u8; 8] = [0x01, 0x01, 0x01, 0x41, 0x00, 0x01, 0x01, 0x01];

/// A graph from its parts.
pub fn graph(labels: &[&str], edges: &[(u32, u32)], paths: &[&[u32]]) -> Graph {
    Graph {
        labels: labels
            .iter()
            .map(|label| label.as_bytes().to_vec())
            .collect(),
        edges: edges.to_vec(),
        paths: paths.iter().map(|path| path.to_vec()).collect(),
    }
}

/// Anchors from the read and (v x c length weight) each, put in the order of
/// the file as given.
pub fn anchors(read: &str, list: &[[u32; 5]]) -> Anchors {
    let anchors = list
        .iter()
        .map(|&[v, x, c, length, weight]| Anchor {
            v,
            x,
            c,
            length,
            weight,
        })
        .collect();
    Anchors {
        read: read.as_bytes().to_vec(),
        anchors,
    }
}

/// "G2: labels A, CC, G; edges 1-2, 2-3, 3-2; one path 1 2 3."
pub fn g2() -> Graph {
    graph(&["A", "CC", "G"], &[(1, 2), (2, 3), (3, 2)], &[&[1, 2, 3]])
}

/// "One vertex A", without or with an edge to itself.
pub fn one_vertex(to_itself: bool) -> Graph {
    let edges: &[(u32, u32)] = if to_itself { &[(1, 1)] } else { &[] };
    graph(&["A"], edges, &[&[1]])
}

/// Pairs of files of the hand cases that have anchors.
pub fn pairs() -> Vec<(Vec<u8>, Vec<u8>)> {
    let mut list = vec![(G1.to_vec(), G1_ANCHORS.to_vec())];
    // G1's read with its first and third anchors only, and with weights 1.
    for weight in [2, 1] {
        let two = anchors("ACTTCA", &[[1, 1, 1, 2, weight], [4, 1, 5, 2, weight]]);
        list.push((G1.to_vec(), anchor_file_bytes(&two)));
    }
    let g2 = graph_file_bytes(&g2());
    let ccgcc = anchors(
        "CCGCC",
        &[[2, 1, 1, 2, 2], [2, 1, 4, 2, 2], [3, 1, 3, 1, 1]],
    );
    list.push((g2.clone(), anchor_file_bytes(&ccgcc)));
    let acc = anchors("ACC", &[[1, 1, 1, 1, 1], [2, 1, 2, 2, 2]]);
    list.push((g2, anchor_file_bytes(&acc)));
    let aaa = anchors("AAA", &[[1, 1, 1, 1, 1], [1, 1, 2, 1, 1], [1, 1, 3, 1, 1]]);
    for to_itself in [false, true] {
        list.push((
            graph_file_bytes(&one_vertex(to_itself)),
            anchor_file_bytes(&aaa),
        ));
    }
    // No anchors.
    list.push((G1.to_vec(), vec![0x02, 0x01, 0x41, 0x00]));
    list
}

/// Graph files of the hand cases, refused ones too.
pub fn graph_files() -> Vec<Vec<u8>> {
    let mut longer = ONE_VERTEX.to_vec();
    longer.push(0x00);
    vec![
        vec![],
        ONE_VERTEX.to_vec(),
        ONE_VERTEX[..7].to_vec(),
        longer,
        vec![0x01, 0x01, 0x01, 0x41, 0x00, 0x00],
        vec![0x01, 0x02, 0x01, 0x41, 0x01, 0x43, 0x00, 0x01, 0x01, 0x01],
        G1.to_vec(),
        graph_file_bytes(&g2()),
    ]
}
