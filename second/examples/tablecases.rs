//! What the program `tablecases` is expected to write: `cargo run --release --example tablecases` prints
//! its file `stdout`. The cases are those of crates/tablecases, in its order, with the graphs given by
//! their parts.

use second::graph_file::Graph;
use second::hand::{g2, graph, one_vertex, G1, ONE_VERTEX};
use second::judge::{judge_graph, Digest, GraphResults};
use second::tables::laid_out;
use second::tokens::graph_file_bytes;

/// n vertices in a row with edges both ways, labels A and CC in turn, one path over all of them.
fn both_ways(n: u32) -> Graph {
    let mut edges = Vec::new();
    for v in 1..=n {
        if v > 1 {
            edges.push((v, v - 1));
        }
        if v < n {
            edges.push((v, v + 1));
        }
    }
    Graph {
        labels: (1..=n)
            .map(|v| {
                if v % 2 == 1 {
                    b"A".to_vec()
                } else {
                    b"CC".to_vec()
                }
            })
            .collect(),
        edges,
        paths: vec![(1..=n).collect()],
    }
}

/// The digest of every place up to the full sizes, and for few vertices their rows.
fn places(results: &GraphResults) -> String {
    let (reach, distance, closed) = laid_out(&results.tables);
    let mut digest = Digest::new();
    digest.numbers(&reach);
    digest.numbers(&distance);
    digest.numbers(&closed);
    let mut text = format!(" digest {}\n", digest.value());
    if results.file.graph.n() <= 8 {
        for v in 0..results.file.graph.n() {
            for x in &results.tables.reach[v] {
                text += &format!(" {x}");
            }
            text += " /";
            for x in &results.tables.distance[v] {
                text += &format!(" {x}");
            }
            text += &format!(" / {}\n", results.tables.closed[v]);
        }
    }
    text
}

fn refusal(name: &str, number: u32, file: u32, place: u64) {
    println!("{name}: number {number} file {file} place {place} n 0 K 0 rounds 0 0 untouched");
}

fn show(name: &str, file: &[u8]) {
    match judge_graph(file) {
        Ok(results) => {
            let (graph, tables) = (&results.file.graph, &results.tables);
            print!(
                "{name}: number 0 file 0 place 0 n {} K {} rounds {} {}{}",
                graph.n(),
                graph.paths.len(),
                tables.reach_rounds,
                tables.distance_rounds,
                places(&results)
            );
        }
        Err(fault) => refusal(name, fault.number, fault.file, fault.place),
    }
}

fn show_graph(name: &str, graph: Graph) {
    show(name, &graph_file_bytes(&graph));
}

fn main() {
    let three = ["A", "CC", "GGG"];
    show("G1", &G1);
    show_graph("G2", g2());
    show_graph("one vertex", one_vertex(false));
    show_graph("an edge to itself", graph(&["ACG"], &[(1, 1)], &[&[1]]));
    show_graph(
        "a ring, paths 1 2 and 3",
        graph(&three, &[(1, 2), (2, 3), (3, 1)], &[&[1, 2], &[3]]),
    );
    show_graph(
        "a fork, paths 1 2 and 3",
        graph(&three, &[(1, 2), (1, 3)], &[&[1, 2], &[3]]),
    );
    show_graph(
        "no edges, paths 3, 2, 1 and 3",
        graph(&three, &[], &[&[3], &[2], &[1], &[3]]),
    );
    show_graph(
        "two ways, one shorter",
        graph(
            &["AC", "GGGGGGGGG", "T", "A"],
            &[(1, 2), (1, 3), (2, 4), (3, 4), (4, 1)],
            &[&[1, 2, 4], &[3]],
        ),
    );
    show_graph("both ways, 5 vertices", both_ways(5));
    show_graph("both ways, 1024 vertices", both_ways(1024));
    show("empty", b"");
    show("an anchor file", b"\x02\x01A\x00");
    show(
        "a path step that is no edge",
        b"\x01\x02\x01A\x01C\x00\x01\x02\x01\x02",
    );
    show("a vertex on no path", b"\x01\x02\x01A\x01C\x00\x01\x01\x01");
    show("a byte left over", &[&ONE_VERTEX[..], &[0]].concat());
    // "a lent buffer below full size" comes first: "0, file 0"
    refusal("reach of 16383", 13, 0, 0);
    refusal("distance of 16383", 13, 0, 0);
    refusal("closed of 1023", 13, 0, 0);
    show_graph("longer buffers", g2());
    // "places beyond it are untouched"
    println!("beyond 7 7 7 7 7 7");
}
