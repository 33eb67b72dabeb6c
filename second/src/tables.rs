//! The tables: reach, distance, closed walk; and the cover distance.
//!
//! Each table is made twice: by search over walks from its definition, and by
//! its rounds to the letter. The two must agree in every cell.

use crate::graph_file::Graph;
use crate::limits::*;
use crate::walks::Walks;

/// The cells are at [v - 1][i - 1]; the closed walks at [v - 1].
#[derive(Clone, Debug, PartialEq, Eq)]
pub struct Tables {
    pub reach: Vec<Vec<u32>>,
    pub distance: Vec<Vec<u32>>,
    pub closed: Vec<u32>,
    pub reach_rounds: u32,
    pub distance_rounds: u32,
}

/// Both makings, compared.
pub fn make_tables(graph: &Graph, walks: &Walks) -> Tables {
    let reach = reach_by_search(graph, walks);
    let distance = distance_by_search(graph, walks, &reach);
    let closed = closed_by_search(graph, walks);

    let (reach_of_rounds, reach_rounds) = reach_by_rounds(graph);
    assert_eq!(reach, reach_of_rounds, "reach by search and by rounds");
    let (distance_of_rounds, distance_rounds) = distance_by_rounds(graph, &reach_of_rounds);
    assert_eq!(
        distance, distance_of_rounds,
        "distance by search and by rounds"
    );
    // "Each count is reported and never exceeds n."
    assert!(reach_rounds >= 1 && reach_rounds as usize <= graph.n());
    assert!(distance_rounds >= 1 && distance_rounds as usize <= graph.n());

    Tables {
        reach,
        distance,
        closed,
        reach_rounds,
        distance_rounds,
    }
}

/// "Cell (v, i) is the greatest position on path i whose vertex has a walk, of
/// no edges or more, to v. The cell is 0 exactly when no vertex of the path
/// has one."
fn reach_by_search(graph: &Graph, walks: &Walks) -> Vec<Vec<u32>> {
    let mut table = Vec::new();
    for v in 1..=graph.n() {
        let mut row = Vec::new();
        for path in &graph.paths {
            let mut cell = 0;
            for (index, &u) in path.iter().enumerate() {
                if walks.walk(u as usize, v) {
                    cell = index as u32 + 1;
                }
            }
            row.push(cell);
        }
        table.push(row);
    }
    table
}

/// "Distance cell (v, i): the least length of a walk from that vertex to v; 0
/// where the reach cell is 0."
fn distance_by_search(graph: &Graph, walks: &Walks, reach: &[Vec<u32>]) -> Vec<Vec<u32>> {
    let mut table = Vec::new();
    for v in 1..=graph.n() {
        let mut row = Vec::new();
        for (index, path) in graph.paths.iter().enumerate() {
            let position = reach[v - 1][index] as usize;
            if position == 0 {
                row.push(0);
            } else {
                let reached = path[position - 1] as usize;
                row.push(
                    walks
                        .least(reached, v)
                        .expect("the reached vertex has a walk") as u32,
                );
            }
        }
        table.push(row);
    }
    table
}

/// "Closed walk of v: the least length of a walk from v to v with at least one
/// edge; 0 if there is none."
fn closed_by_search(graph: &Graph, walks: &Walks) -> Vec<u32> {
    (1..=graph.n())
        .map(|v| walks.least_of_an_edge(v, v).unwrap_or(0) as u32)
        .collect()
}

/// The edges into each vertex; place v - 1.
fn edges_into(graph: &Graph) -> Vec<Vec<usize>> {
    let mut into = vec![Vec::new(); graph.n()];
    for &(from, to) in &graph.edges {
        into[to as usize - 1].push(from as usize);
    }
    into
}

/// "Reach starts at v's own position, or 0 off the path. A round takes
/// vertices in rising number, in place. Reach takes the greatest of its own
/// value and those over edges into v. The round that changes nothing is
/// counted and is the last." A round covers all columns.
fn reach_by_rounds(graph: &Graph) -> (Vec<Vec<u32>>, u32) {
    let columns = graph.paths.len();
    let into = edges_into(graph);
    let mut table = vec![vec![0u32; columns]; graph.n()];
    for (index, path) in graph.paths.iter().enumerate() {
        for (step, &v) in path.iter().enumerate() {
            table[v as usize - 1][index] = step as u32 + 1;
        }
    }
    let mut rounds = 0;
    loop {
        rounds += 1;
        let mut changed = false;
        for v in 1..=graph.n() {
            for i in 0..columns {
                let mut value = table[v - 1][i];
                for &u in &into[v - 1] {
                    if table[u - 1][i] > value {
                        value = table[u - 1][i];
                    }
                }
                if value != table[v - 1][i] {
                    table[v - 1][i] = value;
                    changed = true;
                }
            }
        }
        if !changed {
            return (table, rounds);
        }
    }
}

/// "Distance at 0 where v is the reached vertex, else unknown. ... Distance
/// the least of its own and u's distance plus L(u) over edges u to v whose
/// reach cells are equal." The rounds run over the finished reach table; what
/// stays unknown ends as 0.
fn distance_by_rounds(graph: &Graph, reach: &[Vec<u32>]) -> (Vec<Vec<u32>>, u32) {
    let columns = graph.paths.len();
    let into = edges_into(graph);
    let mut table: Vec<Vec<Option<u64>>> = vec![vec![None; columns]; graph.n()];
    for v in 1..=graph.n() {
        for (i, path) in graph.paths.iter().enumerate() {
            let position = reach[v - 1][i] as usize;
            if position > 0 && path[position - 1] as usize == v {
                table[v - 1][i] = Some(0);
            }
        }
    }
    let mut rounds = 0;
    loop {
        rounds += 1;
        let mut changed = false;
        for v in 1..=graph.n() {
            for i in 0..columns {
                let mut value = table[v - 1][i];
                for &u in &into[v - 1] {
                    if reach[u - 1][i] != reach[v - 1][i] {
                        continue;
                    }
                    if let Some(of_u) = table[u - 1][i] {
                        let through = of_u + graph.length(u);
                        if value.is_none_or(|own| through < own) {
                            value = Some(through);
                        }
                    }
                }
                if value != table[v - 1][i] {
                    table[v - 1][i] = value;
                    changed = true;
                }
            }
        }
        if !changed {
            break;
        }
    }
    let mut finished = Vec::new();
    for v in 1..=graph.n() {
        let mut row = Vec::new();
        for i in 0..columns {
            // Unknown exactly where the reach cell is 0.
            assert_eq!(table[v - 1][i].is_none(), reach[v - 1][i] == 0);
            row.push(table[v - 1][i].unwrap_or(0) as u32);
        }
        finished.push(row);
    }
    (finished, rounds)
}

/// The cover distance, with what it needs of the paths at hand.
pub struct Cover<'a> {
    tables: &'a Tables,
    /// The position of u on path i, 0 if it is not on it; [u - 1][i - 1].
    positions: Vec<Vec<usize>>,
    /// The sum of L over the positions before position a; [i - 1][a - 1].
    sums: Vec<Vec<u64>>,
}

impl<'a> Cover<'a> {
    pub fn new(graph: &Graph, tables: &'a Tables) -> Cover<'a> {
        let mut positions = vec![vec![0; graph.paths.len()]; graph.n()];
        let mut sums = Vec::new();
        for (index, path) in graph.paths.iter().enumerate() {
            let mut sum = 0;
            let mut row = Vec::new();
            for (step, &u) in path.iter().enumerate() {
                positions[u as usize - 1][index] = step + 1;
                row.push(sum);
                sum += graph.length(u as usize);
            }
            sums.push(row);
        }
        Cover {
            tables,
            positions,
            sums,
        }
    }

    /// "From u to a different v: the least, over paths i that hold u at a
    /// position a not beyond reach (v, i), of the sum of L over positions a up
    /// to but not including reach (v, i), plus distance (v, i)."
    pub fn distance(&self, u: usize, v: usize) -> Option<u64> {
        assert_ne!(u, v);
        let mut best: Option<u64> = None;
        for i in 0..self.sums.len() {
            let a = self.positions[u - 1][i];
            let reached = self.tables.reach[v - 1][i] as usize;
            if a == 0 || a > reached {
                continue;
            }
            let along = self.sums[i][reached - 1] - self.sums[i][a - 1];
            let length = along + u64::from(self.tables.distance[v - 1][i]);
            if best.is_none_or(|b| length < b) {
                best = Some(length);
            }
        }
        best
    }
}

/// The cells of the three tables in buffers of full size, 0 in the unused
/// places: reach, distance, closed walks.
pub fn laid_out(tables: &Tables) -> (Vec<u32>, Vec<u32>, Vec<u32>) {
    let mut reach = vec![0; TABLE_SIZE];
    let mut distance = vec![0; TABLE_SIZE];
    let mut closed = vec![0; CLOSED_SIZE];
    for v in 1..=tables.closed.len() {
        for i in 1..=tables.reach[v - 1].len() {
            reach[cell_place(v, i)] = tables.reach[v - 1][i - 1];
            distance[cell_place(v, i)] = tables.distance[v - 1][i - 1];
        }
        closed[v - 1] = tables.closed[v - 1];
    }
    (reach, distance, closed)
}
