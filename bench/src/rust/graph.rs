//! The graph file.

use super::reader::{fault, Fault, Reader};

pub const MOST_VERTICES: usize = 1_024;
pub const MOST_LETTERS: usize = 32_768;
pub const MOST_EDGES: usize = 4_096;
pub const MOST_PATHS: usize = 16;

/// What an accepted file says. Vertices count from 1, as in the file.
pub struct Graph {
    /// The letters of all labels.
    pub letters: Vec<u8>,
    /// Each label's length, and where its letters start in the file.
    pub lengths: Vec<u32>,
    pub places: Vec<u32>,
    pub edges: Vec<(u32, u32)>,
    pub paths: Vec<Vec<u32>>,
}

impl Graph {
    pub fn n(&self) -> usize {
        self.lengths.len()
    }

    pub fn read(bytes: &[u8]) -> Result<Graph, Fault> {
        let mut reader = Reader::of_kind(bytes, 1)?;
        let n = reader.count(1..=MOST_VERTICES)?;
        let mut graph = Graph {
            letters: Vec::new(),
            lengths: Vec::with_capacity(n),
            places: Vec::with_capacity(n),
            edges: Vec::new(),
            paths: Vec::new(),
        };
        for _ in 0..n {
            let left = MOST_LETTERS - graph.letters.len();
            let length = reader.count(1..=left)?;
            graph.lengths.push(length as u32);
            graph.places.push(reader.at as u32);
            graph.letters.extend_from_slice(reader.letters(length)?);
        }
        graph.read_edges(&mut reader)?;
        graph.read_paths(&mut reader)?;
        reader.end()?;
        Ok(graph)
    }

    fn read_edges(&mut self, reader: &mut Reader) -> Result<(), Fault> {
        let vertices = 1..=self.n() as u32;
        let m = reader.count(0..=MOST_EDGES)?;
        self.edges.reserve_exact(m);
        let mut last = (0, 0);
        for _ in 0..m {
            let place = reader.at;
            let edge = (reader.number()?, reader.number()?);
            if !vertices.contains(&edge.0) || !vertices.contains(&edge.1) {
                return fault(6, place);
            }
            if edge <= last {
                return fault(7, place);
            }
            self.edges.push(edge);
            last = edge;
        }
        Ok(())
    }

    fn read_paths(&mut self, reader: &mut Reader) -> Result<(), Fault> {
        let n = self.n();
        let mut on_path = vec![false; n];
        let k = reader.count(1..=MOST_PATHS)?;
        for _ in 0..k {
            let count = reader.count(1..=n)?;
            let mut path = Vec::with_capacity(count);
            // Edges and the path both rise, so that one pass finds all steps.
            let mut edges = self.edges.iter();
            let mut last = 0;
            for _ in 0..count {
                let place = reader.at;
                let v = reader.number()?;
                if v < 1 || v as usize > n {
                    return fault(6, place);
                }
                if v <= last {
                    return fault(7, place);
                }
                let step = (last, v);
                if last != 0 && edges.find(|&&edge| edge >= step) != Some(&step) {
                    return fault(8, place);
                }
                on_path[v as usize - 1] = true;
                path.push(v);
                last = v;
            }
            self.paths.push(path);
        }
        if on_path.contains(&false) {
            return fault(9, reader.at);
        }
        Ok(())
    }
}
