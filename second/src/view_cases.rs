//! Cases for the view of an anchor's letters. The format is in README.md.

use crate::corpus::{random_case, Case};
use crate::hand;
use crate::prng::Prng;
use crate::view::letters_of_anchor;

pub struct ViewCase {
    pub graph: Vec<u8>,
    pub anchors: Vec<u8>,
    pub number: u32,
    pub named: u32,
}

impl ViewCase {
    pub fn line(&self) -> String {
        let part = letters_of_anchor(&self.graph, &self.anchors, self.number, self.named);
        format!(
            "file {} start {} length {}",
            part.file, part.start, part.length
        )
    }
}

/// The hand cases with every number and file near the range, then random ones.
pub fn view_cases(seed: u64, count: usize) -> Vec<ViewCase> {
    let mut cases = Vec::new();
    for (graph, anchors) in hand::pairs() {
        for number in [0, 1, 2, 3, 4, u32::MAX] {
            for named in [0, 1, 2, 3, u32::MAX] {
                cases.push(ViewCase {
                    graph: graph.clone(),
                    anchors: anchors.clone(),
                    number,
                    named,
                });
            }
        }
    }
    cases.truncate(count);
    let mut prng = Prng::new(seed);
    while cases.len() < count {
        let Case {
            kind,
            graph,
            anchors,
        } = random_case(&mut prng);
        if kind == 1 {
            let number = if prng.chance(80) {
                prng.between(1, 4)
            } else {
                prng.between(0, 12)
            };
            let named = prng.pick(&[1, 1, 2, 2, 0, 3]);
            cases.push(ViewCase {
                graph,
                anchors,
                number: number as u32,
                named,
            });
        }
    }
    cases
}

pub fn cases_file(cases: &[ViewCase]) -> Vec<u8> {
    let mut bytes = Vec::new();
    for case in cases {
        bytes.push(1);
        bytes.extend((case.graph.len() as u32).to_le_bytes());
        bytes.extend(&case.graph);
        bytes.extend((case.anchors.len() as u32).to_le_bytes());
        bytes.extend(&case.anchors);
        bytes.extend(case.number.to_le_bytes());
        bytes.extend(case.named.to_le_bytes());
    }
    bytes.push(0);
    bytes
}

pub fn expected_text(cases: &[ViewCase]) -> String {
    cases.iter().map(|case| case.line() + "\n").collect()
}
