//! "Each answer holds the number, the file (1 graph, 2 anchors) and the place."

use crate::number::Fault;

/// A refusal; an acceptance has no such thing (0 in all three).
#[derive(Clone, Copy, Debug, PartialEq, Eq)]
pub struct Refusal {
    pub number: u32,
    pub file: u32,
    pub place: u64,
}

impl Refusal {
    pub fn new(number: u32, file: u32, place: u64) -> Refusal {
        Refusal {
            number,
            file,
            place,
        }
    }

    /// A fault met in the given file.
    pub fn of(fault: Fault, file: u32) -> Refusal {
        Refusal::new(fault.number, file, fault.place)
    }

    /// "A refusal prints `refused NUMBER file FILE place PLACE`."
    pub fn line(&self) -> String {
        format!(
            "refused {} file {} place {}",
            self.number, self.file, self.place
        )
    }
}
