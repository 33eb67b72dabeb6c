//! The library by its C names, as the crate in `examples/rust` declares them,
//! and its refusals.

pub use toadtrellis::raw::*;
pub use toadtrellis::Refusal;

/// A lent buffer is below its full size.
pub const SMALL_BUFFER: Refusal = Refusal {
    number: 13,
    file: 0,
    place: 0,
};

/// An answer that has a refusal's number, file and place.
pub trait Refused {
    /// A refusal as the library answers it.
    fn refused(refusal: Refusal) -> Self;
}

macro_rules! refused {
    ($($answer:ident),*) => {
        $(impl Refused for $answer {
            fn refused(refusal: Refusal) -> $answer {
                let Refusal { number, file, place } = refusal;
                $answer { number, file, place, ..$answer::default() }
            }
        })*
    };
}

refused!(ToadGraph, ToadWritten, ToadAnchors, ToadTables, ToadChain);
