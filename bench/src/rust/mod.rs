//! The same work as the library's, as one would write it in Rust without
//! proofs: vectors, slices, iterators, `Result`. It lends the same buffers and
//! leaves the same in them.

pub mod anchors;
pub mod chains;
pub mod entries;
pub mod graph;
pub mod reader;
pub mod tables;
