//! An independent second program, written from document 01 alone: plain and
//! slow rather than clever, in that document's words and order. It judges a
//! library that was written apart from it.

#![forbid(unsafe_code)]
// Ranges and places are written as document 01 writes them.
#![allow(clippy::manual_range_contains, clippy::needless_range_loop)]

// The rules of document 01.
pub mod anchor_file;
pub mod answer;
pub mod chains;
pub mod graph_file;
pub mod judge;
pub mod letters;
pub mod limits;
pub mod listing;
pub mod number;
pub mod tables;
pub mod view;
pub mod walks;
pub mod writers;

// Cases, and what is expected of them.
pub mod corpus;
pub mod damage;
pub mod generator;
pub mod hand;
pub mod numbers_table;
pub mod prng;
pub mod tokens;
pub mod view_cases;
pub mod writer_cases;
