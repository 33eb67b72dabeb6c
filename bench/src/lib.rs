//! The proved library by its C names, and beside it an unproved program in
//! idiomatic Rust that does the same; see README.md.

pub mod entries;
pub mod inputs;
pub mod library;
pub mod rust;
