//! The table of quantities and ranges, and the full sizes of lent buffers.

/// File bytes: at most 65,536.
pub const FILE_BYTES: usize = 65_536;
/// n: 1 to 1,024.
pub const MOST_VERTICES: u32 = 1_024;
/// Label length: 1 up; all labels together at most 32,768.
pub const MOST_LABEL_LETTERS: u64 = 32_768;
/// m: 0 to 4,096.
pub const MOST_EDGES: u32 = 4_096;
/// K: 1 to 16.
pub const MOST_PATHS: u32 = 16;
/// r: 1 to 32,768.
pub const MOST_READ_LETTERS: u32 = 32_768;
/// N: 0 to 2,048.
pub const MOST_ANCHORS: u32 = 2_048;
/// Weight: 1 to 65,535.
pub const MOST_WEIGHT: u32 = 65_535;

/// "Lent buffers have full sizes: letters 32,768; lengths 1,024; edges 8,192
/// numbers; paths 16,384 with 16 counts; anchors 10,240 numbers; reach and
/// distance tables 16,384 each; closed walks 1,024; scores and chain 2,048."
pub const LETTERS_SIZE: usize = 32_768;
pub const LENGTHS_SIZE: usize = 1_024;
pub const EDGES_SIZE: usize = 8_192;
pub const PATHS_SIZE: usize = 16_384;
pub const COUNTS_SIZE: usize = 16;
pub const ANCHORS_SIZE: usize = 10_240;
pub const TABLE_SIZE: usize = 16_384;
pub const CLOSED_SIZE: usize = 1_024;
pub const SCORES_SIZE: usize = 2_048;
pub const CHAIN_SIZE: usize = 2_048;

/// "Path i starts at place 1,024(i - 1)."
pub fn path_start(i: usize) -> usize {
    1_024 * (i - 1)
}

/// "Cell (v, i) is at place 16(v - 1) + i - 1."
pub fn cell_place(v: usize, i: usize) -> usize {
    16 * (v - 1) + i - 1
}
