//! The library's names and answers and the full sizes of lent buffers, as include/toadtrellis.h has them; each function with slices in the place of
//! pointers and lengths.

pub const FULL_LETTERS: usize = 32_768;
pub const FULL_LENGTHS: usize = 1_024;
pub const FULL_EDGES: usize = 8_192;
pub const FULL_PATHS: usize = 16_384;
pub const FULL_COUNTS: usize = 16;
pub const FULL_ANCHORS: usize = 10_240;
pub const FULL_TABLE: usize = 16_384;
pub const FULL_CLOSED: usize = 1_024;
pub const FULL_SCORES: usize = 2_048;
pub const FULL_CHAIN: usize = 2_048;

/// How many places lie from one path's first to the next one's.
pub const PATH_ROOM: usize = 1_024;

#[repr(C)]
#[derive(Clone, Copy, Debug, Default, PartialEq, Eq)]
pub struct ToadGraph {
    pub number: u32,
    pub file: u32,
    pub place: u32,
    pub vertices: u32,
    pub letters: u32,
    pub edges: u32,
    pub paths: u32,
}

#[repr(C)]
#[derive(Clone, Copy, Debug, Default, PartialEq, Eq)]
pub struct ToadWritten {
    pub number: u32,
    pub file: u32,
    pub place: u32,
    pub bytes: u32,
}

#[repr(C)]
#[derive(Clone, Copy, Debug, Default, PartialEq, Eq)]
pub struct ToadAnchors {
    pub number: u32,
    pub file: u32,
    pub place: u32,
    pub letters: u32,
    pub anchors: u32,
}

#[repr(C)]
#[derive(Clone, Copy, Debug, Default, PartialEq, Eq)]
pub struct ToadTables {
    pub number: u32,
    pub file: u32,
    pub place: u32,
    pub vertices: u32,
    pub paths: u32,
    pub reach_rounds: u32,
    pub distance_rounds: u32,
}

#[repr(C)]
#[derive(Clone, Copy, Debug, Default, PartialEq, Eq)]
pub struct ToadChain {
    pub number: u32,
    pub file: u32,
    pub place: u32,
    pub anchors: u32,
    pub score: u32,
    pub rounds: u32,
    pub length: u32,
}

#[repr(C)]
#[derive(Clone, Copy, Debug, Default, PartialEq, Eq)]
pub struct ToadPart {
    pub start: u32,
    pub length: u32,
}

/// Declares functions whose answer has more than 16 bytes. On x86-64 they are as the header says. The module compiled for another machine keeps
/// x86-64's way of handing such an answer back: through a pointer that is passed first.
macro_rules! with_large_answers {
    ($(fn $name:ident($($word:ident: $kind:ty),* $(,)?) -> $answer:ty;)*) => {
        #[cfg(target_arch = "x86_64")]
        extern "C" {
            $(fn $name($($word: $kind),*) -> $answer;)*
        }

        #[cfg(not(target_arch = "x86_64"))]
        mod through_pointer {
            use super::*;
            extern "C" {
                $(pub fn $name(answer: *mut $answer, $($word: $kind),*);)*
            }
        }

        $(
            #[cfg(not(target_arch = "x86_64"))]
            unsafe fn $name($($word: $kind),*) -> $answer {
                let mut answer = <$answer>::default();
                through_pointer::$name(&mut answer, $($word),*);
                answer
            }
        )*
    };
}

with_large_answers! {
    fn toad_read_graph(
        file: *const u8, file_len: usize,
        letters: *mut u8, letters_len: usize, lengths: *mut u32, lengths_len: usize,
        edges: *mut u32, edges_len: usize, paths: *mut u32, paths_len: usize,
        counts: *mut u32, counts_len: usize,
    ) -> ToadGraph;

    fn toad_read_anchors(
        graph: *const u8, graph_len: usize, file: *const u8, file_len: usize,
        letters: *mut u8, letters_len: usize, anchors: *mut u32, anchors_len: usize,
    ) -> ToadAnchors;

    fn toad_tables(
        file: *const u8, file_len: usize,
        reach: *mut u32, reach_len: usize, distance: *mut u32, distance_len: usize,
        closed: *mut u32, closed_len: usize,
    ) -> ToadTables;

    fn toad_sweep(
        graph: *const u8, graph_len: usize, file: *const u8, file_len: usize,
        scores: *mut u32, scores_len: usize, chain: *mut u32, chain_len: usize,
    ) -> ToadChain;

    fn toad_plain(
        graph: *const u8, graph_len: usize, file: *const u8, file_len: usize,
        scores: *mut u32, scores_len: usize, chain: *mut u32, chain_len: usize,
    ) -> ToadChain;
}

extern "C" {
    fn toad_write_graph(
        n: u32,
        m: u32,
        k: u32,
        letters: *const u8,
        letters_len: usize,
        lengths: *const u32,
        lengths_len: usize,
        edges: *const u32,
        edges_len: usize,
        paths: *const u32,
        paths_len: usize,
        counts: *const u32,
        counts_len: usize,
        out: *mut u8,
        out_len: usize,
    ) -> ToadWritten;

    fn toad_write_anchors(
        r: u32,
        n: u32,
        letters: *const u8,
        letters_len: usize,
        anchors: *const u32,
        anchors_len: usize,
        graph: *const u8,
        graph_len: usize,
        out: *mut u8,
        out_len: usize,
    ) -> ToadWritten;

    fn toad_letters(graph: *const u8, graph_len: usize, file: *const u8, file_len: usize, number: u32, which: u32) -> ToadPart;
}

/// Calls a function of the library with numbers, with slices, each as a pointer and a length, and with numbers again.
macro_rules! call {
    ($name:ident([$($first:ident),*], [$($slice:ident.$pointer:ident),*], [$($last:ident),*])) => {
        // SAFETY: each pointer is a slice's, so it is valid for the length that follows it, and no slice that is written overlaps another.
        unsafe { $name($($first,)* $($slice.$pointer(), $slice.len(),)* $($last),*) }
    };
}

pub fn read_graph(file: &[u8], letters: &mut [u8], lengths: &mut [u32], edges: &mut [u32], paths: &mut [u32], counts: &mut [u32]) -> ToadGraph {
    call!(toad_read_graph(
        [],
        [file.as_ptr, letters.as_mut_ptr, lengths.as_mut_ptr, edges.as_mut_ptr, paths.as_mut_ptr, counts.as_mut_ptr],
        []
    ))
}

#[allow(clippy::too_many_arguments)]
pub fn write_graph(
    n: u32,
    m: u32,
    k: u32,
    letters: &[u8],
    lengths: &[u32],
    edges: &[u32],
    paths: &[u32],
    counts: &[u32],
    out: &mut [u8],
) -> ToadWritten {
    call!(toad_write_graph(
        [n, m, k],
        [letters.as_ptr, lengths.as_ptr, edges.as_ptr, paths.as_ptr, counts.as_ptr, out.as_mut_ptr],
        []
    ))
}

pub fn read_anchors(graph: &[u8], file: &[u8], letters: &mut [u8], anchors: &mut [u32]) -> ToadAnchors {
    call!(toad_read_anchors([], [graph.as_ptr, file.as_ptr, letters.as_mut_ptr, anchors.as_mut_ptr], []))
}

pub fn write_anchors(r: u32, n: u32, letters: &[u8], anchors: &[u32], graph: &[u8], out: &mut [u8]) -> ToadWritten {
    call!(toad_write_anchors([r, n], [letters.as_ptr, anchors.as_ptr, graph.as_ptr, out.as_mut_ptr], []))
}

pub fn tables(file: &[u8], reach: &mut [u32], distance: &mut [u32], closed: &mut [u32]) -> ToadTables {
    call!(toad_tables([], [file.as_ptr, reach.as_mut_ptr, distance.as_mut_ptr, closed.as_mut_ptr], []))
}

/// What finds the best chain: `sweep` or `plain`.
pub type Engine = fn(&[u8], &[u8], &mut [u32], &mut [u32]) -> ToadChain;

pub fn sweep(graph: &[u8], file: &[u8], scores: &mut [u32], chain: &mut [u32]) -> ToadChain {
    call!(toad_sweep([], [graph.as_ptr, file.as_ptr, scores.as_mut_ptr, chain.as_mut_ptr], []))
}

pub fn plain(graph: &[u8], file: &[u8], scores: &mut [u32], chain: &mut [u32]) -> ToadChain {
    call!(toad_plain([], [graph.as_ptr, file.as_ptr, scores.as_mut_ptr, chain.as_mut_ptr], []))
}

pub fn letters(graph: &[u8], file: &[u8], number: u32, which: u32) -> ToadPart {
    call!(toad_letters([], [graph.as_ptr, file.as_ptr], [number, which]))
}
