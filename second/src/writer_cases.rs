//! Cases for the two writers: good content, nonsense, buffers below full size,
//! rooms that are just enough or too short. The format is in README.md.

use crate::answer::Refusal;
use crate::generator::*;
use crate::hand;
use crate::judge::Digest;
use crate::limits::*;
use crate::prng::Prng;
use crate::tokens::graph_file_bytes;
use crate::writers::*;

#[derive(Clone, Debug)]
pub enum WriterCase {
    Graph {
        room: u32,
        content: GraphContent,
    },
    Anchors {
        room: u32,
        content: AnchorContent,
        graph_file: Vec<u8>,
    },
}

impl WriterCase {
    pub fn answer(&self) -> Result<Vec<u8>, Refusal> {
        match self {
            WriterCase::Graph { room, content } => write_graph(content, *room as usize),
            WriterCase::Anchors {
                room,
                content,
                graph_file,
            } => write_anchors(content, graph_file, *room as usize),
        }
    }

    pub fn line(&self) -> String {
        match self.answer() {
            Ok(bytes) => {
                let mut digest = Digest::new();
                digest.bytes(&bytes);
                format!("written {} {}", bytes.len(), digest.value())
            }
            Err(refusal) => refusal.line(),
        }
    }
}

/// Numbers that are likely to be wrong somewhere.
fn nonsense(prng: &mut Prng, near: u32) -> u32 {
    prng.pick(&[
        0,
        1,
        2,
        near,
        near.wrapping_add(1),
        near.wrapping_sub(1),
        16,
        17,
        1_024,
        1_025,
        2_048,
        2_049,
        4_096,
        4_097,
        5_000,
        32_767,
        32_768,
        32_769,
        65_535,
        65_536,
        1 << 31,
        u32::MAX - 1,
        u32::MAX,
    ])
}

/// A size at, above or below the full one.
fn resized(prng: &mut Prng, full: usize) -> usize {
    prng.pick(&[
        0,
        1,
        full / 2,
        full - 1,
        full - 1,
        full,
        full + 1,
        full + 100,
    ])
}

/// Random content for the graph writer.
pub fn random_graph_content(prng: &mut Prng) -> GraphContent {
    let graph = random_graph(prng, Size::Small);
    let mut content = GraphContent::of(&graph);
    let faults = prng.pick(&[0, 0, 1, 1, 1, 1, 2, 3]);
    for _ in 0..faults {
        spoil_graph_content(prng, &mut content);
    }
    if prng.chance(30) {
        // Something in the places that are not used.
        let last = LETTERS_SIZE - 1;
        content.letters[last] = b'x';
        content.lengths[LENGTHS_SIZE - 1] = u32::MAX;
        content.edges[EDGES_SIZE - 1] = u32::MAX;
        content.paths[PATHS_SIZE - 1] = u32::MAX;
        content.counts[COUNTS_SIZE - 1] = u32::MAX;
    }
    if prng.chance(10) {
        match prng.below(5) {
            0 => content.letters.resize(resized(prng, LETTERS_SIZE), 0),
            1 => content.lengths.resize(resized(prng, LENGTHS_SIZE), 0),
            2 => content.edges.resize(resized(prng, EDGES_SIZE), 0),
            3 => content.paths.resize(resized(prng, PATHS_SIZE), 0),
            _ => content.counts.resize(resized(prng, COUNTS_SIZE), 0),
        }
    }
    content
}

fn spoil_graph_content(prng: &mut Prng, content: &mut GraphContent) {
    let near = prng.between(0, 9) as u32;
    if prng.chance(50) {
        // A small slip: the numbers stay in range or close to it.
        return slip_in_graph_content(prng, content, near);
    }
    match prng.below(9) {
        0 => content.n = nonsense(prng, content.n),
        1 => content.m = nonsense(prng, content.m),
        2 => content.k = nonsense(prng, content.k),
        3 => {
            let at = prng.below(8);
            content.lengths[at] = nonsense(prng, near);
        }
        4 => {
            let at = prng.below(12);
            content.letters[at] = prng.pick(b"acgtNACGT\x00\xFF");
        }
        5 | 6 => {
            let at = prng.below(16);
            content.edges[at] = nonsense(prng, near);
        }
        7 => {
            let at = path_start(prng.between(1, 2)) + prng.below(5);
            content.paths[at] = nonsense(prng, near);
        }
        _ => {
            let at = prng.below(4);
            content.counts[at] = nonsense(prng, near);
        }
    }
}

fn slip_in_graph_content(prng: &mut Prng, content: &mut GraphContent, near: u32) {
    let edges = 2 * content.m as usize;
    let paths = content.k.clamp(1, MOST_PATHS) as usize;
    let i = prng.between(1, paths);
    match prng.below(7) {
        // One number of an edge; two edges that change places.
        0 if (1..EDGES_SIZE).contains(&edges) => content.edges[prng.below(edges)] = near,
        1 if (4..EDGES_SIZE).contains(&edges) => {
            let e = 2 * prng.below(edges / 2 - 1);
            content.edges.swap(e, e + 2);
            content.edges.swap(e + 1, e + 3);
        }
        // One edge less, or one vertex more, or one path less.
        2 => content.m = content.m.saturating_sub(1),
        3 => {
            let v = content.n.min(MOST_VERTICES - 1) as usize;
            content.lengths[v] = 1;
            let together: u64 = content.lengths[..v].iter().map(|&l| u64::from(l)).sum();
            if together < MOST_LABEL_LETTERS {
                content.letters[together as usize] = b'A';
            }
            content.n = content.n.saturating_add(1);
        }
        4 => content.k = content.k.saturating_sub(1),
        // A path one shorter; a path's vertex.
        5 => content.counts[i - 1] = content.counts[i - 1].saturating_sub(1),
        _ => {
            let count = content.counts[i - 1].clamp(1, MOST_VERTICES) as usize;
            content.paths[path_start(i) + prng.below(count)] = near;
        }
    }
}

/// Random content for the anchor writer, with the graph file it goes with.
pub fn random_anchor_content(prng: &mut Prng) -> (AnchorContent, Vec<u8>) {
    let graph = random_graph(prng, Size::Small);
    let anchors = random_anchors(prng, &graph, Size::Small);
    let mut content = AnchorContent::of(&anchors);
    let faults = prng.pick(&[0, 0, 1, 1, 1, 1, 2, 3]);
    for _ in 0..faults {
        spoil_anchor_content(prng, &mut content);
    }
    if prng.chance(30) {
        content.letters[LETTERS_SIZE - 1] = b'x';
        content.anchors[ANCHORS_SIZE - 1] = u32::MAX;
    }
    if prng.chance(8) {
        if prng.chance(50) {
            content.letters.resize(resized(prng, LETTERS_SIZE), 0);
        } else {
            content.anchors.resize(resized(prng, ANCHORS_SIZE), 0);
        }
    }
    let mut graph_file = graph_file_bytes(&graph);
    if prng.chance(8) {
        graph_file = crate::damage::damaged_graph(prng, &graph);
    }
    if prng.chance(1) {
        graph_file.resize(FILE_BYTES + 1, 0);
    }
    (content, graph_file)
}

fn spoil_anchor_content(prng: &mut Prng, content: &mut AnchorContent) {
    let near = prng.between(0, 9) as u32;
    match prng.below(9) {
        0 => content.r = nonsense(prng, content.r),
        1 => content.count = nonsense(prng, content.count),
        2 => {
            let at = prng.below(20);
            content.letters[at] = prng.pick(b"acgtNACGTACGT\x00\xFF");
        }
        // A letter changed for another.
        3 => {
            let at = prng.below(content.r.clamp(1, 32_768) as usize);
            content.letters[at] = prng.pick(b"ACGT");
        }
        4 => {
            // Two anchors the same, but perhaps for the weight.
            for offset in 0..prng.pick(&[4, 5]) {
                content.anchors[5 + offset] = content.anchors[offset];
            }
        }
        // A number of an anchor.
        _ => {
            let at = prng.below(20);
            content.anchors[at] = nonsense(prng, near);
        }
    }
}

/// A room for an encoding of this length.
fn random_room(prng: &mut Prng, length: usize) -> u32 {
    let length = length as u32;
    match prng.below(6) {
        0 => length,
        1 => length.saturating_sub(1),
        2 => prng.between(0, length as usize) as u32,
        3 => 0,
        4 => length + 7,
        _ => FILE_BYTES as u32,
    }
}

/// The fixed cases: the limits, the hand cases.
fn fixed_cases() -> Vec<WriterCase> {
    let mut cases = Vec::new();
    let mut graph_case = |content: GraphContent, room: usize| {
        cases.push(WriterCase::Graph {
            room: room as u32,
            content,
        });
    };
    // Exactly 65,536 bytes, with room, without; then one byte more.
    let exact = GraphContent::of(&graph_of_file_length(FILE_BYTES));
    graph_case(exact.clone(), FILE_BYTES);
    graph_case(exact.clone(), FILE_BYTES - 1);
    graph_case(exact, FILE_BYTES + 9);
    let over = GraphContent::of(&graph_of_file_length(FILE_BYTES + 1));
    graph_case(over.clone(), FILE_BYTES + 1);
    graph_case(over, 0);
    // Every limit at once: longer than a file may be.
    graph_case(GraphContent::of(&all_limits()), 100_000);
    // The same with a fault of the content, which comes before the length.
    let mut faulty = GraphContent::of(&all_limits());
    faulty.counts[15] = 1_025;
    graph_case(faulty, 100_000);
    // Counts that are no counts, all else 0.
    let empty = GraphContent {
        n: 0,
        m: 0,
        k: 0,
        letters: vec![0; LETTERS_SIZE],
        lengths: vec![0; LENGTHS_SIZE],
        edges: vec![0; EDGES_SIZE],
        paths: vec![0; PATHS_SIZE],
        counts: vec![0; COUNTS_SIZE],
    };
    for n in [0, 1, 5_000, u32::MAX] {
        graph_case(
            GraphContent {
                n,
                m: u32::MAX,
                k: u32::MAX,
                ..empty.clone()
            },
            0,
        );
    }
    // Lengths whose sum would wrap round.
    let mut wrapping = GraphContent::of(&hand::g2());
    wrapping.lengths[1] = u32::MAX;
    graph_case(wrapping.clone(), 100);
    wrapping.lengths[0] = u32::MAX;
    wrapping.lengths[1] = 2;
    graph_case(wrapping, 100);

    for (graph_file, anchor_file) in hand::pairs() {
        let graph = crate::graph_file::read_graph(&graph_file)
            .expect("a good file")
            .graph;
        let anchors = crate::anchor_file::read_anchors(&graph, &anchor_file).expect("a good file");
        let content = AnchorContent::of(&anchors.content);
        for room in [anchor_file.len(), anchor_file.len() - 1, 0] {
            cases.push(WriterCase::Anchors {
                room: room as u32,
                content: content.clone(),
                graph_file: graph_file.clone(),
            });
            let content = GraphContent::of(&graph);
            let room = room.max(graph_file.len() - 1);
            cases.push(WriterCase::Graph {
                room: room as u32,
                content,
            });
        }
    }
    cases
}

/// The fixed cases, then random ones, `count` in all.
pub fn writer_cases(seed: u64, count: usize) -> Vec<WriterCase> {
    let mut prng = Prng::new(seed);
    let mut cases = fixed_cases();
    cases.truncate(count);
    while cases.len() < count {
        let case = if prng.chance(50) {
            let content = random_graph_content(&mut prng);
            WriterCase::Graph {
                room: u32::MAX,
                content,
            }
        } else {
            let (content, graph_file) = random_anchor_content(&mut prng);
            WriterCase::Anchors {
                room: u32::MAX,
                content,
                graph_file,
            }
        };
        // The room goes by the length of the encoding, if there is one.
        let length = case.answer().map_or(30, |bytes| bytes.len());
        let room = random_room(&mut prng, length);
        cases.push(match case {
            WriterCase::Graph { content, .. } => WriterCase::Graph { room, content },
            WriterCase::Anchors {
                content,
                graph_file,
                ..
            } => WriterCase::Anchors {
                room,
                content,
                graph_file,
            },
        });
    }
    cases
}

fn put(bytes: &mut Vec<u8>, number: usize) {
    bytes.extend((number as u32).to_le_bytes());
}

/// A buffer: its size, how many runs, then each run of places that are not 0:
/// its first place, how many, and the entries.
fn put_buffer<T: Copy + Default + PartialEq>(
    bytes: &mut Vec<u8>,
    buffer: &[T],
    entry: impl Fn(T) -> Vec<u8>,
) {
    let zero = T::default();
    let mut runs: Vec<(usize, usize)> = Vec::new();
    let mut at = 0;
    while at < buffer.len() {
        if buffer[at] == zero {
            at += 1;
            continue;
        }
        let start = at;
        while at < buffer.len() && buffer[at] != zero {
            at += 1;
        }
        runs.push((start, at));
    }
    put(bytes, buffer.len());
    put(bytes, runs.len());
    for (start, end) in runs {
        put(bytes, start);
        put(bytes, end - start);
        for &value in &buffer[start..end] {
            bytes.extend(entry(value));
        }
    }
}

pub fn cases_file(cases: &[WriterCase]) -> Vec<u8> {
    let letter = |byte: u8| vec![byte];
    let number = |number: u32| number.to_le_bytes().to_vec();
    let mut bytes = Vec::new();
    for case in cases {
        match case {
            WriterCase::Graph { room, content } => {
                bytes.push(1);
                for value in [*room, content.n, content.m, content.k] {
                    put(&mut bytes, value as usize);
                }
                put_buffer(&mut bytes, &content.letters, letter);
                put_buffer(&mut bytes, &content.lengths, number);
                put_buffer(&mut bytes, &content.edges, number);
                put_buffer(&mut bytes, &content.paths, number);
                put_buffer(&mut bytes, &content.counts, number);
            }
            WriterCase::Anchors {
                room,
                content,
                graph_file,
            } => {
                bytes.push(2);
                put(&mut bytes, *room as usize);
                put(&mut bytes, graph_file.len());
                bytes.extend(graph_file);
                put(&mut bytes, content.r as usize);
                put(&mut bytes, content.count as usize);
                put_buffer(&mut bytes, &content.letters, letter);
                put_buffer(&mut bytes, &content.anchors, number);
            }
        }
    }
    bytes.push(0);
    bytes
}

pub fn expected_text(cases: &[WriterCase]) -> String {
    cases.iter().map(|case| case.line() + "\n").collect()
}
