//! Damaged files: for each refusal number in several ways, several faults at
//! once, and changes of bytes that know nothing of the file.

use crate::anchor_file::Anchors;
use crate::graph_file::Graph;
use crate::limits::*;
use crate::prng::Prng;
use crate::tokens::*;

/// A damaged graph file, usually small.
pub fn damaged_graph(prng: &mut Prng, graph: &Graph) -> Vec<u8> {
    let mut tokens = graph_tokens(graph);
    let faults = prng.pick(&[1, 1, 1, 1, 2, 2, 3]);
    for _ in 0..faults {
        let number = prng.pick(&[2, 3, 4, 4, 5, 6, 6, 7, 7, 7, 8, 8, 9, 10]);
        damage_graph_tokens(prng, &mut tokens, number, graph.n() as u32);
    }
    finish(prng, bytes_of(&tokens))
}

/// A damaged anchor file.
pub fn damaged_anchors(prng: &mut Prng, graph: &Graph, content: &Anchors) -> Vec<u8> {
    let mut tokens = anchor_tokens(content);
    let faults = prng.pick(&[1, 1, 1, 1, 2, 2, 3]);
    for _ in 0..faults {
        let number = prng.pick(&[2, 3, 4, 4, 5, 6, 6, 7, 7, 7, 10, 11, 11, 11, 12, 12, 12]);
        damage_anchor_tokens(prng, &mut tokens, number, graph, content.read.len() as u32);
    }
    finish(prng, bytes_of(&tokens))
}

/// Sometimes a truncation on top.
fn finish(prng: &mut Prng, mut bytes: Vec<u8>) -> Vec<u8> {
    if prng.chance(10) {
        let length = prng.between(0, bytes.len());
        bytes.truncate(length);
    }
    bytes
}

/// Changes that know nothing of the file.
pub fn changed_bytes(prng: &mut Prng, bytes: &[u8]) -> Vec<u8> {
    let mut bytes = bytes.to_vec();
    for _ in 0..prng.pick(&[1, 1, 1, 2, 4]) {
        match prng.below(7) {
            // Truncation.
            0 => {
                let length = prng.between(0, bytes.len());
                bytes.truncate(length);
            }
            // One byte changed to anything, by one, or in one bit.
            1 if !bytes.is_empty() => {
                let at = prng.below(bytes.len());
                bytes[at] = prng.below(256) as u8;
            }
            2 if !bytes.is_empty() => {
                let at = prng.below(bytes.len());
                bytes[at] = bytes[at].wrapping_add(prng.pick(&[1, 255, 128]));
            }
            3 if !bytes.is_empty() => {
                let at = prng.below(bytes.len());
                bytes[at] ^= 1 << prng.below(8);
            }
            // Insertion, removal, and extra bytes.
            4 => {
                let at = prng.between(0, bytes.len());
                bytes.insert(at, prng.below(256) as u8);
            }
            5 if !bytes.is_empty() => {
                let at = prng.below(bytes.len());
                bytes.remove(at);
            }
            _ => {
                for _ in 0..prng.between(1, 5) {
                    bytes.push(prng.below(256) as u8);
                }
            }
        }
    }
    bytes
}

/// Bytes of nothing in particular; low values, so that they look like a file
/// for a while.
pub fn random_bytes(prng: &mut Prng, kind: u8) -> Vec<u8> {
    let length = prng.between(0, 40);
    let mut bytes = Vec::new();
    for _ in 0..length {
        bytes.push(match prng.below(4) {
            0 => prng.below(256) as u8,
            1 => prng.pick(b"ACGT"),
            _ => prng.below(5) as u8,
        });
    }
    if !bytes.is_empty() && prng.chance(80) {
        bytes[0] = kind;
    }
    bytes
}

/// The places of the tokens of the roles given.
fn places(tokens: &[Token], roles: &[Role]) -> Vec<usize> {
    (0..tokens.len())
        .filter(|&at| roles.contains(&tokens[at].role))
        .collect()
}

/// One place of a token of the roles given, if there is any.
fn some_place(prng: &mut Prng, tokens: &[Token], roles: &[Role]) -> Option<usize> {
    let all = places(tokens, roles);
    if all.is_empty() {
        return None;
    }
    Some(prng.pick(&all))
}

fn set(tokens: &mut [Token], at: usize, value: u32) {
    tokens[at] = Token::number(tokens[at].role, value);
}

/// Sets one token of the role to one of the values.
fn set_some(prng: &mut Prng, tokens: &mut [Token], role: Role, values: &[u32]) {
    if let Some(at) = some_place(prng, tokens, &[role]) {
        let value = prng.pick(values);
        set(tokens, at, value);
    }
}

/// Adds to the count of the role.
fn add_to_count(tokens: &mut [Token], role: Role, more: i64) {
    if let Some(&at) = places(tokens, &[role]).first() {
        let value = (i64::from(tokens[at].value) + more).clamp(0, i64::from(u32::MAX));
        set(tokens, at, value as u32);
    }
}

/// A number not in fewest bytes, or too great: by the token's own value with
/// groups 0 added, or by a fifth byte above 15.
fn spoil_number(prng: &mut Prng, tokens: &mut [Token]) {
    let numbers: Vec<usize> = (0..tokens.len())
        .filter(|&at| tokens[at].is_number())
        .collect();
    if numbers.is_empty() {
        return;
    }
    let at = prng.pick(&numbers);
    let bytes = &mut tokens[at].bytes;
    if prng.chance(50) {
        // Over-long: each more group says nothing.
        for _ in 0..prng.between(1, 5) {
            let last = bytes.len() - 1;
            bytes[last] |= 128;
            bytes.push(0);
        }
    } else {
        *bytes = (0..4).map(|_| prng.pick(&[0x80, 0x81, 0xFF])).collect();
        bytes.push(prng.pick(&[0, 16, 17, 31, 127, 128, 129, 255]));
        if prng.chance(30) {
            bytes.push(1);
        }
    }
}

/// A byte that is no letter, often one near to a letter.
fn no_letter(prng: &mut Prng) -> u8 {
    loop {
        let byte = match prng.below(3) {
            0 => prng.pick(b"acgtNUBDFHS@"),
            1 => prng.pick(&[0, 1, 0x80, 0xC1, 0xFF]),
            _ => prng.below(256) as u8,
        };
        if !matches!(byte, b'A' | b'C' | b'G' | b'T') {
            return byte;
        }
    }
}

/// Values that are no vertex of n.
fn no_vertex(prng: &mut Prng, n: u32) -> u32 {
    prng.pick(&[0, n + 1, n + 2, 128.max(n + 1), 1_025, 65_536, u32::MAX])
}

fn damage_graph_tokens(prng: &mut Prng, tokens: &mut Vec<Token>, number: u32, n: u32) {
    match number {
        2 => spoil_number(prng, tokens),
        3 => set_some(
            prng,
            tokens,
            Role::Kind,
            &[0, 2, 3, 65, 127, 128, 129, 257, u32::MAX],
        ),
        4 => match prng.below(9) {
            0 => set_some(
                prng,
                tokens,
                Role::VertexCount,
                &[0, 1_025, 1_026, 16_384, u32::MAX],
            ),
            1 => {
                let values = [0, 32_768, 32_769, 65_536, u32::MAX];
                set_some(prng, tokens, Role::LabelLength, &values);
            }
            2 => set_some(
                prng,
                tokens,
                Role::EdgeCount,
                &[4_097, 4_098, 65_536, u32::MAX],
            ),
            3 => set_some(prng, tokens, Role::PathCount, &[0, 17, 18, 255, u32::MAX]),
            4 | 5 => set_some(
                prng,
                tokens,
                Role::PathLength,
                &[0, n + 1, n + 2, 1_025, u32::MAX],
            ),
            // Counts off by one: the rest is read as something else.
            6 => add_to_count(tokens, Role::VertexCount, prng.pick(&[-1, 1])),
            7 => add_to_count(tokens, Role::EdgeCount, prng.pick(&[-1, 1])),
            _ => add_to_count(tokens, Role::PathCount, prng.pick(&[-1, 1])),
        },
        5 => {
            if let Some(at) = some_place(prng, tokens, &[Role::LabelLetter]) {
                tokens[at] = Token::letter(Role::LabelLetter, no_letter(prng));
            }
        }
        6 => {
            let roles = [Role::EdgeFrom, Role::EdgeTo, Role::PathVertex];
            let role = prng.pick(&roles);
            let value = no_vertex(prng, n);
            set_some(prng, tokens, role, &[value]);
        }
        7 => match prng.below(5) {
            // Two edges that change places.
            0 => {
                let all = places(tokens, &[Role::EdgeFrom]);
                if all.len() >= 2 {
                    let k = prng.below(all.len() - 1);
                    tokens.swap(all[k], all[k + 1]);
                    tokens.swap(all[k] + 1, all[k + 1] + 1);
                }
            }
            // An edge twice.
            1 => {
                if let Some(at) = some_place(prng, tokens, &[Role::EdgeFrom]) {
                    if at + 1 < tokens.len() {
                        let copies = [tokens[at].clone(), tokens[at + 1].clone()];
                        tokens.splice(at..at, copies);
                        add_to_count(tokens, Role::EdgeCount, 1);
                    }
                }
            }
            // Two vertices of a path that change places.
            2 => {
                let all = places(tokens, &[Role::PathVertex]);
                if all.len() >= 2 {
                    let k = prng.below(all.len() - 1);
                    tokens.swap(all[k], all[k + 1]);
                }
            }
            // A path's vertex the same as the one before it.
            3 => {
                let all = places(tokens, &[Role::PathVertex]);
                if all.len() >= 2 {
                    let k = prng.below(all.len() - 1);
                    let value = tokens[all[k]].value;
                    set(tokens, all[k + 1], value);
                }
            }
            // A path's vertex changed for any other.
            _ => {
                let value = prng.between(1, n as usize) as u32;
                set_some(prng, tokens, Role::PathVertex, &[value]);
            }
        },
        8 => match prng.below(2) {
            // An edge taken away.
            0 => {
                if let Some(at) = some_place(prng, tokens, &[Role::EdgeFrom]) {
                    if at + 1 < tokens.len() {
                        tokens.drain(at..at + 2);
                        add_to_count(tokens, Role::EdgeCount, -1);
                    }
                }
            }
            // A vertex of a path left out.
            _ => leave_out_path_vertex(prng, tokens),
        },
        9 => match prng.below(2) {
            // One more vertex, on no path.
            0 => {
                if let Some(&at) = places(tokens, &[Role::EdgeCount]).first() {
                    let label = [
                        Token::number(Role::LabelLength, 1),
                        Token::letter(Role::LabelLetter, prng.pick(b"ACGT")),
                    ];
                    tokens.splice(at..at, label);
                    add_to_count(tokens, Role::VertexCount, 1);
                }
            }
            // The last vertex of the last path left out.
            _ => {
                if tokens
                    .last()
                    .is_some_and(|token| token.role == Role::PathVertex)
                {
                    let count = places(tokens, &[Role::PathLength]);
                    if let Some(&at) = count.last() {
                        if tokens[at].value > 1 {
                            let value = tokens[at].value - 1;
                            set(tokens, at, value);
                            tokens.pop();
                        }
                    }
                }
            }
        },
        _ => tokens.push(Token::extra(extra_bytes(prng))),
    }
}

/// A vertex left out of a path, with the count one less.
fn leave_out_path_vertex(prng: &mut Prng, tokens: &mut Vec<Token>) {
    if let Some(at) = some_place(prng, tokens, &[Role::PathVertex]) {
        let mut count = at;
        while count > 0 && tokens[count].role != Role::PathLength {
            count -= 1;
        }
        if tokens[count].role == Role::PathLength && tokens[count].value > 1 {
            let value = tokens[count].value - 1;
            set(tokens, count, value);
            tokens.remove(at);
        }
    }
}

fn extra_bytes(prng: &mut Prng) -> Vec<u8> {
    (0..prng.between(1, 4))
        .map(|_| prng.pick(&[0, 1, 65, 128, 255]))
        .collect()
}

fn damage_anchor_tokens(
    prng: &mut Prng,
    tokens: &mut Vec<Token>,
    number: u32,
    graph: &Graph,
    r: u32,
) {
    let n = graph.n() as u32;
    match number {
        2 => spoil_number(prng, tokens),
        3 => set_some(
            prng,
            tokens,
            Role::Kind,
            &[0, 1, 3, 65, 127, 128, 130, 258, u32::MAX],
        ),
        4 => match prng.below(6) {
            0 => set_some(
                prng,
                tokens,
                Role::ReadLength,
                &[0, 32_769, 65_536, u32::MAX],
            ),
            1 => set_some(
                prng,
                tokens,
                Role::AnchorCount,
                &[2_049, 2_050, 16_384, u32::MAX],
            ),
            2 => add_to_count(tokens, Role::ReadLength, prng.pick(&[-1, 1])),
            3 => add_to_count(tokens, Role::AnchorCount, prng.pick(&[-1, 1])),
            _ => set_some(
                prng,
                tokens,
                Role::AnchorWeight,
                &[0, 65_536, 65_537, u32::MAX],
            ),
        },
        5 => {
            if let Some(at) = some_place(prng, tokens, &[Role::ReadLetter]) {
                tokens[at] = Token::letter(Role::ReadLetter, no_letter(prng));
            }
        }
        6 => {
            let value = no_vertex(prng, n);
            set_some(prng, tokens, Role::AnchorVertex, &[value]);
        }
        7 => {
            let all = places(tokens, &[Role::AnchorVertex]);
            // Whole anchors are five tokens; after other damage they may not be.
            let whole = |at: usize, tokens: &[Token]| {
                at + 4 < tokens.len() && tokens[at + 4].role == Role::AnchorWeight
            };
            match prng.below(3) {
                // Two anchors that change places.
                0 => {
                    if all.len() >= 2 {
                        let k = prng.below(all.len() - 1);
                        if whole(all[k], tokens) && whole(all[k + 1], tokens) {
                            for offset in 0..5 {
                                tokens.swap(all[k] + offset, all[k + 1] + offset);
                            }
                        }
                    }
                }
                // An anchor twice, the second perhaps of another weight.
                _ => {
                    if !all.is_empty() {
                        let at = prng.pick(&all);
                        if whole(at, tokens) {
                            let mut copies = tokens[at..at + 5].to_vec();
                            if prng.chance(50) {
                                let weight = prng.between(1, 9) as u32;
                                copies[4] = Token::number(Role::AnchorWeight, weight);
                            }
                            tokens.splice(at..at, copies);
                            add_to_count(tokens, Role::AnchorCount, 1);
                        }
                    }
                }
            }
        }
        10 => tokens.push(Token::extra(extra_bytes(prng))),
        11 => {
            let role = prng.pick(&[Role::AnchorX, Role::AnchorC, Role::AnchorLength]);
            let longest = graph.labels.iter().map(Vec::len).max().unwrap_or(1) as u32;
            // 0; just past the label or the read; sums that would wrap.
            let values = [
                0,
                longest,
                longest + 1,
                r,
                r + 1,
                32_768,
                32_769,
                u32::MAX - 1,
                u32::MAX,
                u32::MAX / 2 + 1,
            ];
            set_some(prng, tokens, role, &values);
        }
        // 12.
        _ => match prng.below(3) {
            // A letter of the read changed for another letter.
            0 | 1 => {
                if let Some(at) = some_place(prng, tokens, &[Role::ReadLetter]) {
                    tokens[at] = Token::letter(Role::ReadLetter, prng.pick(b"ACGT"));
                }
            }
            // x, c or the length moved by one.
            _ => {
                let role = prng.pick(&[Role::AnchorX, Role::AnchorC, Role::AnchorLength]);
                if let Some(at) = some_place(prng, tokens, &[role]) {
                    let value = tokens[at].value.wrapping_add(prng.pick(&[1, u32::MAX]));
                    set(tokens, at, value);
                }
            }
        },
    }
}

/// Bytes made longer, to just `length` bytes.
pub fn padded(bytes: &[u8], length: usize, with: u8) -> Vec<u8> {
    let mut bytes = bytes.to_vec();
    bytes.resize(length, with);
    assert!(length <= FILE_BYTES + 2);
    bytes
}
