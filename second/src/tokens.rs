//! Files as a row of tokens, each with its role: what good files are encoded
//! from, and what damage works on. Nothing is checked here.

use crate::anchor_file::Anchors;
use crate::graph_file::Graph;
use crate::number::write_number;

#[derive(Clone, Copy, Debug, PartialEq, Eq)]
pub enum Role {
    Kind,
    VertexCount,
    LabelLength,
    LabelLetter,
    EdgeCount,
    EdgeFrom,
    EdgeTo,
    PathCount,
    PathLength,
    PathVertex,
    ReadLength,
    ReadLetter,
    AnchorCount,
    AnchorVertex,
    AnchorX,
    AnchorC,
    AnchorLength,
    AnchorWeight,
    /// Bytes that are no part of the file.
    Extra,
}

#[derive(Clone, Debug)]
pub struct Token {
    pub role: Role,
    pub bytes: Vec<u8>,
    pub value: u32,
}

impl Token {
    /// A number in its fewest bytes.
    pub fn number(role: Role, value: u32) -> Token {
        Token {
            role,
            bytes: write_number(value),
            value,
        }
    }

    /// One byte where a letter should stand.
    pub fn letter(role: Role, byte: u8) -> Token {
        Token {
            role,
            bytes: vec![byte],
            value: u32::from(byte),
        }
    }

    /// Any bytes.
    pub fn extra(bytes: Vec<u8>) -> Token {
        Token {
            role: Role::Extra,
            bytes,
            value: 0,
        }
    }

    pub fn is_letter(&self) -> bool {
        matches!(self.role, Role::LabelLetter | Role::ReadLetter)
    }

    pub fn is_number(&self) -> bool {
        !self.is_letter() && self.role != Role::Extra
    }
}

pub fn graph_tokens(graph: &Graph) -> Vec<Token> {
    let mut tokens = vec![
        Token::number(Role::Kind, 1),
        Token::number(Role::VertexCount, graph.labels.len() as u32),
    ];
    for label in &graph.labels {
        tokens.push(Token::number(Role::LabelLength, label.len() as u32));
        for &byte in label {
            tokens.push(Token::letter(Role::LabelLetter, byte));
        }
    }
    tokens.push(Token::number(Role::EdgeCount, graph.edges.len() as u32));
    for &(from, to) in &graph.edges {
        tokens.push(Token::number(Role::EdgeFrom, from));
        tokens.push(Token::number(Role::EdgeTo, to));
    }
    tokens.push(Token::number(Role::PathCount, graph.paths.len() as u32));
    for path in &graph.paths {
        tokens.push(Token::number(Role::PathLength, path.len() as u32));
        for &vertex in path {
            tokens.push(Token::number(Role::PathVertex, vertex));
        }
    }
    tokens
}

pub fn anchor_tokens(content: &Anchors) -> Vec<Token> {
    let mut tokens = vec![
        Token::number(Role::Kind, 2),
        Token::number(Role::ReadLength, content.read.len() as u32),
    ];
    for &byte in &content.read {
        tokens.push(Token::letter(Role::ReadLetter, byte));
    }
    tokens.push(Token::number(
        Role::AnchorCount,
        content.anchors.len() as u32,
    ));
    for anchor in &content.anchors {
        tokens.push(Token::number(Role::AnchorVertex, anchor.v));
        tokens.push(Token::number(Role::AnchorX, anchor.x));
        tokens.push(Token::number(Role::AnchorC, anchor.c));
        tokens.push(Token::number(Role::AnchorLength, anchor.length));
        tokens.push(Token::number(Role::AnchorWeight, anchor.weight));
    }
    tokens
}

/// The bytes of a row of tokens.
pub fn bytes_of(tokens: &[Token]) -> Vec<u8> {
    tokens
        .iter()
        .flat_map(|token| token.bytes.iter().copied())
        .collect()
}

pub fn graph_file_bytes(graph: &Graph) -> Vec<u8> {
    bytes_of(&graph_tokens(graph))
}

pub fn anchor_file_bytes(content: &Anchors) -> Vec<u8> {
    bytes_of(&anchor_tokens(content))
}
