//! Valid files.

use super::elements;
use super::random::Random;
use super::tree::{lay, Node};
use crate::words::bytes_of;

/// A valid file and what judging must report of it.
#[derive(Debug, Clone)]
pub struct Valid {
    pub file: Vec<u8>,
    pub dim: u64,
    pub elements: u64,
    pub deepest: u64,
    pub marker: u64,
}

/// 2 or 3.
pub fn dimension(random: &mut Random) -> u64 {
    2 + random.below(2)
}

/// A small valid file.
pub fn valid(random: &mut Random, dim: u64) -> Valid {
    let nodes = nodes(random, dim);
    let after = match random.below(4) {
        0 => {
            let number = random.index(5);
            let mut words = random.words(number);
            if random.one_in(3) {
                words.push(65535);
            }
            words
        }
        _ => Vec::new(),
    };
    finish(&nodes, dim, &after)
}

/// A small valid file that ends with its marker, as a session needs it.
pub fn valid_to_marker(random: &mut Random, dim: u64) -> Valid {
    let nodes = nodes(random, dim);
    finish(&nodes, dim, &[])
}

/// The top-level elements of a small file.
pub fn nodes(random: &mut Random, dim: u64) -> Vec<Node> {
    let mut nodes = Vec::new();
    if random.one_in(12) {
        nodes.push(deep(random, dim));
    }
    let mut budget = random.below(9);
    while budget > 0 {
        nodes.push(elements::tree(random, dim, 0, None, &mut budget));
    }
    // More elements in one extent than a word has bits.
    if random.one_in(12) {
        nodes.push(wide(random, dim));
    }
    // A text in nearly every file, alone or with others under a node.
    if !random.one_in(8) {
        let kind = random.pick(&[17, 17, 7]);
        let mut budget = 3;
        let text = elements::tree_of(random, dim, kind, 0, false, &mut budget);
        let at = random.index(nodes.len() + 1);
        nodes.insert(at, text);
    }
    // An ellipse or an arc in every other file, alone or in a chain or shape.
    if random.one_in(2) {
        let inner = random.one_in(3);
        let kind = random.pick(&[15, 16]);
        let mut node = Node::new(elements::single(random, dim, kind, inner));
        if inner {
            let above = random.pick(&[2, 12, 14]);
            node = elements::under(random, dim, above, 0, node);
        }
        let at = random.index(nodes.len() + 1);
        nodes.insert(at, node);
    }
    nodes
}

/// A cell, alone or in another, of some tens of elements.
fn wide(random: &mut Random, dim: u64) -> Node {
    let inner = random.one_in(2);
    let mut cell = Node::new(elements::single(random, dim, 2, inner));
    let number = random.pick(&[14, 15, 16, 17, 20, 30, 31, 32, 33, 40]);
    for _ in 0..number {
        let kind = random.pick(&[0, 5, 9, 66]);
        cell.under
            .push(Node::new(elements::raw(random, kind, true)));
    }
    if inner {
        cell = elements::under(random, dim, 2, 0, cell);
    }
    cell
}

/// A nest down to depth 8, or nearly.
fn deep(random: &mut Random, dim: u64) -> Node {
    let depth = 6 + random.below(3);
    let kind = if depth < 8 {
        elements::kind(random, dim, Some(2))
    } else {
        random.pick(&[2, 3, 9, 12])
    };
    let last = Node::new(elements::single(random, dim, kind, true));
    elements::chain(random, dim, depth, last)
}

/// Lays out the elements, the marker and the words after it.
pub fn finish(nodes: &[Node], dim: u64, after: &[u16]) -> Valid {
    let laid = lay(nodes);
    let marker = laid.words.len() as u64;
    let mut words = laid.words;
    words.push(65535);
    words.extend_from_slice(after);
    Valid {
        file: bytes_of(&words),
        dim,
        elements: laid.elements,
        deepest: laid.deepest,
        marker,
    }
}
