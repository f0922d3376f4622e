//! Files with cells that share names, and texts to look for in them.

use super::elements;
use super::files::{self, finish, Valid};
use super::places::scan;
use super::random::Random;
use super::texts;
use super::tree::Node;
use crate::names::unpack;
use crate::words::words_of;

/// The offset of the name in a cell's own words.
fn name_offset(kind: u64) -> Option<usize> {
    match kind {
        1 => Some(16),
        2 => Some(19),
        _ => None,
    }
}

/// A small valid file whose cells share a few names. Words may stand behind
/// its marker.
pub fn cells(random: &mut Random, dim: u64) -> Valid {
    let nodes = nodes(random, dim);
    let number = if random.one_in(4) { random.index(5) } else { 0 };
    let after = random.words(number);
    finish(&nodes, dim, &after)
}

/// The same, ending with its marker as a session needs it.
pub fn cells_to_marker(random: &mut Random, dim: u64) -> Valid {
    let nodes = nodes(random, dim);
    finish(&nodes, dim, &[])
}

/// Elements of all sorts and some cells more, at the top and in one another.
fn nodes(random: &mut Random, dim: u64) -> Vec<Node> {
    let mut nodes = if random.one_in(2) {
        files::nodes(random, dim)
    } else {
        Vec::new()
    };
    for _ in 0..random.pick(&[0, 1, 2, 3, 4, 5, 7, 8, 9, 15, 16, 17]) {
        let kind = random.pick(&[1, 2, 2]);
        let mut node = Node::new(elements::single(random, dim, kind, false));
        if random.one_in(3) {
            let inner = elements::single(random, dim, 2, true);
            node.under.push(Node::new(inner));
        }
        let at = random.index(nodes.len() + 1);
        nodes.insert(at, node);
    }
    let pool = pool(random);
    for node in &mut nodes {
        share(random, node, &pool);
    }
    nodes
}

/// A few names, some next to one another in the order of the words, or with
/// the two words exchanged.
fn pool(random: &mut Random) -> Vec<(u16, u16)> {
    let mut pool = vec![texts::name_words(random)];
    for _ in 0..random.below(4) {
        let (first, second) = random.pick(&pool);
        let good = |word: u16| unpack(word, 0).is_ok();
        let near = match random.below(5) {
            0 => (first.wrapping_add(1), second),
            1 => (first, second.wrapping_add(1)),
            2 => (first, second.wrapping_sub(1)),
            3 => (second, first),
            _ => texts::name_words(random),
        };
        if good(near.0) && good(near.1) {
            pool.push(near);
        }
    }
    pool
}

/// Gives most cells of a tree a name of the pool, and deletes some.
fn share(random: &mut Random, node: &mut Node, pool: &[(u16, u16)]) {
    if let Some(offset) = name_offset(node.kind()) {
        if !random.one_in(8) {
            let (first, second) = random.pick(pool);
            node.own[offset] = first;
            node.own[offset + 1] = second;
        }
        if random.one_in(3) {
            node.own[0] |= 1 << 15;
        }
    }
    for under in &mut node.under {
        share(random, under, pool);
    }
}

/// A text to look for: mostly the name of one of the file's cells.
pub fn text_for(random: &mut Random, file: &[u8]) -> Vec<u8> {
    let words = words_of(file);
    let names: Vec<(u16, u16)> = scan(file)
        .0
        .iter()
        .filter_map(|start| {
            let at = start.place as usize + name_offset(start.kind)?;
            Some((*words.get(at)?, *words.get(at + 1)?))
        })
        .collect();
    if names.is_empty() || random.one_in(4) {
        return texts::any_text(random);
    }
    let (first, second) = random.pick(&names);
    unpack(first, second).unwrap_or_default()
}
