//! Files of cells with components of every kind.

use super::elements::{self, POINTED};
use super::files::finish;
use super::random::Random;
use super::tree::Node;

/// The four words of a level mask: any, none, all, or a few bits.
fn mask(random: &mut Random) -> [u16; 4] {
    let kind = random.below(4);
    [0; 4].map(|_: u16| match kind {
        0 => random.word(),
        1 => random.pick(&[0, 0xFFFF]),
        2 => 1 << random.below(16) | 1 << random.below(16),
        _ => random.pick(&[0, 1, 0x8000, 0x8001, 0x5555, 0xFFFE, 0x7FFF]),
    })
}

/// A type for a component of a cell, each of the six kinds alike.
fn kind(random: &mut Random, dim: u64) -> u64 {
    match random.below(6) {
        0 => 3,
        1 => random.pick(&POINTED),
        2 => 17,
        3 => random.pick(&[15, 16]),
        4 if dim == 3 => random.pick(&[2, 7, 12, 14, 18, 19]),
        4 => random.pick(&[2, 7, 12, 14]),
        _ => elements::raw_kind(random),
    }
}

/// Deletes an element one time in three, and makes it live otherwise.
fn mix(random: &mut Random, own: &mut [u16]) {
    own[0] &= 0x7FFF;
    if random.one_in(3) {
        own[0] |= 1 << 15;
    }
}

/// A cell with some components, which may be cells and other headers again.
fn cell(random: &mut Random, dim: u64, cell_kind: u64, depth: u64) -> Node {
    let mut own = elements::single(random, dim, cell_kind, depth > 0);
    own[22..26].copy_from_slice(&mask(random));
    mix(random, &mut own);
    let mut under = Vec::new();
    for _ in 0..random.below(7) {
        let kind = kind(random, dim);
        let mut node = if kind == 2 && depth < 3 {
            cell(random, dim, 2, depth + 1)
        } else {
            Node::new(elements::single(random, dim, kind, true))
        };
        mix(random, &mut node.own);
        if matches!(kind, 7 | 12 | 14 | 18 | 19) {
            // What stands under it is no direct component of the cell.
            let inner = if kind == 7 {
                17
            } else {
                random.pick(&[3, 4, 15, 17])
            };
            for _ in 0..random.below(3) {
                let own = elements::single(random, dim, inner, true);
                node.under.push(Node::new(own));
            }
        }
        under.push(node);
    }
    Node::with(own, under)
}

/// A valid file of cells of both types and some other elements.
pub fn plates(random: &mut Random, dim: u64) -> Vec<u8> {
    let mut nodes = Vec::new();
    for _ in 0..random.below(5) {
        nodes.push(match random.below(6) {
            0 => {
                let kind = kind(random, dim);
                Node::new(elements::single(random, dim, kind, false))
            }
            1 | 2 => cell(random, dim, 1, 0),
            _ => cell(random, dim, 2, 0),
        });
    }
    let number = random.index(3);
    let after = random.words(number);
    finish(&nodes, dim, &after).file
}
