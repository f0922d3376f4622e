//! Files of points with ranges around them, or nearly so.

use super::elements::{self, POINTED};
use super::files::finish;
use super::random::Random;
use super::tree::Node;

/// A coordinate: small, near a limit, or any.
fn coordinate(random: &mut Random) -> i32 {
    match random.below(6) {
        0 => random.pick(&[i32::MIN, i32::MIN + 1, -1, 0, 1, i32::MAX - 1, i32::MAX]),
        1 => random.draw() as i32,
        _ => random.below(9) as i32 - 4,
    }
}

/// The ends of an axis for its coordinates: those that just hold them, moved
/// in or out a little at one end, exchanged, or any.
fn ends(random: &mut Random, values: &[i32]) -> (i32, i32) {
    let low = values.iter().copied().min().unwrap_or(0);
    let high = values.iter().copied().max().unwrap_or(0);
    match random.below(16) {
        0 => (low.saturating_add(1), high),
        1 => (low, high.saturating_sub(1)),
        2 => (low.saturating_sub(1), high.saturating_add(1)),
        3 => (high, low),
        4 => (coordinate(random), coordinate(random)),
        5 => (i32::MIN, i32::MAX),
        // The top bit turned over once too often, or not at all.
        6 => (low ^ i32::MIN, high ^ i32::MIN),
        _ => (low, high),
    }
}

/// Sets the points of an element and a range for them. In 2D the ends of z are
/// any.
fn fill(random: &mut Random, own: &mut [u16], dim: u64, first: usize, number: usize) {
    let dim = dim as usize;
    let mut put = |at: usize, value: u32| {
        own[at] = (value >> 16) as u16;
        own[at + 1] = value as u16;
    };
    for axis in 0..3 {
        let number = if axis < dim { number } else { 2 };
        let values: Vec<i32> = (0..number).map(|_| coordinate(random)).collect();
        if axis < dim {
            for (k, &value) in values.iter().enumerate() {
                put(first + 2 * (k * dim + axis), value as u32);
            }
        }
        let (low, high) = ends(random, &values);
        put(2 + 2 * axis, low as u32 ^ 1 << 31);
        put(8 + 2 * axis, high as u32 ^ 1 << 31);
    }
}

/// A valid file of lines and elements with N points, some other types between
/// them and under headers, whose ranges mostly hold the points.
pub fn ranges(random: &mut Random, dim: u64) -> Vec<u8> {
    let mut nodes = Vec::new();
    for _ in 0..1 + random.below(4) {
        let inner = random.one_in(4);
        let kind = match random.below(8) {
            0..=2 => 3,
            3 => random.pick(&[0, 5, 15, 16, 17, 21]),
            _ => random.pick(&POINTED[..3]),
        };
        let n = elements::sizing(random, kind);
        let mut own = elements::single_with(random, dim, kind, inner, n);
        match kind {
            3 => fill(random, &mut own, dim, 18, 2),
            4 | 6 | 11 | 21 => fill(random, &mut own, dim, 19, n),
            _ => {}
        }
        let mut node = Node::new(own);
        if inner {
            let above = random.pick(&[1, 2, 12, 14]);
            node = elements::under(random, dim, above, 0, node);
        }
        nodes.push(node);
    }
    finish(&nodes, dim, &[]).file
}
