//! D-floats, and the floats of ellipses and arcs.

use super::elements;
use super::files;
use super::random::Random;
use super::tree::Node;

/// The four words of a sign, an exponent and 55 fraction bits.
pub fn float_words(sign: u64, exponent: u64, fraction: u64) -> [u16; 4] {
    let first = sign << 15 | exponent << 7 | fraction >> 48;
    [first, fraction >> 32, fraction >> 16, fraction].map(|part| part as u16)
}

/// 55 fraction bits: any, or such as decide the rounding: exact, beside and on
/// a tie with the bit before it set or clear, and all ones, which carry.
fn fraction(random: &mut Random) -> u64 {
    let most = (1 << 55) - 1;
    let any = random.draw() & most;
    match random.below(10) {
        0 => any,
        1 => any & !7,
        2 | 3 => any & !7 | 4,
        4 => any & !7 | random.pick(&[3, 5]),
        // The top bits all set, down to the last of them or nearly.
        5 | 6 => most - random.below(16),
        // Small ones: 12 is a tie that goes up, 4 and 20 are ties that do not.
        7 => random.below(32),
        // A run of ones that a carry goes through.
        8 => {
            let ones = (1 << (3 + random.below(52))) - 1;
            any & !ones | ones & !7 | random.pick(&[3, 4, 5, 7])
        }
        _ => random.pick(&[0, most, 1 << 54, (1 << 54) - 1, 1 << 48, 0xFFFF, 1 << 32]),
    }
}

/// A D-float that is one: any exponent, or a limit; zeros with fraction bits
/// and without.
pub fn float(random: &mut Random) -> [u16; 4] {
    let fraction = fraction(random);
    match random.below(8) {
        0 => float_words(0, 0, fraction),
        1 => float_words(0, 0, 0),
        2 => {
            let exponent = random.pick(&[1, 2, 127, 128, 129, 130, 254, 255]);
            float_words(random.below(2), exponent, fraction)
        }
        _ => float_words(random.below(2), 1 + random.below(255), fraction),
    }
}

/// A D-float that is none: E of 0 with the sign set.
pub fn bad_float(random: &mut Random) -> [u16; 4] {
    let fraction = if random.one_in(3) {
        0
    } else {
        fraction(random)
    };
    float_words(1, 0, fraction)
}

/// Where the floats of an ellipse or an arc begin in its own words.
pub fn offsets(kind: u64, dim: u64) -> Vec<usize> {
    match (kind, dim) {
        (15, 3) => vec![18, 22, 34, 38, 42],
        (15, _) => vec![18, 22, 28, 32],
        (16, 3) => vec![22, 26, 38, 42, 46],
        (16, _) => vec![22, 26, 32, 36],
        _ => Vec::new(),
    }
}

/// Fills in the floats of an ellipse or an arc; its other words stay.
pub fn fill(random: &mut Random, own: &mut [u16], dim: u64, kind: u64) {
    for at in offsets(kind, dim) {
        own[at..at + 4].copy_from_slice(&float(random));
    }
}

/// Makes one float of an ellipse or an arc wrong.
pub fn spoil(random: &mut Random, own: &mut [u16], dim: u64, kind: u64) {
    let at = random.pick(&offsets(kind, dim));
    own[at..at + 4].copy_from_slice(&bad_float(random));
}

/// A file of some ellipses and arcs, at the top and under headers; one time in
/// six a float of one of them is none.
pub fn ellipses(random: &mut Random, dim: u64) -> Vec<u8> {
    let number = 1 + random.index(4);
    let wrong = if random.one_in(6) {
        Some(random.index(number))
    } else {
        None
    };
    let mut nodes = Vec::new();
    for k in 0..number {
        let kind = random.pick(&[15, 16]);
        let inner = random.one_in(3);
        let mut own = elements::single(random, dim, kind, inner);
        if wrong == Some(k) {
            spoil(random, &mut own, dim, kind);
        }
        let mut node = Node::new(own);
        if inner {
            let above = random.pick(&[1, 2, 12, 14]);
            node = elements::under(random, dim, above, 0, node);
        }
        nodes.push(node);
    }
    files::finish(&nodes, dim, &[]).file
}
