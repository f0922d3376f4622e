//! Valid elements of every type, alone and as trees.

use super::floats;
use super::random::Random;
use super::text;
use super::texts;
use super::tree::{is_header, Node};

/// Types with N points.
pub const POINTED: [u64; 4] = [4, 6, 11, 21];

/// Types that may carry linkages.
pub const LINKED: [u64; 14] = [2, 3, 4, 6, 7, 11, 12, 14, 15, 16, 17, 18, 19, 21];

/// Raw types that come up more often than the others.
const RAW: [u64; 10] = [0, 5, 8, 9, 9, 10, 20, 66, 88, 127];

/// The words of a fixed part. `n` is the word that sizes it: the number of
/// points, or the characters of a text and 256 times its fields.
pub fn fixed(kind: u64, dim: u64, n: usize) -> usize {
    let flat = dim != 3;
    match kind {
        1 => 35,
        2 => [62, 46][usize::from(flat)],
        3 => [30, 26][usize::from(flat)],
        4 | 6 | 11 | 21 => 19 + n * [6, 4][usize::from(flat)],
        7 => [43, 35][usize::from(flat)],
        12 | 14 => 20,
        15 => [46, 36][usize::from(flat)],
        16 => [50, 40][usize::from(flat)],
        17 => [38, 30][usize::from(flat)] + (n % 256 + n / 256 * 3).div_ceil(2),
        18 | 19 => 21,
        _ => 2,
    }
}

/// A raw type that is read.
pub fn raw_kind(random: &mut Random) -> u64 {
    if random.one_in(2) {
        return random.pick(&RAW);
    }
    loop {
        let kind = random.below(128);
        if !matches!(kind, 1..=4 | 6 | 7 | 11 | 12 | 14..=19 | 21 | 24 | 27 | 87) {
            return kind;
        }
    }
}

/// A type that may stand at the top or under a header of type `above`.
pub fn kind(random: &mut Random, dim: u64, above: Option<u64>) -> u64 {
    let plain = |random: &mut Random| match random.below(9) {
        0 => 3,
        1 | 7 => 17,
        8 => random.pick(&[15, 16]),
        2 => random.pick(&POINTED),
        3 => raw_kind(random),
        4 => 4,
        5 => 3,
        _ => raw_kind(random),
    };
    match above {
        Some(7) => 17,
        Some(12 | 14 | 18 | 19) => plain(random),
        _ => {
            if !random.one_in(2) {
                return plain(random);
            }
            match random.below(8) {
                0 if above.is_none() => 1,
                1 => 7,
                2 => 12,
                3 => 14,
                4 if dim == 3 => 18,
                5 if dim == 3 => 19,
                _ => 2,
            }
        }
    }
}

/// The own words of a valid element. C and the rest of word 0 are set; the
/// total and the count are left to the layout.
pub fn single(random: &mut Random, dim: u64, kind: u64, c: bool) -> Vec<u16> {
    let n = sizing(random, kind);
    single_with(random, dim, kind, c, n)
}

/// A word that sizes the fixed part of a valid element: small, and now and
/// then a limit; 0 in types without one.
pub fn sizing(random: &mut Random, kind: u64) -> usize {
    if kind == 17 {
        let (characters, fields) = text::counts(random);
        return characters + 256 * fields;
    }
    if !POINTED.contains(&kind) {
        return 0;
    }
    match random.below(60) {
        0 => 101,
        1 => 100,
        2 => 2 + random.index(100),
        _ => 2 + random.index(3),
    }
}

/// The word that sizes an element, as it stands there.
pub fn sizing_in(own: &[u16], dim: u64, kind: u64) -> usize {
    let offset = match kind {
        17 => text::counts_word(dim),
        _ if POINTED.contains(&kind) => 18,
        _ => return 0,
    };
    usize::from(own[offset])
}

/// The same with the word given that sizes it.
pub fn single_with(random: &mut Random, dim: u64, kind: u64, c: bool, n: usize) -> Vec<u16> {
    if !LINKED.contains(&kind) && kind != 1 {
        return raw(random, kind, c);
    }
    let fixed = fixed(kind, dim, n);
    let mut own = random.words(fixed);
    if LINKED.contains(&kind) {
        if random.one_in(2) {
            own[16] |= 1 << 11;
            let gap = if random.one_in(2) { 0 } else { random.index(4) };
            own.extend(random.words(gap));
            own[15] = (own.len() - 16) as u16;
            for _ in 0..random.index(4) {
                own.extend(linkage(random));
            }
        } else {
            // With A clear, word 15 and the tail are free.
            own[16] &= !(1 << 11);
            let tail = tail_length(random);
            own.extend(random.words(tail));
        }
    } else {
        let tail = tail_length(random);
        own.extend(random.words(tail));
    }
    if let Some(offset) = match kind {
        1 => Some(16),
        2 => Some(19),
        _ => None,
    } {
        let (first, second) = texts::name_words(random);
        own[offset] = first;
        own[offset + 1] = second;
    }
    if POINTED.contains(&kind) {
        own[18] = n as u16;
    }
    if kind == 17 {
        text::fill(random, &mut own, dim, n);
    }
    floats::fill(random, &mut own, dim, kind);
    start(random, &mut own, kind, c);
    own
}

fn tail_length(random: &mut Random) -> usize {
    if random.one_in(3) {
        random.index(6)
    } else {
        0
    }
}

/// Words 0 and 1.
fn start(random: &mut Random, own: &mut [u16], kind: u64, c: bool) {
    let mut first = random.below(64) as u16 | (kind as u16) << 8 | u16::from(c) << 7;
    if random.one_in(4) {
        first |= 1 << 15;
    }
    if kind == 9 {
        // Bits 6 and 7 of type 9 are free.
        first = first & !0xC0 | (random.below(4) as u16) << 6;
    }
    own[0] = first;
    own[1] = (own.len() - 2) as u16;
}

/// A raw element: two words or more.
pub fn raw(random: &mut Random, kind: u64, c: bool) -> Vec<u16> {
    let length = match random.below(6) {
        0 | 1 => 2,
        2 | 3 => 2 + random.index(5),
        4 => 13 + random.index(3),
        _ => 2 + random.index(24),
    };
    let mut own = random.words(length);
    start(random, &mut own, kind, c);
    own
}

/// One linkage of either kind.
pub fn linkage(random: &mut Random) -> Vec<u16> {
    if random.one_in(2) {
        let follow = if random.one_in(40) {
            255
        } else {
            1 + random.index(5)
        };
        let mut words = random.words(follow + 1);
        words[0] = words[0] & 0xFF00 | 1 << 12 | follow as u16;
        words
    } else {
        let mut words = random.words(4);
        words[0] = random.pick(&[0, 32768]);
        words
    }
}

/// A valid element with all beneath it, at a depth and under a header of type
/// `above`. The budget is the number of elements still to make.
pub fn tree(
    random: &mut Random,
    dim: u64,
    depth: u64,
    above: Option<u64>,
    budget: &mut u64,
) -> Node {
    let kind = kind(random, dim, above);
    tree_of(random, dim, kind, depth, above.is_some(), budget)
}

/// The same with the type given.
pub fn tree_of(
    random: &mut Random,
    dim: u64,
    kind: u64,
    depth: u64,
    c: bool,
    budget: &mut u64,
) -> Node {
    *budget = budget.saturating_sub(1);
    let mut node = Node::new(single(random, dim, kind, c));
    if is_header(kind) && depth < 8 {
        let wanted = random.below(4);
        for _ in 0..wanted {
            if *budget == 0 {
                break;
            }
            node.under
                .push(tree(random, dim, depth + 1, Some(kind), budget));
        }
    }
    node
}

/// A chain of cells down to a depth, ending in the given element. Valid
/// elements may stand before and after each link.
pub fn chain(random: &mut Random, dim: u64, depth: u64, last: Node) -> Node {
    let mut node = last;
    for at in (0..depth).rev() {
        let kind = if at == 0 && random.one_in(3) { 1 } else { 2 };
        node = under(random, dim, kind, at, node);
    }
    node
}

/// A header of a type at a depth with the given element among its components.
pub fn under(random: &mut Random, dim: u64, kind: u64, depth: u64, node: Node) -> Node {
    let own = single(random, dim, kind, depth > 0);
    let mut list = Vec::new();
    // Under depth 8 an element before it would be the first one too deep.
    if depth < 8 && random.one_in(3) {
        list.push(sibling(random, dim, kind));
    }
    list.push(node);
    if random.one_in(3) {
        list.push(sibling(random, dim, kind));
    }
    Node::with(own, list)
}

/// A valid element without components under a header of that type.
fn sibling(random: &mut Random, dim: u64, above: u64) -> Node {
    let kind = match above {
        7 => 17,
        _ => {
            if random.one_in(2) {
                3
            } else {
                raw_kind(random)
            }
        }
    };
    Node::new(single(random, dim, kind, true))
}
