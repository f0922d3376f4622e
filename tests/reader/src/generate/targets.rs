//! The elements that faults are aimed at: those whose fault is made with their words, and valid ones.

use super::elements::{self, fixed, LINKED, POINTED};
use super::floats;
use super::random::Random;
use super::text;
use super::tree::Node;

/// Types of headers that the dimension allows.
fn headers(dim: u64) -> &'static [u64] {
    if dim == 3 {
        &[2, 7, 12, 14, 18, 19]
    } else {
        &[2, 7, 12, 14]
    }
}

/// The element for a fault: valid, but for a fault that needs other words
/// than those of a valid one.
pub fn target(random: &mut Random, dim: u64, number: u32, depth: u64) -> Node {
    let c = depth > 0;
    let mut kind = match number {
        8 => random.pick(headers(dim)),
        9 => random.pick(&headers(dim)[1..]),
        12 => 2,
        20 => 17,
        21 => random.pick(&[15, 16]),
        7 | 11 => loop {
            let kind = random.pick(&LINKED);
            if dim == 3 || kind < 18 || kind == 21 {
                break kind;
            }
        },
        _ => loop {
            let kind = elements::kind(random, dim, Some(2));
            // Bits 6 and 7 of type 9 are free.
            if kind != 9 || number == 3 || number == 10 {
                break kind;
            }
        },
    };
    if depth == 0 && (number == 8 || number == 12 || number == 7) && random.one_in(3) {
        kind = 1;
    }
    match number {
        7 => short(random, dim, kind, c),
        11 => wrong_linkage(random, dim, kind, c),
        20 => wrong_field(random, dim, c),
        21 => wrong_float(random, dim, kind, c),
        _ => {
            let mut budget = 3;
            let mut node = elements::tree_of(random, dim, kind, depth, c, &mut budget);
            if number == 3 && random.one_in(3) {
                // A single word, which is no marker.
                node = Node::new(vec![0x0300 | u16::from(c) << 7 | random.below(64) as u16]);
            }
            node
        }
    }
}

/// An element shorter than its fixed part, or with N out of range.
pub fn short(random: &mut Random, dim: u64, kind: u64, c: bool) -> Node {
    if POINTED.contains(&kind) && random.one_in(12) {
        // One point too many, all of them there.
        return Node::new(elements::single_with(random, dim, kind, c, 102));
    }
    if POINTED.contains(&kind) && random.one_in(2) {
        let mut own = elements::single_with(random, dim, kind, c, 3);
        own[18] = match random.below(5) {
            0 => 0,
            1 => 1,
            2 => 102,
            3 => 65535,
            _ => 102 + random.below(65434) as u16,
        };
        return Node::new(own);
    }
    let n = elements::sizing(random, kind);
    let mut own = elements::single_with(random, dim, kind, c, n);
    let whole = fixed(kind, dim, n);
    if kind == 17 && random.one_in(2) {
        if let Some(counts) = more_than_filled(random, dim, n, own.len()) {
            own[text::counts_word(dim)] = counts;
            return Node::new(own);
        }
    }
    let left = if random.one_in(2) {
        whole - 1
    } else {
        2 + random.index(whole - 2)
    };
    own.truncate(left);
    own[1] = (left - 2) as u16;
    Node::new(own)
}

/// The counts of a text that say more than an element of that size has, the
/// number of characters or of fields changed: by little where that is enough.
fn more_than_filled(random: &mut Random, dim: u64, counts: usize, size: usize) -> Option<u16> {
    let (characters, fields) = (counts % 256, counts / 256);
    let mut wrong: Vec<usize> = Vec::new();
    wrong.extend((characters + 1..256).map(|more| more + 256 * fields));
    wrong.extend((fields + 1..256).map(|more| characters + 256 * more));
    wrong.retain(|&counts| fixed(17, dim, counts) > size);
    match wrong.len() {
        0 => None,
        _ if random.one_in(2) => Some(wrong[0] as u16),
        number => Some(wrong[random.index(number)] as u16),
    }
}

/// A text with a field that is wrong, others beside it that may be good.
pub fn wrong_field(random: &mut Random, dim: u64, c: bool) -> Node {
    let counts = text::counts_with_fields(random);
    let mut own = elements::single_with(random, dim, 17, c, counts);
    spoil_field(random, dim, &mut own);
    Node::new(own)
}

/// An ellipse or an arc with a float that is none.
pub fn wrong_float(random: &mut Random, dim: u64, kind: u64, c: bool) -> Node {
    let mut own = elements::single(random, dim, kind, c);
    floats::spoil(random, &mut own, dim, kind);
    Node::new(own)
}

/// Makes one of a text's fields wrong.
pub fn spoil_field(random: &mut Random, dim: u64, own: &mut [u16]) {
    let counts = elements::sizing_in(own, dim, 17);
    let (characters, fields) = (counts % 256, counts / 256);
    let bad = text::bad_field(random, characters);
    let at = 2 * text::counts_word(dim) + 2 + characters + 3 * random.index(fields);
    text::put_bytes(own, at, &bad);
}

/// An element whose attribute part is wrong.
pub fn wrong_linkage(random: &mut Random, dim: u64, kind: u64, c: bool) -> Node {
    let n = elements::sizing(random, kind);
    wrong_linkage_with(random, dim, kind, c, n)
}

/// The same with the word given that sizes it.
pub fn wrong_linkage_with(random: &mut Random, dim: u64, kind: u64, c: bool, n: usize) -> Node {
    let fixed = fixed(kind, dim, n);
    let mut own = elements::single_with(random, dim, kind, c, n);
    own.truncate(fixed);
    own[16] |= 1 << 11;
    let gap = random.index(3);
    own.extend(random.words(gap));
    let begin = own.len() - 16;
    for _ in 0..random.index(3) {
        own.extend(elements::linkage(random));
    }
    own[15] = match random.below(3) {
        0 if fixed > 21 && random.one_in(2) => {
            // Inside the fixed part, with a linkage there that fills the rest.
            let begin = match random.index(fixed - 21) + 21 {
                // The counts and the fields of a text stay as they are.
                at if kind == 17 && !text::is_free(dim, n, at) => 21,
                at => at,
            };
            let follow = own.len() - begin - 1;
            if (1..256).contains(&follow) {
                own[begin] = 1 << 12 | follow as u16;
            }
            (begin - 16) as u16
        }
        0 => random.index(fixed - 16) as u16,
        1 => {
            let past = own.len() - 16 + 1;
            random.pick(&[past as u16, past as u16 + 1, 65535, 65520])
        }
        _ => {
            own.extend(bad_linkage(random));
            begin as u16
        }
    };
    own[1] = (own.len() - 2) as u16;
    Node::new(own)
}

/// Words at the end of an attribute part that are no linkage.
fn bad_linkage(random: &mut Random) -> Vec<u16> {
    match random.below(4) {
        // A user linkage that counts no word.
        0 => {
            let mut words = vec![random.word() & 0xFF00 | 1 << 12];
            if random.one_in(2) {
                words.extend(elements::linkage(random));
            }
            words
        }
        // A user linkage that runs past the end.
        1 => {
            let follow = 1 + random.index(6);
            let there = 1 + random.index(follow);
            let mut words = random.words(there);
            words[0] = words[0] & 0xFF00 | 1 << 12 | follow as u16;
            words
        }
        // Four words that are not all there.
        2 => {
            let mut words = random.words(4);
            words[0] = random.pick(&[0, 32768]);
            words.truncate(1 + random.index(3));
            words
        }
        // A first word of neither kind.
        _ => {
            let mut words = random.words(4);
            words[0] = random.pick(&[1, 32769, 0x0800, 0x2000, 0x4000, 0xC000, 0x8001, 0x00FF]);
            words
        }
    }
}
