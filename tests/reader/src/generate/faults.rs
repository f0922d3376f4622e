//! Files with a single fault aimed at a number, and with two faults in one
//! element, with the refusal that judging must answer.

use super::elements::{self, fixed};
use super::files;
use super::floats;
use super::random::Random;
use super::targets::{
    short, spoil_field, target, wrong_field, wrong_float, wrong_linkage, wrong_linkage_with,
};
use super::text;
use super::texts;
use super::tree::{is_counted, is_header, lay, Laid, Node};
use crate::refusal::Refusal;
use crate::words::bytes_of;

/// The order of checks for one element, its components standing before 9.
pub const ORDER: [u32; 12] = [3, 4, 5, 10, 6, 7, 20, 8, 11, 21, 12, 9];

/// A file and the refusal that it must meet.
#[derive(Debug, Clone)]
pub struct Aimed {
    pub file: Vec<u8>,
    pub dim: u64,
    pub refusal: Refusal,
}

/// A file with one fault of that number, at an element of that depth (0 to 8;
/// 9 for number 10; for 1 and 2 the depth says nothing). The numbers are 1, 2
/// and those of `ORDER`; another number is taken as 3.
pub fn aimed(random: &mut Random, dim: u64, number: u32, depth: u64) -> Aimed {
    let depth = if number == 10 { 9 } else { depth.min(8) };
    match number {
        1 => wrong_call(random, dim),
        2 => no_end(random, dim),
        6 => kind_fault(random, dim, depth),
        _ => {
            let target = target(random, dim, number, depth);
            around(random, dim, depth, target, &[number])
        }
    }
}

/// A valid file and a call on it that is not in order.
fn wrong_call(random: &mut Random, dim: u64) -> Aimed {
    let mut made = files::valid(random, dim);
    let refusal = Refusal {
        number: 1,
        place: 0,
    };
    let dim = match random.below(3) {
        0 => random.pick(&[0, 1, 4, 5, 1 << 32, u64::MAX]),
        1 => {
            made.file.pop();
            dim
        }
        _ => {
            made.file.push(random.word() as u8);
            dim
        }
    };
    Aimed {
        file: made.file,
        dim,
        refusal,
    }
}

/// A file without its marker.
fn no_end(random: &mut Random, dim: u64) -> Aimed {
    let laid = lay(&files::nodes(random, dim));
    let refusal = Refusal {
        number: 2,
        place: laid.words.len() as u64,
    };
    Aimed {
        file: bytes_of(&laid.words),
        dim,
        refusal,
    }
}

/// Puts the element at its depth, valid elements around it, and then the
/// faults that are set in place.
fn around(random: &mut Random, dim: u64, depth: u64, mut node: Node, faults: &[u32]) -> Aimed {
    node.aim = true;
    let kind = node.kind();
    let top = if depth == 0 {
        node
    } else {
        // Under a chain, shape or text node where that is allowed.
        let above = match kind {
            17 if random.one_in(2) => 7,
            _ if !is_header(kind) && random.one_in(4) => random.pick(&[12, 14]),
            _ if depth == 1 && random.one_in(3) => 1,
            _ => 2,
        };
        let direct = if node_is_last(&node) {
            // A single word has to end its extent.
            Node::with(elements::single(random, dim, above, depth > 1), vec![node])
        } else {
            elements::under(random, dim, above, depth - 1, node)
        };
        elements::chain(random, dim, depth - 1, direct)
    };
    let ends = depth == 0 && node_is_last(&top);
    let mut nodes = files::nodes(random, dim);
    nodes.truncate(2);
    nodes.push(top);
    let mut laid;
    if ends {
        laid = lay(&nodes);
    } else {
        if random.one_in(2) {
            nodes.push(Node::new(elements::single(random, dim, 3, false)));
        }
        laid = lay(&nodes);
        laid.words.push(65535);
        let after = random.index(4);
        laid.words.extend(random.words(after));
    }
    let place = laid.aim.unwrap_or(0);
    for &number in faults {
        damage(random, &mut laid, place, kind, number);
    }
    let number = first_in_order(faults);
    Aimed {
        file: bytes_of(&laid.words),
        dim,
        refusal: Refusal {
            number,
            place: place as u64,
        },
    }
}

fn node_is_last(node: &Node) -> bool {
    node.own.len() == 1
}

/// Of two faults in one element, the one checked first.
pub fn first_in_order(faults: &[u32]) -> u32 {
    ORDER
        .iter()
        .copied()
        .find(|number| faults.contains(number))
        .unwrap_or(0)
}

/// Sets a fault in the words of a laid-out element. Faults that were made
/// with the element (7, 11, 20, 21) and 10 need nothing more.
fn damage(random: &mut Random, laid: &mut Laid, place: usize, kind: u64, number: u32) {
    let bound = laid.aim_bound();
    let words = &mut laid.words;
    let room = bound - place;
    match number {
        3 if room > 1 => {
            // One word past the bound, or far past it.
            let past = (room - 1).min(65533) as u16;
            words[place + 1] = random.pick(&[past, past, 65533, 65534, 65535]);
        }
        4 => words[place] |= 1 << 6,
        5 => words[place] ^= 1 << 7,
        6 => words[place] = words[place] & 0x80FF | random.pick(&[24, 27, 87]) << 8,
        8 => {
            let size = usize::from(words[place + 1]) + 2;
            let too_small = size.saturating_sub(20) as u16;
            let too_large = (room + 1).saturating_sub(19).min(65535) as u16;
            let total = match random.below(4) {
                0 if size > 19 => too_small,
                1 => random.pick(&[65517, 65518, 65535]),
                2 if size > 20 => random.index(size - 19) as u16,
                _ => too_large,
            };
            if let Some(word) = words.get_mut(place + 18) {
                *word = total;
            }
        }
        12 => {
            let offset = if kind == 1 { 16 } else { 19 };
            let at = place + offset + random.index(2);
            let bad = texts::bad_name_word(random);
            if let Some(word) = words.get_mut(at) {
                *word = bad;
            }
        }
        9 if is_counted(kind) => {
            if let Some(word) = words.get_mut(place + 19) {
                let change = random.pick(&[1, 65535, 2, 256, 32768]);
                *word = word.wrapping_add(change);
            }
        }
        _ => {}
    }
}

/// A type that is not read, or not allowed where it stands.
fn kind_fault(random: &mut Random, dim: u64, depth: u64) -> Aimed {
    let c = depth > 0;
    let variant = if depth == 0 {
        random.below(2)
    } else {
        random.below(5)
    };
    let (kind, above) = match variant {
        // Solids in a 2D file.
        0 if dim == 2 => (random.pick(&[18, 19]), 2),
        // A library cell below the top.
        2 => (1, if depth == 1 { random.pick(&[1, 2]) } else { 2 }),
        // Another type than 17 under a text node.
        3 => (random.pick(&[3, 4, 2, 7, 12, 9, 0, 66]), 7),
        // A header under a chain or a shape, a surface or a solid.
        4 => {
            let above = if dim == 3 {
                random.pick(&[12, 14, 18, 19])
            } else {
                random.pick(&[12, 14])
            };
            (random.pick(&[1, 2, 7, 12, 14]), above)
        }
        _ => {
            let target = target(random, dim, 6, depth);
            return around(random, dim, depth, target, &[6]);
        }
    };
    let mut node = Node::new(elements::single(random, dim, kind, c));
    node.aim = true;
    let top = if depth == 0 {
        node
    } else {
        let direct = elements::under(random, dim, above, depth - 1, node);
        elements::chain(random, dim, depth - 1, direct)
    };
    let laid = lay(&[top]);
    let place = laid.aim.unwrap_or(0) as u64;
    let mut words = laid.words;
    words.push(65535);
    Aimed {
        file: bytes_of(&words),
        dim,
        refusal: Refusal { number: 6, place },
    }
}

/// Two faults in one element; the one checked first must be answered.
pub fn two_faults(random: &mut Random, dim: u64, depth: u64) -> Aimed {
    let mut depth = depth.min(9);
    let kind = random.pick(&[2, 2, 2, 7, 12, 14, 3, 4, 6, 11, 21, 17, 17, 15, 16]);
    let mut numbers = vec![3, 4, 5, 6, 7, 11];
    if is_header(kind) {
        numbers.push(8);
        numbers.push(if kind == 2 { 12 } else { 9 });
    }
    if kind == 17 {
        numbers.extend([20, 20, 20]);
    }
    if kind == 15 || kind == 16 {
        numbers.extend([21, 21, 21]);
    }
    let mut faults = if depth == 9 { vec![10] } else { Vec::new() };
    while faults.len() < 2 {
        let number = random.pick(&numbers);
        if !faults.contains(&number) {
            faults.push(number);
        }
    }
    if faults.contains(&10) {
        depth = 9;
    }
    let c = depth > 0;
    let short_first = faults.contains(&7);
    let n = if faults.contains(&20) {
        text::counts_with_fields(random)
    } else {
        elements::sizing(random, kind)
    };
    let mut node = if faults.contains(&11) {
        wrong_linkage_with(random, dim, kind, c, n)
    } else {
        Node::new(elements::single_with(random, dim, kind, c, n))
    };
    if faults.contains(&20) {
        spoil_field(random, dim, &mut node.own);
    }
    if faults.contains(&21) {
        floats::spoil(random, &mut node.own, dim, kind);
    }
    if short_first {
        // Short by one word, so that the words of the other fault stay.
        node.own.truncate(fixed(kind, dim, n) - 1);
        node.own[1] = (node.own.len() - 2) as u16;
    }
    around(random, dim, depth, node, &faults)
}

/// A header whose count is wrong, with a fault in a component: the
/// component's fault comes first.
pub fn component_before_count(random: &mut Random, dim: u64) -> Aimed {
    let number = random.pick(&[4, 5, 7, 11, 20, 21]);
    let kind = random.pick(&[12, 14]);
    let mut bad = match number {
        7 => {
            let kind = random.pick(&[4, 15, 16, 17]);
            short(random, dim, kind, true)
        }
        20 => wrong_field(random, dim, true),
        21 => {
            let kind = random.pick(&[15, 16]);
            wrong_float(random, dim, kind, true)
        }
        11 => {
            let kind = random.pick(&[15, 16, 17]);
            wrong_linkage(random, dim, kind, true)
        }
        _ => Node::new(elements::single(random, dim, 3, true)),
    };
    bad.aim = true;
    let header = elements::under(random, dim, kind, 0, bad);
    let mut laid = lay(&[header]);
    laid.words.push(65535);
    let place = laid.aim.unwrap_or(0);
    laid.words[19] = laid.words[19].wrapping_add(1);
    damage(random, &mut laid, place, 3, number);
    Aimed {
        file: bytes_of(&laid.words),
        dim,
        refusal: Refusal {
            number,
            place: place as u64,
        },
    }
}
