//! The files that are measured, made from fixed seeds. Each ends with a cell named LAST that holds one line; the end
//! marker is the file's last word.

use reader::generate::tree::{lay, Node};
use reader::generate::{elements, large, texts, Random};
use reader::words::bytes_of;

pub const KIB: usize = 1024;

/// The name of the last cell, and one that no cell has.
pub const LAST: &[u8] = b"LAST";
pub const ABSENT: &[u8] = b"ABSENT";

#[derive(Clone, Copy, PartialEq)]
pub enum Kind {
    Lines,
    Cells,
    Raw,
    Mixed,
    Mixed3D,
    Texts,
    Curves,
    Strings,
    Strings3D,
    Drawn,
}

pub const KINDS: [Kind; 7] =
    [Kind::Lines, Kind::Cells, Kind::Raw, Kind::Mixed, Kind::Mixed3D, Kind::Texts, Kind::Curves];

/// Those whose ranges are true; of the others they are any words.
pub const RANGED: [Kind; 3] = [Kind::Strings, Kind::Strings3D, Kind::Drawn];

impl Kind {
    pub fn name(self) -> &'static str {
        match self {
            Kind::Lines => "lines",
            Kind::Cells => "nested cells",
            Kind::Raw => "two-word elements",
            Kind::Mixed => "mixed",
            Kind::Mixed3D => "mixed, 3D",
            Kind::Texts => "texts",
            Kind::Curves => "ellipses and arcs",
            Kind::Strings => "line strings",
            Kind::Strings3D => "line strings, 3D",
            Kind::Drawn => "lines with true ranges",
        }
    }

    pub fn dim(self) -> u64 {
        match self {
            Kind::Mixed3D | Kind::Strings3D => 3,
            _ => 2,
        }
    }

    /// The next top-level element with all beneath it.
    fn node(self, random: &mut Random) -> Node {
        match self {
            Kind::Lines => line(random, false),
            Kind::Cells => nest(random, 0),
            Kind::Raw => Node::new(large::raw_of(2, false)),
            Kind::Mixed | Kind::Mixed3D => {
                let mut budget = 1 + random.below(30);
                elements::tree(random, self.dim(), 0, None, &mut budget)
            }
            Kind::Texts => text(random),
            Kind::Curves => curve(random),
            Kind::Strings | Kind::Strings3D => {
                let n = 2 + random.index(100);
                let mut own = plain(random, 4, elements::fixed(4, self.dim(), n), false);
                own[18] = n as u16;
                ranged(random, own, 19, self.dim() as usize)
            }
            Kind::Drawn => {
                let own = plain(random, 3, elements::fixed(3, 2, 0), false);
                ranged(random, own, 18, 2)
            }
        }
    }
}

/// An element with the range of its points, which are its last words; one in sixteen with a high x that is one too low.
fn ranged(random: &mut Random, mut own: Vec<u16>, points: usize, dim: usize) -> Node {
    let longs: Vec<u32> = own[points..].chunks(2).map(|pair| u32::from(pair[0]) << 16 | u32::from(pair[1])).collect();
    for axis in 0..dim {
        // in the order of their numbers
        let stored = || longs.iter().skip(axis).step_by(dim).map(|long| long ^ 1 << 31);
        let (low, high) = (stored().min().expect("a point"), stored().max().expect("a point"));
        let high = if axis == 0 && random.one_in(16) { high.wrapping_sub(1) } else { high };
        for (at, long) in [(2 + 2 * axis, low), (8 + 2 * axis, high)] {
            own[at] = (long >> 16) as u16;
            own[at + 1] = long as u16;
        }
    }
    Node::new(own)
}

pub struct Input {
    pub kind: Kind,
    pub file: Vec<u8>,
    /// The places of the last cell and of the last element, which is the line in it.
    pub cell: u64,
    pub last: u64,
}

/// An element of a known type with its fixed part alone, any words in it and A clear.
fn plain(random: &mut Random, kind: u16, fixed: usize, c: bool) -> Vec<u16> {
    let mut own = random.words(fixed);
    own[0] = kind << 8 | u16::from(c) << 7 | random.below(64) as u16;
    own[1] = (fixed - 2) as u16;
    own[16] &= !(1 << 11);
    own
}

fn line(random: &mut Random, c: bool) -> Node {
    let fixed = elements::fixed(3, 2, 0);
    Node::new(plain(random, 3, fixed, c))
}

/// A text of up to 52 characters, one in eight with up to three fields.
fn text(random: &mut Random) -> Node {
    let characters = random.index(53);
    let fields = if characters > 0 && random.one_in(8) { 1 + random.index(3) } else { 0 };
    Node::new(elements::single_with(random, 2, 17, false, characters + 256 * fields))
}

/// An ellipse or an arc, with any floats but those that are refused.
fn curve(random: &mut Random) -> Node {
    let (kind, fixed, axes) = if random.one_in(2) { (15, 36, 18) } else { (16, 40, 22) };
    let mut own = plain(random, kind, fixed, false);
    for first in [axes, axes + 4, axes + 10, axes + 14] {
        if own[first] & 0xff80 == 0x8000 {
            own[first] &= 0x7fff;
        }
    }
    Node::new(own)
}

/// The bytes of a line without a tail, for the top.
pub fn line_for(dim: u64, seed: u64) -> Vec<u8> {
    let fixed = elements::fixed(3, dim, 0);
    bytes_of(&plain(&mut Random::new(seed), 3, fixed, false))
}

/// A cell with lines and, down to a depth drawn anew at each level, a cell among them.
fn nest(random: &mut Random, depth: u64) -> Node {
    let mut own = plain(random, 2, elements::fixed(2, 2, 0), depth > 0);
    let (first, second) = texts::name_words(random);
    own[19] = first;
    own[20] = second;
    let mut under: Vec<Node> = (0..1 + random.below(3)).map(|_| line(random, true)).collect();
    if depth < 7 && !random.one_in(4) {
        let at = random.index(under.len() + 1);
        under.insert(at, nest(random, depth + 1));
    }
    Node::with(own, under)
}

/// A cell library: so many cells, each of a name of its own in any order, with so many lines; 2D, and to its end marker.
pub fn library(cells: usize, lines: usize, seed: u64) -> Vec<u8> {
    let random = &mut Random::new(seed);
    let mut names = std::collections::HashSet::new();
    let mut words = Vec::new();
    for _ in 0..cells {
        let mut own = plain(random, 1, elements::fixed(1, 2, 0), false);
        own[0] &= 0x7fff;
        let name = loop {
            // six letters A to Z
            let word = |random: &mut Random| (0..3).fold(0, |word, _| word * 40 + 1 + random.below(26) as u16);
            let name = (word(random), word(random));
            if names.insert(name) {
                break name;
            }
        };
        (own[16], own[17]) = name;
        words.extend(lay(&[Node::with(own, (0..lines).map(|_| line(random, true)).collect())]).words);
    }
    words.push(65535);
    bytes_of(&words)
}

/// A file of that many bytes.
pub fn make(kind: Kind, bytes: usize, seed: u64) -> Input {
    make_after(&[], kind, bytes, seed)
}

/// The same with some elements given that stand first.
pub fn make_after(front: &[u16], kind: Kind, bytes: usize, seed: u64) -> Input {
    let random = &mut Random::new(seed);
    let dim = kind.dim();
    let mut cell = plain(random, 2, elements::fixed(2, dim, 0), false);
    let (first, second) = reader::pack(LAST).unwrap();
    cell[19] = first;
    cell[20] = second;
    let line = plain(random, 3, elements::fixed(3, dim, 0), true);
    let own = cell.len();
    let closing = lay(&[Node::with(cell, vec![Node::new(line)])]).words;

    // the room before the last cell; the marker is one word
    let room = bytes / 2 - closing.len() - 1;
    let mut words = front.to_vec();
    loop {
        let next = lay(&[kind.node(random)]).words;
        // what is left is filled by one element, of two words at least
        if words.len() + next.len() + 2 > room {
            break;
        }
        words.extend(next);
    }
    words.extend(large::raw_of(room - words.len(), false));
    words.extend(&closing);
    words.push(65535);
    let cell = room as u64;
    Input { kind, file: bytes_of(&words), cell, last: cell + own as u64 }
}
