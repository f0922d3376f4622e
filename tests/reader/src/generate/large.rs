//! Files at the exact limits, made only when asked for.

use super::elements;
use super::files::{finish, Valid};
use super::random::Random;
use super::text;
use super::tree::Node;
use crate::calls::State;
use crate::words::bytes_of;

/// A raw element of a given size in words, from 2 to 65,537.
pub fn raw_of(size: usize, c: bool) -> Vec<u16> {
    let mut own = vec![0; size];
    own[0] = 5 << 8 | u16::from(c) << 7;
    own[1] = (size - 2) as u16;
    own
}

/// A cell whose extent has that many words, in 2D, with raw components.
pub fn cell_of(extent: usize) -> Node {
    let mut own = vec![0; 46];
    own[0] = 2 << 8;
    own[1] = 44;
    let mut left = extent - 46;
    let mut under = Vec::new();
    while left >= 2 {
        let size = if left < 20_002 { left } else { 20_000 };
        under.push(Node::new(raw_of(size, true)));
        left -= size;
    }
    Node::with(own, under)
}

/// A library cell of that many raw elements of two words, every third of them
/// deleted. With 32,750 its extent has 65,535 words: none has more elements.
pub fn cell_of_many(number: usize) -> Node {
    let mut own = vec![0; 35];
    own[0] = 1 << 8;
    own[1] = 33;
    let under = (0..number)
        .map(|k| {
            let mut raw = raw_of(2, true);
            raw[0] |= u16::from(k % 3 == 0) << 15;
            Node::new(raw)
        })
        .collect();
    Node::with(own, under)
}

/// A 2D cell with an extent of 65,535 words.
pub fn largest_extent() -> Valid {
    finish(&[cell_of(65_535)], 2, &[])
}

/// The same nested: each of eight cells in the one before, raw at the bottom.
pub fn largest_extent_nested() -> Valid {
    let mut node = Node::new(raw_of(65_535 - 8 * 46, true));
    for depth in (0..8).rev() {
        let mut own = vec![0; 46];
        own[0] = 2 << 8 | u16::from(depth > 0) << 7;
        own[1] = 44;
        node = Node::with(own, vec![node]);
    }
    finish(&[node], 2, &[])
}

/// A session over nested 2D cells, the outermost extent that many words below
/// its limit, with ample room in both buffers.
pub fn nearly_full_state(spare: usize) -> State {
    let raw = Node::new(raw_of(65_535 - 3 * 46 - 20 - spare, true));
    let mut chain = vec![0; 20];
    chain[0] = 12 << 8 | 1 << 7;
    chain[1] = 18;
    let mut node = Node::with(chain, vec![raw]);
    for depth in (0..3).rev() {
        let mut own = vec![0; 46];
        own[0] = 2 << 8 | u16::from(depth > 0) << 7;
        own[1] = 44;
        node = Node::with(own, vec![node]);
    }
    let mut file = finish(&[node], 2, &[]).file;
    let used = file.len() as u64;
    file.resize(400_000, 0);
    State {
        dim: 2,
        file,
        used,
        journal: vec![0; 400_000],
        jused: 0,
    }
}

/// A 2D cell whose total is 65,517, one above the largest, in a file long
/// enough for it: 8 at place 0.
pub fn total_too_large() -> Vec<u8> {
    let mut words = vec![0; 70_000];
    words[0] = 2 << 8;
    words[1] = 44;
    words[18] = 65_517;
    bytes_of(&words)
}

/// A raw element of 65,535 words: accepted.
pub fn largest_element() -> Valid {
    finish(&[Node::new(raw_of(65_535, false))], 2, &[])
}

/// A raw element of 65,536 or 65,537 words: 8 at place 0.
pub fn element_too_large(size: usize) -> Vec<u8> {
    let mut words = raw_of(size, false);
    words.push(65535);
    bytes_of(&words)
}

/// Elements of types 4, 6, 11 and 21 with N=101.
pub fn most_points(random: &mut Random, dim: u64) -> Valid {
    let nodes: Vec<Node> = elements::POINTED
        .iter()
        .map(|&kind| Node::new(elements::single_with(random, dim, kind, false, 101)))
        .collect();
    finish(&nodes, dim, &[])
}

/// A text with 255 characters and 255 fields, one without any, and one with
/// a tail that makes it 65,535 words long.
pub fn most_text(random: &mut Random, dim: u64) -> Valid {
    let full = 255 + 256 * 255;
    let mut longest = elements::single_with(random, dim, 17, false, full);
    longest[16] &= !(1 << 11);
    longest.resize(65_535, 0);
    longest[1] = 65_533;
    let nodes = [
        Node::new(elements::single_with(random, dim, 17, false, full)),
        Node::new(elements::single_with(random, dim, 17, false, 0)),
        Node::new(longest),
    ];
    finish(&nodes, dim, &[])
}

/// A text of 65,536 or 65,537 words: 8 at place 0, or 20 where its field is
/// wrong.
pub fn text_too_large(size: usize, dim: u64, bad_field: bool) -> Vec<u8> {
    let mut words = vec![0; size];
    let counts = text::counts_word(dim);
    words[0] = 17 << 8;
    words[1] = (size - 2) as u16;
    words[counts] = 1 | 1 << 8;
    // One character, and a field that starts at it or before it.
    text::put_bytes(&mut words, 2 * counts + 3, &[u8::from(!bad_field), 1, 0]);
    words.push(65535);
    bytes_of(&words)
}

/// A file of texts, each with some characters and a field, of nearly
/// 1,048,576 bytes.
pub fn most_texts(random: &mut Random, dim: u64) -> Valid {
    let mut nodes = Vec::new();
    let mut words = 1;
    loop {
        let counts = 1 + random.index(9) + 256;
        let mut own = elements::single_with(random, dim, 17, false, counts);
        own[16] &= !(1 << 11);
        own.truncate(elements::fixed(17, dim, counts));
        own[1] = (own.len() - 2) as u16;
        words += own.len();
        if words > 524_288 {
            return finish(&nodes, dim, &[]);
        }
        nodes.push(Node::new(own));
    }
}

/// Cells with names of six letters, the greatest words among them.
pub fn long_names(random: &mut Random, dim: u64) -> Valid {
    // 999999, A00000 and ZZZZZZ.
    let names = [
        (63999, 63999),
        (1600 + 30 * 41, 30 * 1641),
        (26 * 1641, 26 * 1641),
    ];
    let mut nodes = Vec::new();
    for (first, second) in names {
        for kind in [1, 2] {
            let mut own = elements::single(random, dim, kind, false);
            let at = if kind == 1 { 16 } else { 19 };
            own[at] = first;
            own[at + 1] = second;
            nodes.push(Node::new(own));
        }
    }
    finish(&nodes, dim, &[])
}

/// A file of 262,143 raw elements of two words: 1,048,574 bytes.
pub fn most_elements() -> Valid {
    let nodes = vec![Node::new(raw_of(2, false)); 262_143];
    finish(&nodes, 2, &[])
}

/// A file of 14,979 library cells of 35 words, as many as a file can hold,
/// with that many names in turn.
pub fn most_cells(names: usize) -> Valid {
    let nodes: Vec<Node> = (0..14_979)
        .map(|k| {
            let mut own = vec![0; 35];
            own[0] = 1 << 8 | u16::from(k % 5 == 0) << 15;
            own[1] = 33;
            // Three letters A to Z each, the second word the first to change.
            let name = (names - 1 - k % names) as u16;
            let letters = |n: u16| (n / 26 % 26 + 1) * 40 + n % 26 + 1;
            own[16] = 1600 + letters(name / 676);
            own[17] = 1600 + letters(name % 676);
            Node::new(own)
        })
        .collect();
    finish(&nodes, 2, &[])
}

/// A file of exactly 1,048,576 bytes, the marker its last word.
pub fn longest_file() -> Valid {
    let mut nodes = vec![Node::new(raw_of(2, false)); 262_142];
    nodes.push(Node::new(raw_of(3, false)));
    finish(&nodes, 2, &[])
}

/// A file one word longer than allowed: 1 at place 0.
pub fn oversize_file() -> Vec<u8> {
    let mut file = longest_file().file;
    file.extend([0, 0]);
    file
}

/// A file of 1,048,576 bytes filled with large cells and raw elements.
pub fn longest_file_of_cells() -> Valid {
    let mut nodes = vec![cell_of(65_535); 8];
    // 8 * 65,535 words and the marker leave 7 words.
    nodes.push(Node::new(raw_of(7, false)));
    finish(&nodes, 2, &[])
}

/// A line with an attribute part of 16,377 linkages of four words.
pub fn most_linkages() -> Valid {
    let mut own = vec![0; 26 + 16_377 * 4];
    own[0] = 3 << 8;
    own[1] = (own.len() - 2) as u16;
    own[15] = 10;
    own[16] = 1 << 11;
    finish(&[Node::new(own)], 2, &[])
}
