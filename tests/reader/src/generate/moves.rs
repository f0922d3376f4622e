//! Calls that move a journal to blocks and back.

use super::blocks::{
    aimed, boundary_sizes, cuts, doubled, dropped, each_byte_changed, journal, lay, limit_sizes,
    limit_stored, stored, swapped, true_journal, with_count, BAD_COUNTS, COUNT_AT, FAULTS,
};
use super::random::Random;
use crate::blocks::{from_blocks, to_blocks, BLOCK, CONTENT};
use crate::layout::LIMIT;
use crate::refusal::Refusal;

/// Which way a journal is moved.
#[derive(Debug, Clone, Copy, PartialEq, Eq)]
pub enum Way {
    ToBlocks,
    FromBlocks,
}

/// One call. The output buffer has that length and is filled with that byte.
#[derive(Debug, Clone)]
pub struct Move {
    pub way: Way,
    pub input: Vec<u8>,
    pub room: usize,
    pub fill: u8,
}

impl Move {
    /// This reader's answer, and the output buffer after the call.
    pub fn run(&self) -> (Result<u64, Refusal>, Vec<u8>) {
        let mut out = vec![self.fill; self.room];
        let answer = match self.way {
            Way::ToBlocks => to_blocks(&self.input, &mut out),
            Way::FromBlocks => from_blocks(&self.input, &mut out),
        };
        (answer, out)
    }
}

/// The bytes that a call writes where its input is good.
pub fn needed(way: Way, input: &[u8]) -> usize {
    match way {
        Way::ToBlocks => input.len().div_ceil(CONTENT) * BLOCK,
        Way::FromBlocks => match input.len() / BLOCK {
            0 => 0,
            blocks => (blocks - 1) * CONTENT + count(input, blocks - 1).min(CONTENT),
        },
    }
}

/// The count that stands in a block.
fn count(stored: &[u8], number: usize) -> usize {
    let at = number * BLOCK + COUNT_AT;
    usize::from(u16::from_le_bytes([stored[at], stored[at + 1]]))
}

/// Lengths of output buffers: exact, one byte too short, and others.
pub fn rooms(needed: usize) -> [usize; 7] {
    [
        needed,
        needed.saturating_sub(1),
        needed + 1,
        needed.saturating_sub(2),
        needed + BLOCK + 3,
        0,
        needed / 2,
    ]
}

/// A call with an output buffer that mostly suffices.
fn a_move(random: &mut Random, way: Way, input: Vec<u8>) -> Move {
    let exact = needed(way, &input);
    let room = match random.below(4) {
        0 => exact,
        1 => random.pick(&rooms(exact)),
        _ => exact + random.index(600),
    };
    Move {
        way,
        input,
        room,
        fill: random.word() as u8,
    }
}

/// Shows calls of small and middling size: journals of all sizes to three
/// blocks, with each length of the output around the exact one; stored
/// journals of up to four blocks with every byte changed, cut at every length,
/// their blocks doubled, dropped and swapped, with counts to 514 and above.
pub fn each_move<F: FnMut(&Move)>(random: &mut Random, mut see: F) {
    for size in 0..=3 * CONTENT + 4 {
        let flat = journal(random, size);
        let even = &flat[..size / 2 * 2];
        for (way, input) in [(Way::ToBlocks, flat.clone()), (Way::FromBlocks, lay(even))] {
            let mut call = a_move(random, way, input);
            for room in rooms(needed(way, &call.input)) {
                call.room = room;
                see(&call);
            }
        }
    }
    for blocks in 1..=4 {
        let made = stored(random, blocks);
        let mut inputs: Vec<Vec<u8>> = each_byte_changed(random, &made).collect();
        inputs.extend(cuts(&made).map(<[u8]>::to_vec));
        for one in 0..blocks {
            inputs.push(doubled(&made, one));
            inputs.push(dropped(&made, one));
            inputs.extend((0..blocks).map(|other| swapped(&made, one, other)));
            inputs.extend((0..=514).map(|count| with_count(&made, one, count)));
            inputs.extend(BAD_COUNTS.map(|count| with_count(&made, one, count)));
        }
        for input in inputs {
            see(&a_move(random, Way::FromBlocks, input));
        }
    }
}

/// Shows both ways for the sizes around the end of each of so many blocks.
pub fn boundary_moves<F: FnMut(&Move)>(random: &mut Random, blocks: usize, mut see: F) {
    for size in boundary_sizes(blocks) {
        let flat = journal(random, size);
        if size % 2 == 0 && size as u64 <= LIMIT {
            see(&a_move(random, Way::FromBlocks, lay(&flat)));
        }
        see(&a_move(random, Way::ToBlocks, flat));
    }
}

/// Shows the calls at the limits, each with an exact output, one a byte too
/// short, an empty one and others.
pub fn limit_moves<F: FnMut(&Move)>(random: &mut Random, mut see: F) {
    let flat: Vec<Vec<u8>> = limit_sizes()
        .into_iter()
        .map(|size| journal(random, size))
        .collect();
    let stored = limit_stored(random);
    for (way, inputs) in [(Way::ToBlocks, flat), (Way::FromBlocks, stored)] {
        for input in inputs {
            let mut call = a_move(random, way, input);
            for room in rooms(needed(way, &call.input)) {
                call.room = room;
                see(&call);
            }
        }
    }
}

/// A call of any sort.
pub fn any_move(random: &mut Random) -> Move {
    let blocks = random.index(7);
    let size = match random.below(4) {
        0 => random.index(40),
        1 => (blocks * CONTENT + random.index(7)).saturating_sub(3),
        _ => random.index(7 * CONTENT),
    };
    let input = match random.below(10) {
        0 | 1 => {
            let flat = journal(random, size);
            return a_move(random, Way::ToBlocks, flat);
        }
        2 => {
            let flat = true_journal(random);
            return a_move(random, Way::ToBlocks, flat);
        }
        3 => lay(&true_journal(random)),
        4 => stored(random, blocks),
        5 => random.bytes(size),
        6 => {
            // A stored journal with one byte changed, or none.
            let mut made = stored(random, blocks);
            let at = random.index(made.len());
            if let Some(byte) = made.get_mut(at) {
                *byte ^= random.word() as u8;
            }
            made
        }
        7 => rearranged(random, 1 + blocks),
        _ => {
            let fault = random.pick(&FAULTS);
            let mut made = aimed(random, fault, blocks).stored;
            if random.one_in(8) {
                // An odd length comes before the bad block.
                made.pop();
            }
            made
        }
    };
    a_move(random, Way::FromBlocks, input)
}

/// A stored journal with its blocks doubled, dropped or swapped.
fn rearranged(random: &mut Random, blocks: usize) -> Vec<u8> {
    let made = stored(random, blocks);
    let (one, other) = (random.index(blocks), random.index(blocks));
    match random.below(3) {
        0 => doubled(&made, one),
        1 => dropped(&made, one),
        _ => swapped(&made, one, other),
    }
}
