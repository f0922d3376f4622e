//! Journals flat and stored in blocks, good and damaged.
//!
//! Stored journals are laid out here by themselves, without the calls.

use super::random::Random;
use super::sessions;
use crate::blocks::{BLOCK, CONTENT, STORED_LIMIT};
use crate::layout::LIMIT;
use crate::refusal::Refusal;
use crate::words::{bytes_of, words_of};

/// The blocks of the longest journal. The last of them holds 64 bytes.
pub const MOST_BLOCKS: usize = 2065;

/// Where the count and the check begin in a block.
pub(super) const COUNT_AT: usize = 508;
const CHECK_AT: usize = 510;

/// A journal of that many bytes.
pub fn journal(random: &mut Random, size: usize) -> Vec<u8> {
    match random.below(8) {
        0 => vec![0; size],
        1 => vec![0xFF; size],
        // Words of which each pair adds up to 0.
        2 => [0, 0x80].into_iter().cycle().take(size).collect(),
        // Zeros at the end, as the rest of a block has them.
        3 => {
            let mut bytes = random.bytes(size);
            let from = random.index(size + 1);
            bytes[from..].fill(0);
            bytes
        }
        _ => random.bytes(size),
    }
}

/// The used journal of some edits.
pub fn true_journal(random: &mut Random) -> Vec<u8> {
    let mut state = sessions::fresh_state(random);
    for _ in 0..1 + random.below(12) {
        let call = sessions::next_call(random, state.used_file(), state.dim);
        let _ = state.run(&call);
    }
    state.journal[..state.jused as usize].to_vec()
}

/// A block of at most 508 bytes, zeros behind them, with any count and the
/// check that belongs to it.
pub fn block(content: &[u8], count: u16) -> Vec<u8> {
    let mut words = words_of(content);
    words.resize(254, 0);
    words.push(count);
    words.push(0);
    let mut block = bytes_of(&words);
    mend(&mut block, 0);
    block
}

/// Writes the check that belongs to a block.
pub fn mend(stored: &mut [u8], number: usize) {
    let block = &mut stored[number * BLOCK..(number + 1) * BLOCK];
    let words = words_of(&block[..CHECK_AT]);
    let total: u32 = words.into_iter().map(u32::from).sum();
    let check = (65_536 - total % 65_536) % 65_536;
    block[CHECK_AT..].copy_from_slice(&(check as u16).to_le_bytes());
}

/// The stored form of a journal with an even number of bytes.
pub fn lay(journal: &[u8]) -> Vec<u8> {
    let parts = journal.chunks(CONTENT);
    parts
        .flat_map(|part| block(part, part.len() as u16))
        .collect()
}

/// A stored journal of that many blocks, the last one part full or full.
pub fn stored(random: &mut Random, blocks: usize) -> Vec<u8> {
    let Some(full) = blocks.checked_sub(1) else {
        return Vec::new();
    };
    let last = match random.below(4) {
        0 => CONTENT,
        1 => random.pick(&[2, 4, 64, 254, 256, 504, 506]),
        _ => 2 + 2 * random.index(CONTENT / 2),
    };
    lay(&journal(random, full * CONTENT + last))
}

/// Sizes two bytes around the end of each of so many blocks, odd ones too.
pub fn boundary_sizes(blocks: usize) -> impl Iterator<Item = usize> {
    (1..=blocks).flat_map(|number| number * CONTENT - 2..=number * CONTENT + 2)
}

/// Sizes around the longest journal, and around its last whole block.
pub fn limit_sizes() -> Vec<usize> {
    let limit = LIMIT as usize;
    let whole = (MOST_BLOCKS - 1) * CONTENT;
    let around = (whole - 2..=whole + 2).chain(limit - 2..=limit + 2);
    around
        .chain([limit + 444, limit + 446, limit + BLOCK])
        .collect()
}

/// A copy for each byte, that byte changed.
pub fn each_byte_changed<'a>(
    random: &'a mut Random,
    bytes: &'a [u8],
) -> impl Iterator<Item = Vec<u8>> + 'a {
    (0..bytes.len()).map(move |at| {
        let mut changed = bytes.to_vec();
        changed[at] ^= match random.below(2) {
            0 => 1 << random.below(8),
            _ => 1 + random.below(255) as u8,
        };
        changed
    })
}

/// The bytes cut at every length, nothing first, all last.
pub fn cuts(bytes: &[u8]) -> impl Iterator<Item = &[u8]> {
    (0..=bytes.len()).map(move |length| &bytes[..length])
}

/// A block stands twice.
pub fn doubled(stored: &[u8], number: usize) -> Vec<u8> {
    let (before, from) = stored.split_at(number * BLOCK);
    [before, &from[..BLOCK], from].concat()
}

/// A block is left out.
pub fn dropped(stored: &[u8], number: usize) -> Vec<u8> {
    let (before, from) = stored.split_at(number * BLOCK);
    [before, &from[BLOCK..]].concat()
}

/// Two blocks change places.
pub fn swapped(stored: &[u8], one: usize, other: usize) -> Vec<u8> {
    let mut blocks: Vec<&[u8]> = stored.chunks(BLOCK).collect();
    blocks.swap(one, other);
    blocks.concat()
}

/// Another count in a block, and the check that belongs to it.
pub fn with_count(stored: &[u8], number: usize, count: u16) -> Vec<u8> {
    let mut changed = stored.to_vec();
    let at = number * BLOCK + COUNT_AT;
    changed[at..at + 2].copy_from_slice(&count.to_le_bytes());
    mend(&mut changed, number);
    changed
}

/// Counts that no block may have.
pub(super) const BAD_COUNTS: [u16; 13] = [
    0, 1, 3, 255, 507, 509, 510, 512, 764, 32_768, 65_027, 65_534, 65_535,
];

/// What may be wrong in a stored journal. But for `Check` every check is right.
#[derive(Debug, Clone, Copy, PartialEq, Eq)]
pub enum Fault {
    Check,
    Count,
    PartFull,
    Rest,
    ShortEnd,
}

pub const FAULTS: [Fault; 5] = [
    Fault::Check,
    Fault::Count,
    Fault::PartFull,
    Fault::Rest,
    Fault::ShortEnd,
];

/// A stored journal and the refusal that it must meet.
#[derive(Debug, Clone)]
pub struct Aimed {
    pub stored: Vec<u8>,
    pub refusal: Refusal,
}

/// A stored journal of that many blocks, one at least, with such a fault; a
/// part-full or short block is one more. Later blocks may be bad too.
pub fn aimed(random: &mut Random, fault: Fault, blocks: usize) -> Aimed {
    let mut made = stored(random, blocks.max(1));
    let blocks = made.len() / BLOCK;
    let mut number = random.index(blocks);
    match fault {
        Fault::Check => {
            let word = 2 * random.index(256) + number * BLOCK;
            let change = 1 + random.below(65_535) as u16;
            let old = u16::from_le_bytes([made[word], made[word + 1]]);
            made[word..word + 2].copy_from_slice(&old.wrapping_add(change).to_le_bytes());
        }
        Fault::Count => made = with_count(&made, number, random.pick(&BAD_COUNTS)),
        Fault::PartFull => {
            let size = 2 + 2 * random.index(253);
            let part = block(&journal(random, size), size as u16);
            let after = match random.below(3) {
                // A short end behind a block that would do as the last one.
                0 => {
                    number = blocks;
                    made = with_full_end(random, &made);
                    let length = 2 * (1 + random.index(255));
                    random.bytes(length)
                }
                _ => made.split_off(number * BLOCK),
            };
            made.extend(part);
            made.extend(after);
        }
        Fault::Rest => {
            number = blocks - 1;
            let size = 2 + 2 * random.index(253);
            let mut content = journal(random, size);
            content.resize(CONTENT, 0);
            let at = size + random.index(CONTENT - size);
            content[at] = 1 + random.below(255) as u8;
            made.truncate(number * BLOCK);
            made.extend(block(&content, size as u16));
        }
        Fault::ShortEnd => {
            number = blocks;
            made = with_full_end(random, &made);
            let length = 2 * (1 + random.index(255));
            // The front of a block, or any bytes.
            let next = match random.below(2) {
                0 => block(&journal(random, CONTENT), CONTENT as u16),
                _ => random.bytes(BLOCK),
            };
            made.extend(&next[..length]);
        }
    }
    let whole = made.len() / BLOCK;
    if number + 1 < whole && random.one_in(3) {
        // A check that is wrong further on.
        let later = number + 1 + random.index(whole - number - 1);
        made[later * BLOCK + random.index(BLOCK)] ^= 1;
    }
    let place = number as u64;
    Aimed {
        stored: made,
        refusal: Refusal { number: 22, place },
    }
}

/// The same blocks with a full one as the last.
fn with_full_end(random: &mut Random, stored: &[u8]) -> Vec<u8> {
    let kept = stored.len() - BLOCK;
    let full = block(&journal(random, CONTENT), CONTENT as u16);
    [&stored[..kept], &full].concat()
}

/// Stored journals at the limits: of 2,064 and 2,065 blocks, with more bytes in
/// the last block than the flat form may take, and longer ones.
pub fn limit_stored(random: &mut Random) -> Vec<Vec<u8>> {
    let whole = lay(&journal(random, (MOST_BLOCKS - 1) * CONTENT));
    let mut all = vec![whole.clone()];
    for size in [2, 62, 64, 66, 68, 128, 506, 508] {
        let last = block(&journal(random, size), size as u16);
        all.push([&whole[..], &last].concat());
    }
    let longest = [&whole[..], &block(&journal(random, 64), 64)].concat();
    let limit = STORED_LIMIT as usize;
    for length in [limit - 510, limit - 511, limit - 2, limit - 1] {
        all.push(longest[..length].to_vec());
    }
    for more in [1, 2, BLOCK - 1, BLOCK, BLOCK + 2] {
        let mut longer = longest.clone();
        longer.resize(limit + more, 0);
        all.push(longer);
    }
    let full = block(&journal(random, CONTENT), CONTENT as u16);
    all.push([&whole[..], &full, &full].concat());
    // Bad blocks far from the end, and an end that is bad as well.
    for at in [0, 511, 512, limit / 2, limit - 1] {
        let mut changed = longest.clone();
        changed[at] ^= 0x40;
        all.push(changed.clone());
        changed.truncate(limit - 2);
        all.push(changed);
    }
    all
}
