//! The stored form of a journal: blocks of 512 bytes with a check each.
//!
//! A block is 508 bytes of journal, a word with the number of them that are
//! used, and a last word such that all its 256 words add up to 0 in 16 bits.

use crate::layout::LIMIT;
use crate::refusal::{self, at, plain, Refusal};
use crate::words::{put, word};

/// The bytes of a block, and those of them that are journal.
pub const BLOCK: usize = 512;
pub const CONTENT: usize = 508;

/// The longest stored journal in bytes: the blocks of the longest flat one.
pub const STORED_LIMIT: u64 = 1_057_280;

/// The words of a block behind its journal bytes.
const USED_WORD: u64 = 254;
const CHECK_WORD: u64 = 255;

/// Stores a flat journal at the start of `out`; gives the number of bytes
/// written. Refuses with 1, then 15.
pub fn to_blocks(journal: &[u8], out: &mut [u8]) -> Result<u64, Refusal> {
    if !good_length(journal, LIMIT) {
        return plain(refusal::CALL);
    }
    let parts = journal.chunks(CONTENT);
    let size = parts.len() * BLOCK;
    if out.len() < size {
        return plain(refusal::ROOM);
    }
    for (block, part) in out[..size].chunks_mut(BLOCK).zip(parts) {
        block.copy_from_slice(&block_of(part));
    }
    Ok(size as u64)
}

/// Gives a stored journal back in its flat form at the start of `out`, and the
/// number of bytes written. Refuses with 1, 22 with the number of the first
/// bad block, then 15.
pub fn from_blocks(stored: &[u8], out: &mut [u8]) -> Result<u64, Refusal> {
    if !good_length(stored, STORED_LIMIT) {
        return plain(refusal::CALL);
    }
    let size = flat_length(stored)?;
    if out.len() < size {
        return plain(refusal::ROOM);
    }
    // Every block but the last is full.
    for (part, block) in out[..size].chunks_mut(CONTENT).zip(stored.chunks(BLOCK)) {
        part.copy_from_slice(&block[..part.len()]);
    }
    Ok(size as u64)
}

/// An even length within a limit.
fn good_length(bytes: &[u8], limit: u64) -> bool {
    bytes.len() % 2 == 0 && bytes.len() as u64 <= limit
}

/// All words of a block, added in 16 bits.
fn sum(block: &[u8]) -> u16 {
    block
        .chunks_exact(2)
        .map(|pair| u16::from_le_bytes([pair[0], pair[1]]))
        .fold(0, u16::wrapping_add)
}

/// The block of 2 to 508 bytes of a journal.
fn block_of(part: &[u8]) -> [u8; BLOCK] {
    let mut block = [0; BLOCK];
    block[..part.len()].copy_from_slice(part);
    put(&mut block, USED_WORD, part.len() as u64);
    let check = sum(&block).wrapping_neg();
    put(&mut block, CHECK_WORD, u64::from(check));
    block
}

/// The bytes used in a block; none where its length, its check, its count or
/// its rest is wrong.
fn used_in(block: &[u8]) -> Option<usize> {
    if block.len() != BLOCK || sum(block) != 0 {
        return None;
    }
    let used = word(block, USED_WORD) as usize;
    if used % 2 != 0 || used == 0 || used > CONTENT {
        return None;
    }
    let rest = &block[used..CONTENT];
    rest.iter().all(|&byte| byte == 0).then_some(used)
}

/// The flat length of a stored journal, or 22 at its first bad block.
fn flat_length(stored: &[u8]) -> Result<usize, Refusal> {
    let mut flat = 0;
    for (number, block) in stored.chunks(BLOCK).enumerate() {
        let more = stored.len() > (number + 1) * BLOCK;
        match used_in(block) {
            Some(used) if (used == CONTENT || !more) && (flat + used) as u64 <= LIMIT => {
                flat += used;
            }
            _ => return at(refusal::BLOCK, number as u64),
        }
    }
    Ok(flat)
}
