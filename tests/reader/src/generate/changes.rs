//! Changes to a given file, and bytes that are hardly a file.

use super::floats::{self, offsets};
use super::places::scan;
use super::random::Random;
use super::text::counts_word;
use crate::words::bytes_of;

/// Words that often decide something.
const TELLING: [u16; 26] = [
    0, 1, 2, 3, 16, 17, 18, 19, 20, 24, 26, 27, 33, 46, 101, 102, 255, 256, 4096, 32768, 63999,
    64000, 65516, 65517, 65534, 65535,
];

/// The file cut before each word, the empty file first, the whole file last.
pub fn cuts(file: &[u8]) -> impl Iterator<Item = &[u8]> {
    (0..=file.len() / 2).map(move |words| &file[..words * 2])
}

/// Changes one word of a file; nothing in a file without one.
pub fn change_word(random: &mut Random, file: &mut [u8]) {
    let words = file.len() / 2;
    if words == 0 {
        return;
    }
    let at = random.index(words);
    change_word_at(random, file, at);
}

/// A copy of the file for each of its words, that word changed.
pub fn each_word_changed<'a>(
    random: &'a mut Random,
    file: &'a [u8],
) -> impl Iterator<Item = Vec<u8>> + 'a {
    (0..file.len() / 2).map(move |at| {
        let mut changed = file.to_vec();
        change_word_at(random, &mut changed, at);
        changed
    })
}

/// Changes the word at a place that the file has.
fn change_word_at(random: &mut Random, file: &mut [u8], place: usize) {
    let at = place * 2;
    let old = u16::from_le_bytes([file[at], file[at + 1]]);
    let new = match random.below(6) {
        0 => random.word(),
        1 => old.wrapping_add(1),
        2 => old.wrapping_sub(1),
        3 => old ^ 1 << random.below(16),
        4 => old & 0x00FF | (random.below(128) as u16) << 8,
        _ => random.pick(&TELLING),
    };
    file[at..at + 2].copy_from_slice(&new.to_le_bytes());
}

/// Changes a count of one of a file's texts, or a byte of its fields; nothing
/// in a file without texts.
pub fn change_text(random: &mut Random, file: &mut [u8], dim: u64) {
    let (mut starts, _) = scan(file);
    starts.retain(|start| start.kind == 17);
    if starts.is_empty() {
        return;
    }
    let at = 2 * (random.pick(&starts).place as usize + counts_word(dim));
    let Some(&[characters, fields]) = file.get(at..at + 2) else {
        return;
    };
    let from = at + 2 + usize::from(characters);
    let changed = match random.below(4) {
        0 => at,
        1 => at + 1,
        _ => from + random.index(usize::from(fields) * 3),
    };
    if let Some(byte) = file.get_mut(changed) {
        *byte = match random.below(4) {
            0 => random.pick(&[0, 1, 2, 127, 128, 254, 255]),
            1 => byte.wrapping_add(1),
            2 => byte.wrapping_sub(1),
            _ => characters.wrapping_add(random.below(3) as u8),
        };
    }
}

/// Writes another float, or none, over one of a file's ellipses and arcs, or
/// changes a word of it; nothing in a file without them.
pub fn change_float(random: &mut Random, file: &mut [u8], dim: u64) {
    let (mut starts, _) = scan(file);
    starts.retain(|start| start.kind == 15 || start.kind == 16);
    if starts.is_empty() {
        return;
    }
    let element = random.pick(&starts);
    let at = 2 * (element.place as usize + random.pick(&offsets(element.kind, dim)));
    let Some(words) = file.get_mut(at..at + 8) else {
        return;
    };
    match random.below(4) {
        0 => words.copy_from_slice(&bytes_of(&floats::bad_float(random))),
        1 => words.copy_from_slice(&bytes_of(&floats::float(random))),
        // E becomes 0, the sign stays or goes.
        2 => {
            words[0] &= 0x7F;
            words[1] &= random.pick(&[0, 0x80]);
        }
        _ => {
            let at = random.index(4);
            change_word_at(random, words, at);
        }
    }
}

/// Any bytes, even in number but for one time in twenty.
pub fn random_bytes(random: &mut Random) -> Vec<u8> {
    let words = random.index(120);
    let odd = usize::from(random.one_in(20));
    random.bytes(words * 2 + odd)
}

/// Words of which many look like the start of an element.
pub fn soup(random: &mut Random) -> Vec<u8> {
    let length = random.index(150);
    let words: Vec<u16> = (0..length)
        .map(|_| match random.below(8) {
            0 => {
                let kind = random.pick(&[1u16, 2, 3, 4, 7, 9, 12, 14, 15, 16, 17, 18, 21, 24, 66]);
                kind << 8 | (random.below(2) as u16) << 7 | random.below(64) as u16
            }
            1 => random.pick(&TELLING),
            2 => random.word(),
            3 => 65535,
            _ => random.below(40) as u16,
        })
        .collect();
    bytes_of(&words)
}
