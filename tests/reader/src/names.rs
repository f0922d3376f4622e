//! Names: two Radix-50 words of three letters each.

use crate::refusal::{self, plain, Refusal};

/// The code of a letter.
fn code(letter: u8) -> Option<u64> {
    match letter {
        b' ' => Some(0),
        b'A'..=b'Z' => Some(u64::from(letter - b'A') + 1),
        b'$' => Some(27),
        b'.' => Some(28),
        b'0'..=b'9' => Some(u64::from(letter - b'0') + 30),
        _ => None,
    }
}

/// The letter of a code from 0 to 39; code 29 has none.
fn letter(code: u64) -> Option<u8> {
    match code {
        0 => Some(b' '),
        1..=26 => Some(b'A' + (code - 1) as u8),
        27 => Some(b'$'),
        28 => Some(b'.'),
        30..=39 => Some(b'0' + (code - 30) as u8),
        _ => None,
    }
}

/// The three letters of a word.
fn letters(word: u64) -> Option<[u8; 3]> {
    if word > 63_999 {
        return None;
    }
    let first = letter(word / 1600)?;
    let second = letter(word / 40 % 40)?;
    let third = letter(word % 40)?;
    Some([first, second, third])
}

/// Whether a stored word is three letters.
pub(crate) fn good_word(word: u64) -> bool {
    letters(word).is_some()
}

/// The two words of a text.
pub fn pack(text: &[u8]) -> Result<(u16, u16), Refusal> {
    if text.len() > 6 || text.last() == Some(&b' ') {
        return plain(refusal::NAME);
    }
    let mut codes = [0u64; 6];
    for (slot, &given) in codes.iter_mut().zip(text) {
        match code(given) {
            Some(found) => *slot = found,
            None => return plain(refusal::NAME),
        }
    }
    let [a, b, c, d, e, f] = codes;
    let first = a * 1600 + b * 40 + c;
    let second = d * 1600 + e * 40 + f;
    Ok((first as u16, second as u16))
}

/// The text of two words, without trailing spaces.
pub fn unpack(first: u16, second: u16) -> Result<Vec<u8>, Refusal> {
    match (letters(u64::from(first)), letters(u64::from(second))) {
        (Some(left), Some(right)) => {
            let mut text = left.to_vec();
            text.extend_from_slice(&right);
            while text.last() == Some(&b' ') {
                text.pop();
            }
            Ok(text)
        }
        _ => plain(refusal::NAME),
    }
}
