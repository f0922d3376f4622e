//! Words and longs in a slice of bytes.
//!
//! A word is two bytes, low byte first. A long is two words, high word first.

/// The number of whole words in a slice.
pub fn count(bytes: &[u8]) -> u64 {
    (bytes.len() / 2) as u64
}

/// Where the word at a place begins in bytes, if the slice has that word.
fn offset(bytes: &[u8], place: u64) -> Option<usize> {
    if place < count(bytes) {
        Some(place as usize * 2)
    } else {
        None
    }
}

/// The word at a place; 0 where the slice has no such word.
pub fn word(bytes: &[u8], place: u64) -> u64 {
    match offset(bytes, place) {
        Some(o) => u64::from(bytes[o]) | u64::from(bytes[o + 1]) << 8,
        None => 0,
    }
}

/// The unsigned long at a place.
pub fn long(bytes: &[u8], place: u64) -> u32 {
    let high = word(bytes, place);
    let low = word(bytes, place.saturating_add(1));
    (high << 16 | low) as u32
}

/// Writes the low sixteen bits of a value at a place; nothing where the
/// slice has no such word.
pub fn put(bytes: &mut [u8], place: u64, value: u64) {
    if let Some(o) = offset(bytes, place) {
        bytes[o] = value as u8;
        bytes[o + 1] = (value >> 8) as u8;
    }
}

/// All whole words of a slice.
pub fn words_of(bytes: &[u8]) -> Vec<u16> {
    bytes
        .chunks_exact(2)
        .map(|pair| u16::from_le_bytes([pair[0], pair[1]]))
        .collect()
}

/// The bytes of a list of words.
pub fn bytes_of(words: &[u16]) -> Vec<u8> {
    words.iter().flat_map(|w| w.to_le_bytes()).collect()
}
