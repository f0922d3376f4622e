//! The deleted bits of the elements of an extent, as a journal keeps them:
//! sixteen a word in file order, lowest first, spare bits zero.

use crate::words::{count, put, word};

/// Bit 15 of the element at a place.
pub(crate) fn is_deleted(file: &[u8], place: u64) -> bool {
    word(file, place) >> 15 == 1
}

/// Sets or clears bit 15 of the element at a place.
pub(crate) fn set(file: &mut [u8], place: u64, deleted: bool) {
    let rest = word(file, place) & 0x7FFF;
    put(file, place, rest | u64::from(deleted) << 15);
}

/// The words that keep so many bits.
fn words_for(bits: usize) -> u64 {
    bits.div_ceil(16) as u64
}

/// The bits of the elements at these places.
pub(crate) fn kept(file: &[u8], places: &[u64]) -> Vec<u8> {
    let mut bytes = vec![0; words_for(places.len()) as usize * 2];
    for (i, &place) in places.iter().enumerate() {
        let at = i as u64 / 16;
        let bit = u64::from(is_deleted(file, place)) << (i % 16);
        let before = word(&bytes, at);
        put(&mut bytes, at, before | bit);
    }
    bytes
}

/// So many bits out of a payload; none where it has another size than they
/// need, or a spare bit set.
pub(crate) fn read(payload: &[u8], bits: usize) -> Option<Vec<bool>> {
    if count(payload) != words_for(bits) {
        return None;
    }
    let bit = |i: usize| word(payload, i as u64 / 16) >> (i % 16) & 1 == 1;
    if (bits..bits.next_multiple_of(16)).any(bit) {
        return None;
    }
    Some((0..bits).map(bit).collect())
}
