//! The attribute part of an element and the linkages that fill it.

use crate::layout;
use crate::refusal::{self, plain, Refusal};
use crate::view::element_at;
use crate::words::word;

/// The two kinds of linkage.
#[derive(Debug, Clone, Copy, PartialEq, Eq)]
pub enum LinkageKind {
    User,
    Other,
}

/// One linkage: its place in the file, its size in words and its id.
#[derive(Debug, Clone, PartialEq, Eq)]
pub struct Linkage {
    pub kind: LinkageKind,
    pub place: u64,
    pub size: u64,
    pub id: u16,
}

/// Property bit 11 is A, attributes present.
pub(crate) fn has_a(properties: u64) -> bool {
    properties >> 11 & 1 == 1
}

/// Where the attribute part begins, counted from the element's start; none
/// where it would begin inside the fixed part or after the element's end.
pub(crate) fn part_begin(index: u64, fixed: u64, size: u64) -> Option<u64> {
    let begin = 16 + index;
    if begin < fixed || begin > size {
        None
    } else {
        Some(begin)
    }
}

/// The linkage that begins at a place, if it is well formed and ends by `end`.
fn linkage_from(bytes: &[u8], place: u64, end: u64) -> Option<Linkage> {
    let left = end.saturating_sub(place);
    if left == 0 {
        return None;
    }
    let first = word(bytes, place);
    if first >> 12 & 1 == 1 {
        let follow = first & 255;
        if follow == 0 || left < follow + 1 {
            return None;
        }
        let id = word(bytes, place + 1) as u16;
        return Some(Linkage {
            kind: LinkageKind::User,
            place,
            size: follow + 1,
            id,
        });
    }
    if (first == 0 || first == 32_768) && left >= 4 {
        return Some(Linkage {
            kind: LinkageKind::Other,
            place,
            size: 4,
            id: 0,
        });
    }
    None
}

/// Whether linkages fill the words from `begin` to `end` exactly.
pub(crate) fn filled(bytes: &[u8], begin: u64, end: u64) -> bool {
    let mut place = begin;
    while place < end {
        match linkage_from(bytes, place, end) {
            Some(found) => place += found.size,
            None => return false,
        }
    }
    true
}

/// Where the attribute part of an element begins in the file. `None` means
/// that the element has no such part, `Some(None)` that it begins wrongly.
fn part(bytes: &[u8], dim: u64, place: u64, kind: u64, size: u64) -> Option<Option<u64>> {
    if !layout::has_display(kind) || !has_a(word(bytes, place + 16)) {
        return None;
    }
    let sizing = layout::sizing_word(kind, dim).map_or(0, |offset| word(bytes, place + offset));
    let fixed = layout::fixed_part(kind, dim, sizing);
    let index = word(bytes, place + 15);
    Some(part_begin(index, fixed, size).map(|begin| place + begin))
}

/// Whether the attribute part of an element is wrong. The element is as long
/// as its fixed part.
pub(crate) fn part_is_wrong(bytes: &[u8], dim: u64, place: u64, kind: u64, size: u64) -> bool {
    match part(bytes, dim, place, kind, size) {
        None => false,
        Some(None) => true,
        Some(Some(begin)) => !filled(bytes, begin, place + size),
    }
}

/// Linkage k, counted from 0, of the element at a place.
pub fn linkage(file: &[u8], dim: u64, place: u64, k: u64) -> Result<Linkage, Refusal> {
    let element = element_at(file, dim, place)?;
    let end = element.place + element.size;
    if let Some(Some(begin)) = part(file, dim, element.place, element.kind, element.size) {
        let mut next = begin;
        let mut passed = 0;
        while let Some(found) = linkage_from(file, next, end) {
            if passed == k {
                return Ok(found);
            }
            passed += 1;
            next += found.size;
        }
    }
    plain(refusal::NO_SUCH)
}
