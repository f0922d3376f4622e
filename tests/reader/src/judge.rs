//! Judging a whole file, and judging a piece at its new place.
//!
//! Elements side by side are taken by loops. Only nesting uses the stack, and
//! an element below depth 8 is refused before its components are looked at.

use crate::ellipse;
use crate::layout;
use crate::linkage;
use crate::names;
use crate::refusal::{self, at, plain, Refusal};
use crate::text;
use crate::words::{count, word};

/// What an accepted file holds.
#[derive(Debug, Clone, PartialEq, Eq)]
pub struct Judged {
    pub elements: u64,
    pub deepest: u64,
    pub marker: u64,
}

/// One element as judging meets it, in file order.
#[derive(Debug, Clone, PartialEq, Eq)]
pub struct Seen {
    pub place: u64,
    pub depth: u64,
    /// The direct header's place.
    pub header: Option<u64>,
    pub kind: u64,
    pub size: u64,
    /// The end of its extent.
    pub end: u64,
}

/// The direct header of an element: place and type.
#[derive(Clone, Copy)]
struct Above {
    place: u64,
    kind: u64,
}

/// Whether the caller's dimension and length are in order.
pub(crate) fn good_call(file: &[u8], dim: u64) -> bool {
    let length = file.len() as u64;
    layout::good_dimension(dim) && length % 2 == 0 && length <= layout::LIMIT
}

/// Judges a file.
pub fn judge(file: &[u8], dim: u64) -> Result<Judged, Refusal> {
    judge_seeing(file, dim, |_| {})
}

/// Judges a file and shows each element, before its components.
pub fn judge_seeing<F: FnMut(&Seen)>(file: &[u8], dim: u64, see: F) -> Result<Judged, Refusal> {
    if !good_call(file, dim) {
        return plain(refusal::CALL);
    }
    let bound = count(file);
    let mut judging = Judging {
        bytes: file,
        dim,
        see,
        elements: 0,
        deepest: 0,
    };
    let mut place = 0;
    loop {
        if place >= bound {
            return at(refusal::NO_END, bound);
        }
        if word(file, place) == layout::MARKER {
            return Ok(Judged {
                elements: judging.elements,
                deepest: judging.deepest,
                marker: place,
            });
        }
        place = judging.element(place, bound, 0, None)?;
    }
}

/// Judges a piece as the element it would be at a depth and under a header of
/// that type. Words left over are looked at last.
pub(crate) fn judge_piece(
    piece: &[u8],
    dim: u64,
    depth: u64,
    above: Option<u64>,
) -> Result<(), Refusal> {
    let bound = count(piece);
    let above = above.map(|kind| Above { place: 0, kind });
    let mut judging = Judging {
        bytes: piece,
        dim,
        see: |_: &Seen| {},
        elements: 0,
        deepest: 0,
    };
    let end = judging.element(0, bound, depth, above)?;
    if end < bound {
        return at(refusal::CUT, end);
    }
    Ok(())
}

struct Judging<'a, F> {
    bytes: &'a [u8],
    dim: u64,
    see: F,
    elements: u64,
    deepest: u64,
}

impl<F: FnMut(&Seen)> Judging<'_, F> {
    /// Judges the element at a place with all beneath it; gives the end of its
    /// extent.
    fn element(
        &mut self,
        place: u64,
        bound: u64,
        depth: u64,
        above: Option<Above>,
    ) -> Result<u64, Refusal> {
        let left = bound.saturating_sub(place);
        if left < 2 {
            return at(refusal::CUT, place);
        }
        let first = word(self.bytes, place);
        let size = word(self.bytes, place + 1) + 2;
        if left < size {
            return at(refusal::CUT, place);
        }
        let kind = first >> 8 & 127;
        // In type 9, bits 6 and 7 are not judged.
        if kind != 9 {
            if first >> 6 & 1 == 1 {
                return at(refusal::RESERVED, place);
            }
            if (first >> 7 & 1 == 1) != above.is_some() {
                return at(refusal::PLACE, place);
            }
        }
        if depth > layout::DEEPEST {
            return at(refusal::DEEP, place);
        }
        if !layout::may_stand(kind, self.dim, above.map(|a| a.kind)) {
            return at(refusal::KIND, place);
        }
        if self.short(place, kind, size) {
            return at(refusal::SHORT, place);
        }
        if kind == 17 && text::a_field_is_wrong(self.bytes, self.dim, place) {
            return at(refusal::FIELD, place);
        }
        let end = match self.extent_end(place, kind, size, bound) {
            Some(end) => end,
            None => return at(refusal::TOTAL, place),
        };
        if linkage::part_is_wrong(self.bytes, self.dim, place, kind, size) {
            return at(refusal::LINKAGE, place);
        }
        if ellipse::a_float_is_wrong(self.bytes, self.dim, place, kind) {
            return at(refusal::FLOAT, place);
        }
        if let Some(offset) = layout::name_word(kind) {
            for letter_word in [place + offset, place + offset + 1] {
                if !names::good_word(word(self.bytes, letter_word)) {
                    return at(refusal::NAME, place);
                }
            }
        }
        self.elements += 1;
        self.deepest = self.deepest.max(depth);
        let header = above.map(|a| a.place);
        let seen = Seen {
            place,
            depth,
            header,
            kind,
            size,
            end,
        };
        (self.see)(&seen);
        let components = self.components(&seen)?;
        if layout::has_count(kind) && word(self.bytes, place + layout::COUNT_WORD) != components {
            return at(refusal::COUNT, place);
        }
        Ok(end)
    }

    /// Judges the components that fill an extent after its header; gives their
    /// number.
    fn components(&mut self, header: &Seen) -> Result<u64, Refusal> {
        let above = Above {
            place: header.place,
            kind: header.kind,
        };
        let mut place = header.place + header.size;
        let mut number = 0;
        while place < header.end {
            place = self.element(place, header.end, header.depth + 1, Some(above))?;
            number += 1;
        }
        Ok(number)
    }

    /// The size is below the fixed part, or N is out of range.
    fn short(&self, place: u64, kind: u64, size: u64) -> bool {
        let sizing = match layout::sizing_word(kind, self.dim) {
            None => 0,
            // That word may be another element's.
            Some(offset) if size <= offset => return true,
            Some(offset) => word(self.bytes, place + offset),
        };
        let wrong_n = layout::has_points_counted(kind) && !layout::good_n(sizing);
        wrong_n || size < layout::fixed_part(kind, self.dim, sizing)
    }

    /// Where the extent ends; none where the size or the total is wrong.
    fn extent_end(&self, place: u64, kind: u64, size: u64, bound: u64) -> Option<u64> {
        if size > layout::LARGEST {
            return None;
        }
        if !layout::is_header(kind) {
            return Some(place + size);
        }
        let length = 19 + word(self.bytes, place + layout::TOTAL_WORD);
        let end = place + length;
        if length < size || end > bound || length > layout::LARGEST {
            return None;
        }
        Some(end)
    }
}
