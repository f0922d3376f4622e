//! Writing elements of types 3, 4, 6 and 11.

use crate::layout;
use crate::linkage;
use crate::range;
use crate::refusal::{self, plain, Refusal};
use crate::words::{count, put};

/// All header fields, as plain numbers so that any value can be handed in.
#[derive(Debug, Clone, PartialEq, Eq, Default)]
pub struct Fields {
    /// The type.
    pub kind: u64,
    pub level: u64,
    pub c: u64,
    pub deleted: u64,
    /// Low x y z, high x y z.
    pub range: [i64; 6],
    pub graphic_group: u64,
    pub attribute_index: u64,
    pub properties: u64,
    pub style: u64,
    pub weight: u64,
    pub colour: u64,
}

impl Fields {
    /// Whether each field but the type is in its range.
    pub(crate) fn in_range(&self) -> bool {
        let word = u64::from(u16::MAX);
        self.level <= 63
            && self.c <= 1
            && self.deleted <= 1
            && self.range.iter().all(|&end| i32::try_from(end).is_ok())
            && self.graphic_group <= word
            && self.attribute_index <= word
            && self.properties <= word
            && self.style <= 7
            && self.weight <= 31
            && self.colour <= 255
    }

    /// Whether the attribute part is in order in an element of that fixed
    /// part and tail. With A clear there is none.
    pub(crate) fn links_fit(&self, fixed: u64, tail: &[u8]) -> bool {
        if !linkage::has_a(self.properties) {
            return true;
        }
        let words = count(tail);
        match linkage::part_begin(self.attribute_index, fixed, fixed + words) {
            Some(begin) => linkage::filled(tail, begin - fixed, words),
            None => false,
        }
    }

    /// Writes words 0 to 17 of an element of that size.
    pub(crate) fn put(&self, out: &mut [u8], size: u64) {
        let first = self.level | self.c << 7 | self.kind << 8 | self.deleted << 15;
        put(out, 0, first);
        put(out, 1, size - 2);
        let mut next = 2;
        for coordinate in self.range {
            put_long(out, &mut next, range::stored(coordinate));
        }
        put(out, 14, self.graphic_group);
        put(out, 15, self.attribute_index);
        put(out, 16, self.properties);
        let symbology = self.style | self.weight << 3 | self.colour << 8;
        put(out, 17, symbology);
    }
}

/// Writes an element at the start of `out`; gives the number of words written.
pub fn write(
    fields: &Fields,
    points: &[i32],
    tail: &[u8],
    dim: u64,
    out: &mut [u8],
) -> Result<u64, Refusal> {
    let written = matches!(fields.kind, 3 | 4 | 6 | 11);
    if !layout::good_dimension(dim) || !written || !fields.in_range() || tail.len() % 2 != 0 {
        return plain(refusal::CALL);
    }
    let numbers = points.len() as u64;
    let n = numbers / dim;
    if numbers % dim != 0 || (fields.kind == 3 && n != 2) {
        return plain(refusal::CALL);
    }
    if fields.kind != 3 && !layout::good_n(n) {
        return plain(refusal::SHORT);
    }
    let fixed = layout::fixed_part(fields.kind, dim, n);
    let size = fixed + count(tail);
    if size > layout::LARGEST {
        return plain(refusal::TOTAL);
    }
    if !fields.links_fit(fixed, tail) {
        return plain(refusal::LINKAGE);
    }
    if (out.len() as u64) < size * 2 {
        return plain(refusal::ROOM);
    }

    fields.put(out, size);
    let mut next = 18;
    if fields.kind != 3 {
        put(out, next, n);
        next += 1;
    }
    for &value in points {
        put_long(out, &mut next, u64::from(value as u32));
    }
    let from = (fixed * 2) as usize;
    out[from..from + tail.len()].copy_from_slice(tail);
    Ok(size)
}

/// Writes a long, high word first, and steps past it.
pub(crate) fn put_long(out: &mut [u8], next: &mut u64, value: u64) {
    put(out, *next, value >> 16);
    put(out, *next + 1, value);
    *next += 2;
}
