//! Writing texts, the elements of type 17.

use crate::layout;
use crate::refusal::{self, plain, Refusal};
use crate::text::{field_from, rotation_longs, KIND};
use crate::words::{count, put};
use crate::write::{put_long, Fields};

/// The most characters, and the most fields, of a text.
const MOST: usize = 255;

/// What a text is written from beside its characters, its fields and its
/// tail, as plain numbers so that any value can be handed in.
#[derive(Debug, Clone, PartialEq, Eq, Default)]
pub struct TextFields {
    /// The header's fields. The type is 17.
    pub header: Fields,
    pub font: u64,
    pub justification: u64,
    pub length_multiplier: u64,
    pub height_multiplier: u64,
    /// The rotation in 2D, the four quaternion longs in 3D.
    pub rotation: Vec<u64>,
    /// x and y; in 3D z too.
    pub origin: Vec<i64>,
    /// The last word's high byte where characters and fields fill an odd
    /// number of bytes, else 0.
    pub spare: u64,
}

impl TextFields {
    fn in_range(&self, dim: u64) -> bool {
        let byte = u64::from(u8::MAX);
        let long = u64::from(u32::MAX);
        self.header.kind == KIND
            && self.header.in_range()
            && self.font <= byte
            && self.justification <= byte
            && self.length_multiplier <= long
            && self.height_multiplier <= long
            && self.rotation.len() as u64 == rotation_longs(dim)
            && self.rotation.iter().all(|&value| value <= long)
            && self.origin.len() as u64 == dim
            && self.origin.iter().all(|&axis| i32::try_from(axis).is_ok())
            && self.spare <= byte
    }
}

/// Writes a text at the start of `out`; gives the number of words written. The
/// fields are three bytes each: first character, length, justification.
pub fn write_text(
    text: &TextFields,
    characters: &[u8],
    fields: &[u8],
    tail: &[u8],
    dim: u64,
    out: &mut [u8],
) -> Result<u64, Refusal> {
    if !layout::good_dimension(dim)
        || !text.in_range(dim)
        || characters.len() > MOST
        || fields.len() % 3 != 0
        || fields.len() / 3 > MOST
        || tail.len() % 2 != 0
    {
        return plain(refusal::CALL);
    }
    // With an even number of bytes there is no spare one to hold a value.
    let even = (characters.len() + fields.len()) % 2 == 0;
    if even && text.spare != 0 {
        return plain(refusal::CALL);
    }
    let number = characters.len() as u64;
    let good = |three: &[u8]| field_from([three[0], three[1], three[2]], number).is_some();
    if !fields.chunks_exact(3).all(good) {
        return plain(refusal::FIELD);
    }
    let counts = number | (fields.len() as u64 / 3) << 8;
    let fixed = layout::fixed_part(KIND, dim, counts);
    let size = fixed + count(tail);
    if size > layout::LARGEST {
        return plain(refusal::TOTAL);
    }
    if !text.header.links_fit(fixed, tail) {
        return plain(refusal::LINKAGE);
    }
    if (out.len() as u64) < size * 2 {
        return plain(refusal::ROOM);
    }

    text.header.put(out, size);
    put(out, 18, text.font | text.justification << 8);
    let mut next = 19;
    put_long(out, &mut next, text.length_multiplier);
    put_long(out, &mut next, text.height_multiplier);
    for &value in &text.rotation {
        put_long(out, &mut next, value);
    }
    for &axis in &text.origin {
        put_long(out, &mut next, axis as u64 & u64::from(u32::MAX));
    }
    put(out, next, counts);
    let mut filled = [characters, fields].concat();
    if !even {
        filled.push(text.spare as u8);
    }
    let from = (next as usize + 1) * 2;
    let all = [filled, tail.to_vec()].concat();
    out[from..from + all.len()].copy_from_slice(&all);
    Ok(size)
}
