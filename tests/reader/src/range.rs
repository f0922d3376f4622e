//! Ranges: six longs from word 2, low x y z and high x y z, each stored with
//! its top bit turned over.

use crate::layout;
use crate::refusal::{self, at, Refusal};
use crate::view::element_at;
use crate::words::{long, word};

/// The offset of a range in its element.
const RANGE_WORD: u64 = 2;

/// What the stored number is above its coordinate.
const HALF: i64 = 2_147_483_648;

/// The coordinate of a stored number.
fn coordinate(stored: u32) -> i32 {
    (i64::from(stored) - HALF) as i32
}

/// The stored number of a coordinate, which is one of 32 bits.
pub(crate) fn stored(coordinate: i64) -> u64 {
    (coordinate + HALF) as u64
}

/// The range of the element that starts at a place and has at least 14 words.
pub(crate) fn range(bytes: &[u8], place: u64) -> [i32; 6] {
    [0, 2, 4, 6, 8, 10].map(|offset| coordinate(long(bytes, place + RANGE_WORD + offset)))
}

/// Whether all points of the type 3, 4, 6 or 11 at a place lie in its range,
/// the ends included; in 2D by x and y alone. Refuses with 1, the file's own,
/// 13, then 6 at an element of another type.
pub fn points_in_range(file: &[u8], dim: u64, place: u64) -> Result<bool, Refusal> {
    let element = element_at(file, dim, place)?;
    let number = match element.kind {
        3 => 2,
        4 | 6 | 11 => word(file, element.place + 18),
        _ => return at(refusal::KIND, element.place),
    };
    let first = element.place + layout::point_word(element.kind).unwrap_or(0);
    let range = range(file, element.place);
    for k in 0..number {
        for axis in 0..dim {
            let value = long(file, first + 2 * (k * dim + axis)) as i32;
            let low = range[axis as usize];
            let high = range[axis as usize + 3];
            if value < low || value > high {
                return Ok(false);
            }
        }
    }
    Ok(true)
}
