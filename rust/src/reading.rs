//! A whole file judged, and one element of it. Each call judges the whole file, one pass over its bytes.

use crate::elements::{Dimension, Linkage, LinkageKind, Point, View};
use crate::raw;
use crate::refusals::{done, refused_by, Refusal};

/// What an accepted file holds.
#[derive(Clone, Copy, PartialEq, Eq, Hash, Debug)]
pub struct Judged {
    /// Elements at all depths.
    pub elements: usize,
    /// The greatest depth.
    pub deepest: usize,
    /// The end marker's place.
    pub marker: usize,
}

/// Judges a file. Refusals: 1 to 12, 20, 21.
pub fn judge(file: &[u8], dimension: Dimension) -> Result<Judged, Refusal> {
    let mut out = [0; 3];
    done(raw::judge(file, dimension as usize, &mut out))?;
    let [elements, deepest, marker] = out;
    Ok(Judged { elements, deepest, marker })
}

/// A cell that was found.
#[derive(Clone, Copy, PartialEq, Eq, Hash, Debug)]
pub struct Found {
    /// Where it starts.
    pub place: usize,
    /// How many elements were looked at, itself counted.
    pub looked_at: usize,
}

/// The first live type 1 or 2 cell with the name: cells whose own deleted flag is set are passed over, and counted. Refusals: 1, the
/// file's own, 12 for the text, 13 with the count of all elements, also where only deleted cells have the name.
pub fn find(file: &[u8], dimension: Dimension, text: impl AsRef<[u8]>) -> Result<Found, Refusal> {
    found(raw::find, file, dimension, text.as_ref())
}

/// The first type 1 or 2 cell with the name, be it live or deleted. Refusals as those of [`find`].
pub fn find_with_deleted(file: &[u8], dimension: Dimension, text: impl AsRef<[u8]>) -> Result<Found, Refusal> {
    found(raw::find_with_deleted, file, dimension, text.as_ref())
}

/// What one of the two functions of [`raw`] finds.
fn found(
    by: fn(&[u8], usize, &[u8], &mut [usize]) -> usize,
    file: &[u8],
    dimension: Dimension,
    text: &[u8],
) -> Result<Found, Refusal> {
    let mut out = [0; 2];
    refused_by(by(file, dimension as usize, text, &mut out), Refusal::of_find)?;
    Ok(Found { place: out[0], looked_at: out[1] })
}

/// The words of the element that starts at `place`, with all beneath it. Refusals: 1, the file's own, 13.
pub fn extent(file: &[u8], dimension: Dimension, place: usize) -> Result<std::ops::Range<usize>, Refusal> {
    let mut out = [0; 2];
    done(raw::extent(file, dimension as usize, place, &mut out))?;
    Ok(out[0]..out[1])
}

/// A view of the element that starts at `place`. Refusals: 1, the file's own, 13.
pub fn view(file: &[u8], dimension: Dimension, place: usize) -> Result<View, Refusal> {
    let mut out = [0; raw::VIEW_NUMBERS];
    done(raw::view(file, dimension as usize, place, &mut out))?;
    Ok(View::of(&out))
}

/// Point k, from 0, of the element that starts at `place`. Refusals: 1, the file's own, 13.
pub fn point(file: &[u8], dimension: Dimension, place: usize, k: usize) -> Result<Point, Refusal> {
    let mut out = [0; 3];
    done(raw::point(file, dimension as usize, place, k, &mut out))?;
    Ok(Point::of(&out))
}

/// Whether all points of the element of type 3, 4, 6 or 11 that starts at `place` lie in its range, both ends included: by x and y,
/// in a 3D file by z too. Refusals: 1, the file's own, 13, 6 for an element of another type.
pub fn in_range(file: &[u8], dimension: Dimension, place: usize) -> Result<bool, Refusal> {
    let mut out = [0];
    done(raw::in_range(file, dimension as usize, place, &mut out))?;
    Ok(out[0] == 1)
}

/// Linkage k, from 0, of the element that starts at `place`. Refusals: 1, the file's own, 13.
pub fn linkage(file: &[u8], dimension: Dimension, place: usize, k: usize) -> Result<Linkage, Refusal> {
    let mut out = [0; 4];
    done(raw::linkage(file, dimension as usize, place, k, &mut out))?;
    let [user, place, size, id] = out;
    let kind = if user == 1 { LinkageKind::User } else { LinkageKind::Other };
    Ok(Linkage { kind, place, size, id: id as u16 })
}
