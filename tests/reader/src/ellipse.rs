//! Ellipses and arcs, the elements of types 15 and 16.

use crate::float::float_bits;
use crate::judge::{judge_seeing, Seen};
use crate::refusal::{self, at, Refusal};
use crate::view::element_at;
use crate::words::{long, word};

/// The type of an ellipse, and that of an arc.
const ELLIPSE: u64 = 15;
const ARC: u64 = 16;

/// The axes, the turn and the origin. A float is given as the bits of the
/// nearest 64-bit one.
#[derive(Debug, Clone, PartialEq, Eq)]
pub struct Axes {
    pub primary: u64,
    pub secondary: u64,
    /// The rotation in 2D, the four quaternion longs in 3D, as stored.
    pub rotation: Vec<u32>,
    /// x and y; in 3D z too.
    pub origin: Vec<u64>,
}

/// The reading of an ellipse or of an arc.
#[derive(Debug, Clone, PartialEq, Eq)]
pub enum EllipseOrArc {
    Ellipse(Axes),
    /// The start and the sweep as they are stored.
    Arc {
        start: u32,
        sweep: u32,
        axes: Axes,
    },
}

/// An ellipse or an arc among the elements of a file.
#[derive(Debug, Clone, PartialEq, Eq)]
pub struct EllipseAt {
    /// The element's number in file order, from 0.
    pub number: u64,
    pub place: u64,
    pub reading: EllipseOrArc,
}

/// Where the parts of an ellipse or an arc stand, counted from its start.
struct Parts {
    primary: u64,
    secondary: u64,
    rotation: Vec<u64>,
    origin: Vec<u64>,
}

/// The parts one after another: start and sweep of an arc, two axes, the
/// turn, the origin.
fn parts(kind: u64, dim: u64) -> Option<Parts> {
    let primary = match kind {
        ELLIPSE => 18,
        ARC => 22,
        _ => return None,
    };
    let turn = primary + 8;
    let turns = if dim == 3 { 4 } else { 1 };
    let origin = turn + 2 * turns;
    Some(Parts {
        primary,
        secondary: primary + 4,
        rotation: (0..turns).map(|k| turn + 2 * k).collect(),
        origin: (0..dim).map(|k| origin + 4 * k).collect(),
    })
}

/// The D-float at a place.
fn float(bytes: &[u8], place: u64) -> Option<u64> {
    float_bits([0, 1, 2, 3].map(|k| word(bytes, place + k) as u16))
}

/// Whether a float of the element at a place is none. The element is as long
/// as its fixed part.
pub(crate) fn a_float_is_wrong(bytes: &[u8], dim: u64, place: u64, kind: u64) -> bool {
    match parts(kind, dim) {
        None => false,
        Some(parts) => [parts.primary, parts.secondary]
            .into_iter()
            .chain(parts.origin)
            .any(|offset| float(bytes, place + offset).is_none()),
    }
}

/// The reading of the element at a place of an accepted file, if it is an
/// ellipse or an arc.
fn reading(file: &[u8], dim: u64, element: &Seen) -> Option<EllipseOrArc> {
    let place = element.place;
    let parts = parts(element.kind, dim)?;
    let mut origin = Vec::new();
    for offset in parts.origin {
        origin.push(float(file, place + offset)?);
    }
    let axes = Axes {
        primary: float(file, place + parts.primary)?,
        secondary: float(file, place + parts.secondary)?,
        rotation: parts
            .rotation
            .into_iter()
            .map(|offset| long(file, place + offset))
            .collect(),
        origin,
    };
    Some(if element.kind == ARC {
        EllipseOrArc::Arc {
            start: long(file, place + 18),
            sweep: long(file, place + 20),
            axes,
        }
    } else {
        EllipseOrArc::Ellipse(axes)
    })
}

/// The ellipse or the arc at a place. Refuses with 1, the file's own, 13, then
/// 6 at an element of another type.
pub fn read_ellipse(file: &[u8], dim: u64, place: u64) -> Result<EllipseOrArc, Refusal> {
    let element = element_at(file, dim, place)?;
    match reading(file, dim, &element) {
        Some(reading) => Ok(reading),
        None => at(refusal::KIND, element.place),
    }
}

/// The ellipses and arcs among the elements from number k on, in file order.
pub fn ellipses_from(file: &[u8], dim: u64, k: u64) -> Result<Vec<EllipseAt>, Refusal> {
    let mut number = 0;
    let mut found = Vec::new();
    judge_seeing(file, dim, |seen| {
        if number >= k {
            if let Some(reading) = reading(file, dim, seen) {
                found.push(EllipseAt {
                    number,
                    place: seen.place,
                    reading,
                });
            }
        }
        number += 1;
    })?;
    Ok(found)
}
