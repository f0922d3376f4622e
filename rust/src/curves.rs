//! Ellipses and arcs: what is read of one, and all of a file.

use crate::elements::{Dimension, Turn};
use crate::raw::{self, CURVES_NUMBERS, CURVE_FLOATS, CURVE_NUMBERS};
use crate::refusals::{done, Refusal};
use crate::FILE_BYTES;
use std::iter::Zip;
use std::slice::ChunksExact;

/// The origin of an ellipse; z is 0 in a 2D file.
#[derive(Clone, Copy, PartialEq, Debug)]
#[allow(missing_docs)]
pub struct Origin {
    pub x: f64,
    pub y: f64,
    pub z: f64,
}

/// An ellipse. Each float is the 64-bit one nearest to the stored number: never a NaN, never an infinity.
#[derive(Clone, Copy, PartialEq, Debug)]
pub struct Ellipse {
    /// The primary axis.
    pub primary: f64,
    /// The secondary axis.
    pub secondary: f64,
    /// How it is turned.
    pub turn: Turn,
    /// Its origin.
    pub origin: Origin,
}

/// An ellipse or a part of one. (Type 11, [`Type::Curve`](crate::Type::Curve), is another thing: it has points.)
#[derive(Clone, Copy, PartialEq, Debug)]
pub enum Curve {
    /// Type 15.
    Ellipse(Ellipse),
    /// Type 16.
    Arc {
        /// The angle where it starts, as it is stored: 360,000 is a degree.
        start: u32,
        /// The angle that it sweeps, as it is stored.
        sweep: u32,
        /// The ellipse that it is a part of.
        of: Ellipse,
    },
}

impl Curve {
    /// A curve by the numbers and floats of dgn.h.
    fn of(numbers: &[i64; CURVE_NUMBERS], floats: &[f64; CURVE_FLOATS], dimension: Dimension) -> Curve {
        let [kind, start, sweep, turn @ ..] = *numbers;
        let [primary, secondary, x, y, z] = *floats;
        let of = Ellipse { primary, secondary, turn: Turn::of(turn, dimension), origin: Origin { x, y, z } };
        match kind {
            15 => Curve::Ellipse(of),
            _ => Curve::Arc { start: start as u32, sweep: sweep as u32, of },
        }
    }
}

/// The ellipse or the arc that starts at `place`. Refusals: 1, the file's own, 13, 6 for an element of another type.
pub fn curve(file: &[u8], dimension: Dimension, place: usize) -> Result<Curve, Refusal> {
    let (mut numbers, mut floats) = ([0; CURVE_NUMBERS], [0.0; CURVE_FLOATS]);
    done(raw::curve(file, dimension as usize, place, &mut numbers, &mut floats))?;
    Ok(Curve::of(&numbers, &floats, dimension))
}

/// An ellipse or an arc among the elements of a file.
#[derive(Clone, PartialEq, Debug)]
pub struct CurveAt {
    /// Where it starts.
    pub place: usize,
    /// Marked deleted.
    pub deleted: bool,
    /// What it is.
    pub curve: Curve,
}

/// The ellipses and arcs of a part, in file order.
#[derive(Clone, Debug)]
pub struct Curves<'n> {
    pairs: Zip<ChunksExact<'n, i64>, ChunksExact<'n, f64>>,
    dimension: Dimension,
    /// The element number from which the next part begins; where nothing is left, the count of all elements or, where
    /// that is larger, the number from which this part began.
    pub next_element: usize,
}

impl Iterator for Curves<'_> {
    type Item = CurveAt;

    fn next(&mut self) -> Option<CurveAt> {
        let ([place, deleted, numbers @ ..], floats) = self.pairs.next()? else { return None };
        let (numbers, floats) = (numbers.try_into().expect("7 numbers"), floats.try_into().expect("5 floats"));
        let curve = Curve::of(numbers, floats, self.dimension);
        Some(CurveAt { place: *place as usize, deleted: *deleted == 1, curve })
    }

    fn size_hint(&self) -> (usize, Option<usize>) {
        self.pairs.size_hint()
    }
}

impl ExactSizeIterator for Curves<'_> {}

/// The ellipses and arcs among the elements number k, k + 1, .. in file order: as many as `numbers` and `floats`, which take
/// them, both hold whole, with 9 numbers and 5 floats each. Refusals: 1, the file's own; 15 where one is left and either is too
/// short for it.
pub fn curves<'n>(
    file: &[u8],
    dimension: Dimension,
    k: usize,
    numbers: &'n mut [i64],
    floats: &'n mut [f64],
) -> Result<Curves<'n>, Refusal> {
    let mut out = [0; 2];
    done(raw::curves(file, dimension as usize, k, numbers, floats, &mut out))?;
    let [next_element, count] = out;
    let numbers = numbers[..CURVES_NUMBERS * count].chunks_exact(CURVES_NUMBERS);
    let floats = floats[..CURVE_FLOATS * count].chunks_exact(CURVE_FLOATS);
    Ok(Curves { pairs: numbers.zip(floats), dimension, next_element })
}

/// All ellipses and arcs of a file, in file order: one pass. Refusals: 1, the file's own.
pub fn all_curves(file: &[u8], dimension: Dimension) -> Result<Vec<CurveAt>, Refusal> {
    // each has 36 words or more
    let most = file.len().min(FILE_BYTES) / 72;
    let (mut numbers, mut floats) = (vec![0; CURVES_NUMBERS * most], vec![0.0; CURVE_FLOATS * most]);
    Ok(curves(file, dimension, 0, &mut numbers, &mut floats)?.collect())
}
