//! All views, all points and all ranges of a file, at once or in parts: each part judges the file once.

use crate::elements::{Dimension, Point, View};
use crate::raw::{self, VIEW_NUMBERS};
use crate::refusals::{done, Refusal};
use crate::FILE_BYTES;
use std::slice::{Chunks, ChunksExact, Iter};

/// The views of a part, in file order.
#[derive(Clone, Debug)]
pub struct Views<'n>(ChunksExact<'n, i64>);

impl Iterator for Views<'_> {
    type Item = View;

    fn next(&mut self) -> Option<View> {
        let numbers = self.0.next()?;
        Some(View::of(numbers.try_into().expect("32 numbers")))
    }

    fn size_hint(&self) -> (usize, Option<usize>) {
        self.0.size_hint()
    }
}

impl ExactSizeIterator for Views<'_> {}

/// The views of the elements number k, k + 1, .. in file order, from 0 and at all depths: as many as `numbers`, which
/// takes them, holds whole with 32 numbers each. None where no element is left. Refusals: 1, the file's own; 15 where one is
/// left and `numbers` is too short for it.
pub fn views<'n>(file: &[u8], dimension: Dimension, k: usize, numbers: &'n mut [i64]) -> Result<Views<'n>, Refusal> {
    let mut out = [0];
    done(raw::views(file, dimension as usize, k, numbers, &mut out))?;
    Ok(Views(numbers[..VIEW_NUMBERS * out[0]].chunks_exact(VIEW_NUMBERS)))
}

/// The elements of a part that have points, in file order.
#[derive(Clone, Debug)]
pub struct Points<'n> {
    numbers: &'n [i64],
    dimension: Dimension,
    /// The element number from which the next part begins; where nothing is left, the count of all elements or, where
    /// that is larger, the number from which this part began.
    pub next_element: usize,
}

/// An element with points.
#[derive(Clone, Debug)]
pub struct Pointed<'n> {
    /// Where it starts.
    pub place: usize,
    coordinates: Chunks<'n, i64>,
}

impl<'n> Pointed<'n> {
    /// Its points.
    pub fn points(&self) -> impl ExactSizeIterator<Item = Point> + 'n {
        self.coordinates.clone().map(Point::of)
    }
}

impl<'n> Iterator for Points<'n> {
    type Item = Pointed<'n>;

    fn next(&mut self) -> Option<Pointed<'n>> {
        let [place, n, rest @ ..] = self.numbers else { return None };
        let (own, rest) = rest.split_at(*n as usize * self.dimension as usize);
        self.numbers = rest;
        Some(Pointed { place: *place as usize, coordinates: own.chunks(self.dimension as usize) })
    }
}

/// The points of the elements number k, k + 1, .. that have any (types 3, 4, 6, 11 and 21): as many elements as
/// `numbers`, which takes them, holds whole; an element of n points has 2 and n times the dimension. Refusals: the file's
/// own; 15 where not even the first that is left fits: room for 305 numbers is enough for any.
pub fn points<'n>(file: &[u8], dimension: Dimension, k: usize, numbers: &'n mut [i64]) -> Result<Points<'n>, Refusal> {
    let mut out = [0; 2];
    done(raw::points(file, dimension as usize, k, numbers, &mut out))?;
    Ok(Points { numbers: &numbers[..out[1]], dimension, next_element: out[0] })
}

/// The places of a part, in file order.
#[derive(Clone, Debug)]
pub struct Ranges<'n> {
    places: Iter<'n, i64>,
    /// The element number from which the next part begins; where nothing is left, the count of all elements or, where
    /// that is larger, the number from which this part began.
    pub next_element: usize,
}

impl Iterator for Ranges<'_> {
    type Item = usize;

    fn next(&mut self) -> Option<usize> {
        self.places.next().map(|&place| place as usize)
    }

    fn size_hint(&self) -> (usize, Option<usize>) {
        self.places.size_hint()
    }
}

impl ExactSizeIterator for Ranges<'_> {}

/// The places of those of the elements number k, k + 1, .. whose points do not all lie in their range, as
/// [`in_range`](crate::in_range) answers: as many as `places`, which takes them, holds. Refusals: 1, the file's own; 15 where one is
/// left and `places` is empty.
pub fn ranges<'n>(file: &[u8], dimension: Dimension, k: usize, places: &'n mut [i64]) -> Result<Ranges<'n>, Refusal> {
    let mut out = [0; 2];
    done(raw::ranges(file, dimension as usize, k, places, &mut out))?;
    let [next_element, count] = out;
    Ok(Ranges { places: places[..count].iter(), next_element })
}

/// All views of a file, in file order: one pass where its elements have 16 words or more on average, as all of known types
/// have, else two. Refusals: 1, the file's own.
pub fn all_views(file: &[u8], dimension: Dimension) -> Result<Vec<View>, Refusal> {
    let bytes = file.len().min(FILE_BYTES);
    let mut numbers = vec![0; VIEW_NUMBERS * (bytes / 32 + 1)];
    let mut all: Vec<View> = views(file, dimension, 0, &mut numbers)?.collect();
    if let Some(last) = all.last().filter(|_| VIEW_NUMBERS * all.len() == numbers.len()) {
        // what follows the last one has two words or more for each element
        let rest = bytes / 2 - (last.place + last.size);
        numbers = vec![0; VIEW_NUMBERS * (rest / 2)];
        all.extend(views(file, dimension, all.len(), &mut numbers)?);
    }
    Ok(all)
}

/// An element with its points.
#[derive(Clone, PartialEq, Eq, Hash, Debug)]
pub struct Drawn {
    /// Where it starts.
    pub place: usize,
    /// Its points.
    pub points: Vec<Point>,
}

/// All elements of a file that have points, in file order: one pass. Refusals: 1, the file's own.
pub fn all_points(file: &[u8], dimension: Dimension) -> Result<Vec<Drawn>, Refusal> {
    // an element gives no more numbers than half its words: two for more than four, and a coordinate for two
    let mut numbers = vec![0; file.len().min(FILE_BYTES) / 4];
    let all = points(file, dimension, 0, &mut numbers)?;
    Ok(all.map(|p| Drawn { place: p.place, points: p.points().collect() }).collect())
}

/// The places of all elements of a file whose points do not all lie in their range, in file order: one pass. Refusals: 1, the file's
/// own.
pub fn all_ranges(file: &[u8], dimension: Dimension) -> Result<Vec<usize>, Refusal> {
    // an element with points has 26 words or more
    let mut places = vec![0; file.len().min(FILE_BYTES) / 52];
    Ok(ranges(file, dimension, 0, &mut places)?.collect())
}
