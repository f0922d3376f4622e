//! Plates: the code of a cell, what stands directly in it, and its levels; of one cell, and of all of a file.

use crate::elements::Dimension;
use crate::names::Name;
use crate::raw::{self, PLATES_NUMBERS, PLATE_NUMBERS};
use crate::refusals::{done, Refusal};
use crate::FILE_BYTES;
use std::slice::ChunksExact;

/// The plate of a cell. Of its direct components the live ones are counted, each once and as one kind.
#[derive(Clone, Copy, PartialEq, Eq, Hash, Debug)]
pub struct Plate {
    /// The cell's name.
    pub name: Name,
    /// Lines: type 3.
    pub lines: usize,
    /// Line strings, shapes, curves and poles: types 4, 6, 11 and 21.
    pub pointed: usize,
    /// Texts: type 17.
    pub texts: usize,
    /// Ellipses and arcs: types 15 and 16.
    pub curves: usize,
    /// Headers, each as one, whatever stands beneath it.
    pub headers: usize,
    /// All others.
    pub others: usize,
    /// How many levels its mask has: 0 to 64.
    pub levels: usize,
}

impl Plate {
    /// A plate by the numbers of dgn.h.
    fn of(numbers: &[i64; PLATE_NUMBERS]) -> Plate {
        let [first, second, counts @ ..] = *numbers;
        let [lines, pointed, texts, curves, headers, others, levels] = counts.map(|count| count as usize);
        let name = Name { first: first as u16, second: second as u16 };
        Plate { name, lines, pointed, texts, curves, headers, others, levels }
    }

    /// The six counts of live direct components, in the order of the fields.
    pub fn counts(&self) -> [usize; 6] {
        let Plate { lines, pointed, texts, curves, headers, others, .. } = *self;
        [lines, pointed, texts, curves, headers, others]
    }
}

/// The plate of the cell that starts at `place`, be it live or deleted. Refusals: 1, the file's own, 13, 18 for an element of
/// another type.
pub fn plate(file: &[u8], dimension: Dimension, place: usize) -> Result<Plate, Refusal> {
    let mut out = [0; PLATE_NUMBERS];
    done(raw::plate(file, dimension as usize, place, &mut out))?;
    Ok(Plate::of(&out))
}

/// The plate of a cell among the elements of a file.
#[derive(Clone, Copy, PartialEq, Eq, Hash, Debug)]
pub struct PlateAt {
    /// Where the cell starts.
    pub place: usize,
    /// The cell itself is marked deleted.
    pub deleted: bool,
    /// Its plate.
    pub plate: Plate,
}

/// The plates of a part, in file order.
#[derive(Clone, Debug)]
pub struct Plates<'n> {
    numbers: ChunksExact<'n, i64>,
    /// The element number from which the next part begins; where nothing is left, the count of all elements or, where
    /// that is larger, the number from which this part began.
    pub next_element: usize,
}

impl Iterator for Plates<'_> {
    type Item = PlateAt;

    fn next(&mut self) -> Option<PlateAt> {
        let [place, deleted, plate @ ..] = self.numbers.next()? else { return None };
        let plate = Plate::of(plate.try_into().expect("9 numbers"));
        Some(PlateAt { place: *place as usize, deleted: *deleted == 1, plate })
    }

    fn size_hint(&self) -> (usize, Option<usize>) {
        self.numbers.size_hint()
    }
}

impl ExactSizeIterator for Plates<'_> {}

/// The plates of the cells, live and deleted, among the elements number k, k + 1, .. in file order: as many as `numbers`, which
/// takes them, holds whole with 11 numbers each. Refusals: 1, the file's own; 15 where one is left and `numbers` is too short for it.
pub fn plates<'n>(file: &[u8], dimension: Dimension, k: usize, numbers: &'n mut [i64]) -> Result<Plates<'n>, Refusal> {
    let mut out = [0; 2];
    done(raw::plates(file, dimension as usize, k, numbers, &mut out))?;
    let [next_element, count] = out;
    Ok(Plates { numbers: numbers[..PLATES_NUMBERS * count].chunks_exact(PLATES_NUMBERS), next_element })
}

/// The plates of all cells of a file, in file order: one pass. Refusals: 1, the file's own.
pub fn all_plates(file: &[u8], dimension: Dimension) -> Result<Vec<PlateAt>, Refusal> {
    // a cell has 35 words or more
    let mut numbers = vec![0; PLATES_NUMBERS * (file.len().min(FILE_BYTES) / 70)];
    Ok(plates(file, dimension, 0, &mut numbers)?.collect())
}
