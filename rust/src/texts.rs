//! Texts: what is read of one, all of a file, and writing one.

use crate::elements::{Dimension, Point, Turn};
use crate::raw::{self, TEXTS_NUMBERS, TEXT_NUMBERS, WRITE_TEXT_NUMBERS};
use crate::refusals::{done, Refusal};
use crate::writing::Fields;
use crate::FILE_BYTES;
use std::ops::Range;
use std::slice::ChunksExact;

/// The numbers of a text.
#[derive(Clone, PartialEq, Eq, Hash, Debug)]
pub struct Text {
    /// Its font.
    pub font: u8,
    /// Its justification.
    pub justification: u8,
    /// The length multiplier, as it is stored.
    pub length: u32,
    /// The height multiplier, as it is stored: above 2,147,483,647 where the text is mirrored.
    pub height: u32,
    /// How it is turned.
    pub turn: Turn,
    /// Its origin; z is 0 in a 2D file.
    pub origin: Point,
    /// The bytes of the file that are its characters.
    pub characters: Range<usize>,
    /// How many enter-data fields it has.
    pub fields: u8,
    /// The byte behind characters and fields, where these have an odd number of bytes.
    pub odd: Option<u8>,
}

impl Text {
    /// A text by the numbers of dgn.h.
    fn of(numbers: &[i64; TEXT_NUMBERS], dimension: Dimension) -> Text {
        let [font, justification, length, height, turn @ .., x, y, z, characters, fields, odd, start] = *numbers;
        let start = start as usize;
        Text {
            font: font as u8,
            justification: justification as u8,
            length: length as u32,
            height: height as u32,
            turn: Turn::of(turn, dimension),
            origin: Point::of(&[x, y, z]),
            characters: start..start + characters as usize,
            fields: fields as u8,
            odd: u8::try_from(odd).ok(),
        }
    }
}

/// The numbers of the text that starts at `place`. Refusals: 1, the file's own, 13, 6 for an element of another type.
pub fn text(file: &[u8], dimension: Dimension, place: usize) -> Result<Text, Refusal> {
    let mut out = [0; TEXT_NUMBERS];
    done(raw::text(file, dimension as usize, place, &mut out))?;
    Ok(Text::of(&out, dimension))
}

/// The characters of the text that starts at `place`, as a part of the file: bytes of any value. Refusals: 1, the file's own,
/// 13, 6 for an element of another type.
pub fn characters(file: &[u8], dimension: Dimension, place: usize) -> Result<&[u8], Refusal> {
    let mut out = [0; 2];
    done(raw::characters(file, dimension as usize, place, &mut out))?;
    let [start, length] = out;
    Ok(&file[start..start + length])
}

/// An enter-data field of a text.
#[derive(Clone, Copy, PartialEq, Eq, Hash, Debug)]
pub struct Field {
    /// Its first character, counted from 1.
    pub first: u8,
    /// How many characters it has.
    pub length: u8,
    /// -1, 0 or 1.
    pub justification: i8,
}

/// Enter-data field k, from 0, of the text that starts at `place`. Refusals: 1, the file's own, 13, 6 for an element of another
/// type, 13 where there is none.
pub fn field(file: &[u8], dimension: Dimension, place: usize, k: usize) -> Result<Field, Refusal> {
    let mut out = [0; 3];
    done(raw::field(file, dimension as usize, place, k, &mut out))?;
    let [first, length, justification] = out;
    Ok(Field { first: first as u8, length: length as u8, justification: justification as i8 })
}

/// A text among the elements of a file.
#[derive(Clone, PartialEq, Eq, Hash, Debug)]
pub struct TextAt {
    /// Where it starts.
    pub place: usize,
    /// Marked deleted.
    pub deleted: bool,
    /// How many headers are above it.
    pub depth: usize,
    /// Its numbers.
    pub text: Text,
}

/// The texts of a part, in file order.
#[derive(Clone, Debug)]
pub struct Texts<'n> {
    numbers: ChunksExact<'n, i64>,
    dimension: Dimension,
    /// The element number from which the next part begins; where nothing is left, the count of all elements or, where
    /// that is larger, the number from which this part began.
    pub next_element: usize,
}

impl Iterator for Texts<'_> {
    type Item = TextAt;

    fn next(&mut self) -> Option<TextAt> {
        let [place, deleted, depth, text @ ..] = self.numbers.next()? else { return None };
        let text = Text::of(text.try_into().expect("15 numbers"), self.dimension);
        Some(TextAt { place: *place as usize, deleted: *deleted == 1, depth: *depth as usize, text })
    }

    fn size_hint(&self) -> (usize, Option<usize>) {
        self.numbers.size_hint()
    }
}

impl ExactSizeIterator for Texts<'_> {}

/// The texts among the elements number k, k + 1, .. in file order: as many as `numbers`, which takes them, holds whole with
/// 18 numbers each. Refusals: 1, the file's own; 15 where one is left and `numbers` is too short for it.
pub fn texts<'n>(file: &[u8], dimension: Dimension, k: usize, numbers: &'n mut [i64]) -> Result<Texts<'n>, Refusal> {
    let mut out = [0; 2];
    done(raw::texts(file, dimension as usize, k, numbers, &mut out))?;
    let [next_element, count] = out;
    Ok(Texts { numbers: numbers[..TEXTS_NUMBERS * count].chunks_exact(TEXTS_NUMBERS), dimension, next_element })
}

/// All texts of a file, in file order: one pass. Refusals: 1, the file's own.
pub fn all_texts(file: &[u8], dimension: Dimension) -> Result<Vec<TextAt>, Refusal> {
    // a text has 30 words or more
    let mut numbers = vec![0; TEXTS_NUMBERS * (file.len().min(FILE_BYTES) / 60)];
    Ok(texts(file, dimension, 0, &mut numbers)?.collect())
}

/// The numbers of a text to write.
#[derive(Clone, Copy, PartialEq, Eq, Hash, Debug)]
pub struct TextFields {
    /// Its font.
    pub font: u8,
    /// Its justification.
    pub justification: u8,
    /// The length multiplier, as it is stored.
    pub length: u32,
    /// The height multiplier, as it is stored.
    pub height: u32,
    /// How it is turned: by the variant of the dimension.
    pub turn: Turn,
    /// Its origin; z is 0 in a 2D file.
    pub origin: Point,
    /// The byte behind characters and fields, where these have an odd number of bytes; none is 0.
    pub odd: Option<u8>,
}

impl TextFields {
    fn numbers(&self, dimension: Dimension) -> [i64; WRITE_TEXT_NUMBERS] {
        let TextFields { font, justification, length, height, turn, origin, odd } = *self;
        // a turn of the other dimension is handed over as numbers out of range
        let [first, second, third, fourth] = match (turn, dimension) {
            (Turn::Flat(rotation), Dimension::Two) => [rotation.into(), 0, 0, 0],
            (Turn::Solid(longs), Dimension::Three) => longs.map(i64::from),
            _ => [-1; 4],
        };
        [
            font.into(),
            justification.into(),
            length.into(),
            height.into(),
            first,
            second,
            third,
            fourth,
            origin.x.into(),
            origin.y.into(),
            origin.z.into(),
            odd.unwrap_or(0).into(),
        ]
    }
}

/// Writes a text, type 17, to the front of `buffer`; gives how many words. `tail` is all words after the fixed part, as bytes.
/// Refusals, in this order: 1 (also more than 255 characters or fields, a turn of the other dimension, z in 2D, an odd byte
/// behind an even number of bytes), 20 for a field, 8, 11, 15.
pub fn write_text(
    fields: &Fields,
    text: &TextFields,
    characters: &[u8],
    enter_data: &[Field],
    tail: &[u8],
    dimension: Dimension,
    buffer: &mut [u8],
) -> Result<usize, Refusal> {
    let triples: Vec<u8> =
        enter_data.iter().flat_map(|field| [field.first, field.length, field.justification as u8]).collect();
    let (fields, numbers) = (fields.numbers(), text.numbers(dimension));
    let mut out = [0];
    done(raw::write_text(&fields, &numbers, characters, &triples, tail, dimension as usize, buffer, &mut out))?;
    Ok(out[0])
}
