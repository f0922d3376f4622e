//! Texts, the elements of type 17: reading one, its characters and its
//! enter-data fields.

use crate::judge::{judge_seeing, Seen};
use crate::layout;
use crate::refusal::{self, at, plain, Refusal};
use crate::view::element_at;
use crate::words::{long, word};

/// The type.
pub(crate) const KIND: u64 = 17;

/// The offset of the rotation. The origin follows it, then the counts.
const ROTATION_WORD: u64 = 23;

/// What a text says of itself beside its header.
#[derive(Debug, Clone, PartialEq, Eq)]
pub struct Text {
    pub font: u8,
    pub justification: u8,
    pub length_multiplier: u32,
    pub height_multiplier: u32,
    /// The rotation in 2D, the four quaternion longs in 3D, as stored.
    pub rotation: Vec<u32>,
    /// x and y; in 3D z too.
    pub origin: Vec<i32>,
    /// How many characters, and how many fields.
    pub characters: u64,
    pub fields: u64,
    /// The last word's high byte where characters and fields fill an odd
    /// number of bytes; 0 where there is none.
    pub spare: u8,
}

/// An enter-data field.
#[derive(Debug, Clone, PartialEq, Eq)]
pub struct Field {
    /// Its first character, counted from 1.
    pub first: u64,
    pub length: u64,
    /// -1, 0 or 1.
    pub justification: i64,
}

/// A text among the elements of a file.
#[derive(Debug, Clone, PartialEq, Eq)]
pub struct TextAt {
    /// The element's number in file order, from 0.
    pub number: u64,
    pub place: u64,
    /// Where the characters begin in the file, in bytes.
    pub start: u64,
    pub text: Text,
}

/// The longs of a rotation.
pub(crate) fn rotation_longs(dim: u64) -> u64 {
    if dim == 3 {
        4
    } else {
        1
    }
}

/// The byte at an offset; 0 where the slice has no such byte.
fn byte(bytes: &[u8], at: u64) -> u8 {
    usize::try_from(at)
        .ok()
        .and_then(|at| bytes.get(at))
        .copied()
        .unwrap_or(0)
}

/// Where the characters of the text at a place begin, in bytes.
fn start(dim: u64, place: u64) -> u64 {
    (place + layout::counts_word(dim) + 1) * 2
}

/// The two counts of the text at a place.
fn counts(bytes: &[u8], dim: u64, place: u64) -> (u64, u64) {
    layout::counts(word(bytes, place + layout::counts_word(dim)))
}

/// The justification of a field's third byte; another byte has none.
fn justification(stored: u8) -> Option<i64> {
    match stored {
        255 => Some(-1),
        0 => Some(0),
        1 => Some(1),
        _ => None,
    }
}

/// A field's three bytes, if it starts at one of so many characters, ends by
/// the last of them and has a justification.
pub(crate) fn field_from(three: [u8; 3], characters: u64) -> Option<Field> {
    let (first, length) = (u64::from(three[0]), u64::from(three[1]));
    if first < 1 || first > characters || first + length - 1 > characters {
        return None;
    }
    Some(Field {
        first,
        length,
        justification: justification(three[2])?,
    })
}

/// Field k of the text at a place, if it is a good one. The element is as long
/// as its fixed part.
fn field_of(bytes: &[u8], dim: u64, place: u64, k: u64) -> Option<Field> {
    let (characters, _) = counts(bytes, dim, place);
    let from = start(dim, place) + characters + 3 * k;
    let three = [0, 1, 2].map(|offset| byte(bytes, from + offset));
    field_from(three, characters)
}

/// Whether a field of the text at a place lies outside the characters or has
/// another justification. The element is as long as its fixed part.
pub(crate) fn a_field_is_wrong(bytes: &[u8], dim: u64, place: u64) -> bool {
    let (_, fields) = counts(bytes, dim, place);
    (0..fields).any(|k| field_of(bytes, dim, place, k).is_none())
}

/// The characters of the text at a place of an accepted file.
pub(crate) fn characters_in(file: &[u8], dim: u64, place: u64) -> &[u8] {
    let from = start(dim, place) as usize;
    let (characters, _) = counts(file, dim, place);
    &file[from..from + characters as usize]
}

/// The text at a place of an accepted file; 6 at an element of another type.
fn text_at(file: &[u8], dim: u64, place: u64) -> Result<Seen, Refusal> {
    let element = element_at(file, dim, place)?;
    if element.kind != KIND {
        return at(refusal::KIND, element.place);
    }
    Ok(element)
}

/// The reading of a text that starts at a place of an accepted file.
fn reading(file: &[u8], dim: u64, place: u64) -> Text {
    let own = |offset: u64| place + offset;
    let faces = word(file, own(18));
    let turns = rotation_longs(dim);
    let origin = own(ROTATION_WORD + 2 * turns);
    let (characters, fields) = counts(file, dim, place);
    let filled = characters + 3 * fields;
    Text {
        font: faces as u8,
        justification: (faces >> 8) as u8,
        length_multiplier: long(file, own(19)),
        height_multiplier: long(file, own(21)),
        rotation: (0..turns)
            .map(|k| long(file, own(ROTATION_WORD + 2 * k)))
            .collect(),
        origin: (0..dim)
            .map(|axis| long(file, origin + 2 * axis) as i32)
            .collect(),
        characters,
        fields,
        spare: if filled % 2 == 1 {
            byte(file, start(dim, place) + filled)
        } else {
            0
        },
    }
}

/// The numbers of the text at a place.
pub fn read_text(file: &[u8], dim: u64, place: u64) -> Result<Text, Refusal> {
    let element = text_at(file, dim, place)?;
    Ok(reading(file, dim, element.place))
}

/// The characters of the text at a place as a part of the file: where they
/// begin, and how many there are, in bytes.
pub fn text_characters(file: &[u8], dim: u64, place: u64) -> Result<(u64, u64), Refusal> {
    let element = text_at(file, dim, place)?;
    let (characters, _) = counts(file, dim, element.place);
    Ok((start(dim, element.place), characters))
}

/// Field k, counted from 0, of the text at a place.
pub fn text_field(file: &[u8], dim: u64, place: u64, k: u64) -> Result<Field, Refusal> {
    let element = text_at(file, dim, place)?;
    let (_, fields) = counts(file, dim, element.place);
    let found = if k < fields {
        field_of(file, dim, element.place, k)
    } else {
        None
    };
    found.map_or_else(|| plain(refusal::NO_SUCH), Ok)
}

/// The texts among the elements from number k on, in file order.
pub fn texts_from(file: &[u8], dim: u64, k: u64) -> Result<Vec<TextAt>, Refusal> {
    let mut number = 0;
    let mut texts = Vec::new();
    judge_seeing(file, dim, |seen| {
        if seen.kind == KIND && number >= k {
            texts.push(TextAt {
                number,
                place: seen.place,
                start: start(dim, seen.place),
                text: reading(file, dim, seen.place),
            });
        }
        number += 1;
    })?;
    Ok(texts)
}
