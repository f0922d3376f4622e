//! Elements and files built by hand for the tests.
#![allow(dead_code)]

use reader::words::{bytes_of, words_of};
use reader::*;

pub const MARKER: u16 = 65535;

pub fn refusal(number: u32, place: u64) -> Refusal {
    Refusal { number, place }
}

pub fn refused<T>(number: u32, place: u64) -> Result<T, Refusal> {
    Err(refusal(number, place))
}

/// An element of zeros: its type, C and size.
pub fn element(kind: u16, c: bool, size: usize) -> Vec<u16> {
    let mut words = vec![0; size];
    words[0] = kind << 8 | u16::from(c) << 7;
    words[1] = (size - 2) as u16;
    words
}

/// A 2D line.
pub fn line(c: bool) -> Vec<u16> {
    element(3, c, 26)
}

/// A 2D text without characters.
pub fn text(c: bool) -> Vec<u16> {
    element(17, c, 30)
}

/// The same in 3D.
pub fn solid_text(c: bool) -> Vec<u16> {
    element(17, c, 38)
}

/// A text with characters and fields, the odd last byte zero.
pub fn text_with(dim: u64, c: bool, characters: &[u8], fields: &[[u8; 3]]) -> Vec<u16> {
    let mut bytes = [characters, &fields.concat()].concat();
    if bytes.len() % 2 == 1 {
        bytes.push(0);
    }
    let words = words_of(&bytes);
    let counts = if dim == 3 { 37 } else { 29 };
    let mut text = element(17, c, counts + 1 + words.len());
    text[counts] = (fields.len() << 8 | characters.len()) as u16;
    text[counts + 1..].copy_from_slice(&words);
    text
}

/// A 2D element with N points.
pub fn points(kind: u16, c: bool, n: u16) -> Vec<u16> {
    let mut words = element(kind, c, 19 + 4 * usize::from(n));
    words[18] = n;
    words
}

/// A header with the given words under it; the total is set, the count too
/// where the type has one.
pub fn header(kind: u16, c: bool, own: usize, under: &[Vec<u16>]) -> Vec<u16> {
    let mut words = element(kind, c, own);
    for component in under {
        words.extend_from_slice(component);
    }
    words[18] = (words.len() - 19) as u16;
    if kind > 2 {
        words[19] = under.len() as u16;
    }
    words
}

/// A 2D cell of 46 words, named 00417.
pub fn cell(c: bool, under: &[Vec<u16>]) -> Vec<u16> {
    let mut words = header(2, c, 46, under);
    words[19] = 49234;
    words[20] = 51080;
    words
}

/// A library cell, named 417.
pub fn library_cell(under: &[Vec<u16>]) -> Vec<u16> {
    let mut words = header(1, false, 35, under);
    words[16] = 55677;
    words[17] = 0;
    words
}

/// Cells one in the other, the innermost at depth `depth`, around `last`.
pub fn nest(depth: u64, last: &[Vec<u16>]) -> Vec<u16> {
    let mut words = cell(depth > 0, last);
    for at in (0..depth).rev() {
        words = cell(at > 0, &[words]);
    }
    words
}

/// The elements and the marker.
pub fn file(elements: &[Vec<u16>]) -> Vec<u8> {
    let mut words = elements.concat();
    words.push(MARKER);
    bytes_of(&words)
}

/// A 2D file for each number that judging can answer but 1, with the place.
/// Each ends in the word 65535, so that it can be handed to a session too.
pub fn faulty() -> Vec<(u32, u64, Vec<u8>)> {
    let mut reserved = line(false);
    reserved[0] |= 1 << 6;
    let mut linked = line(false);
    linked[16] = 1 << 11;
    let field = text_with(2, false, b"AB", &[[3, 0, 0]]);
    let mut float = element(15, false, 36);
    float[32] = 1 << 15;
    let mut named = cell(false, &[]);
    named[20] = 64000;
    let mut total = cell(false, &[]);
    total[18] = 26;
    let mut counted = header(12, false, 20, &[]);
    counted[19] = 1;
    let before = line(false);
    vec![
        (2, 3, bytes_of(&[5 << 8, 1, MARKER])),
        (3, 0, bytes_of(&[3 << 8, MARKER])),
        (4, 26, file(&[before.clone(), reserved])),
        (5, 0, file(&[line(true)])),
        (10, 9 * 46, file(&[nest(8, &[line(true)])])),
        (6, 26, file(&[before.clone(), element(24, false, 2)])),
        (7, 0, file(&[element(3, false, 25)])),
        (20, 26, file(&[before.clone(), field])),
        (8, 26, file(&[before.clone(), total])),
        (11, 0, file(&[linked])),
        (21, 26, file(&[before.clone(), float])),
        (12, 26, file(&[before.clone(), named])),
        (9, 26, file(&[before, counted])),
    ]
}

/// A 2D session over a file, with free bytes in both buffers.
pub fn session(file: &[u8], room: usize, journal: usize) -> State {
    let mut buffer = file.to_vec();
    buffer.extend(vec![0xAA; room]);
    State {
        dim: 2,
        used: file.len() as u64,
        file: buffer,
        journal: vec![0xBB; journal],
        jused: 0,
    }
}

/// The call must be refused, and nothing may change.
pub fn refuse(state: &State, call: &Call, number: u32, place: u64) {
    let mut after = state.clone();
    assert_eq!(after.run(call), refused(number, place), "{call:?}");
    assert_eq!(&after, state);
}

pub fn used_words(state: &State) -> Vec<u16> {
    words_of(state.used_file())
}

/// The last record: kind, header place, place, payload words.
pub fn trailer(state: &State) -> [u16; 6] {
    let words = words_of(&state.journal[..state.jused as usize]);
    words[words.len() - 6..].try_into().unwrap()
}

/// The header fields of an element as viewed.
pub fn fields_of(view: &View) -> Fields {
    let display = view.display.clone().unwrap();
    Fields {
        kind: view.kind,
        level: view.level,
        c: u64::from(view.c),
        deleted: u64::from(view.deleted),
        range: view.range.unwrap().map(i64::from),
        graphic_group: display.graphic_group,
        attribute_index: display.attribute_index,
        properties: display.properties,
        style: display.style,
        weight: display.weight,
        colour: display.colour,
    }
}

/// The fields of a text as it is viewed and read.
pub fn text_fields_of(file: &[u8], dim: u64, place: u64) -> TextFields {
    let text = read_text(file, dim, place).unwrap();
    TextFields {
        header: fields_of(&view(file, dim, place).unwrap()),
        font: u64::from(text.font),
        justification: u64::from(text.justification),
        length_multiplier: u64::from(text.length_multiplier),
        height_multiplier: u64::from(text.height_multiplier),
        rotation: text.rotation.iter().copied().map(u64::from).collect(),
        origin: text.origin.iter().copied().map(i64::from).collect(),
        spare: u64::from(text.spare),
    }
}

/// The characters, the fields' bytes and the tail of a text, by the calls.
pub fn text_parts_of(file: &[u8], dim: u64, place: u64) -> (Vec<u8>, Vec<u8>, Vec<u8>) {
    let (start, length) = text_characters(file, dim, place).unwrap();
    let (start, length) = (start as usize, length as usize);
    let mut fields = Vec::new();
    let mut k = 0;
    while let Ok(field) = text_field(file, dim, place, k) {
        fields.extend([field.first as u8, field.length as u8]);
        fields.push(field.justification as u8);
        k += 1;
    }
    let fixed = start + (length + fields.len()).div_ceil(2) * 2;
    let end = extent(file, dim, place).unwrap().1 as usize * 2;
    let characters = file[start..start + length].to_vec();
    (characters, fields, file[fixed..end].to_vec())
}

/// Writes each text of an accepted file again from what is read of it: the
/// same bytes. Gives the number of texts.
pub fn rewrite_texts(file: &[u8], dim: u64) -> usize {
    let texts = texts_from(file, dim, 0).unwrap();
    for one in &texts {
        let (from, to) = extent(file, dim, one.place).unwrap();
        let whole = &file[from as usize * 2..to as usize * 2];
        let text = text_fields_of(file, dim, one.place);
        let (characters, fields, tail) = text_parts_of(file, dim, one.place);
        let mut out = vec![0; whole.len()];
        let size = write_text(&text, &characters, &fields, &tail, dim, &mut out);
        assert_eq!(size, Ok(to - from));
        assert_eq!(out, whole);
    }
    texts.len()
}

/// The entries of an index, any bytes.
pub fn entries_in(bytes: &[u8]) -> Vec<Entry> {
    words_of(bytes)
        .chunks_exact(4)
        .map(|four| Entry {
            first: four[0],
            second: four[1],
            place: u32::from(four[2]) << 16 | u32::from(four[3]),
        })
        .collect()
}

/// The halving rule between two bounds: where it ends, and its looks.
pub fn halved(list: &[Entry], low: usize, high: usize, wanted: (u16, u16)) -> (usize, u64) {
    if low == high {
        return (low, 0);
    }
    let middle = low + (high - low) / 2;
    let (end, looks) = if list[middle].name() < wanted {
        halved(list, middle + 1, high, wanted)
    } else {
        halved(list, low, middle, wanted)
    };
    (end, looks + 1)
}

pub fn binary_digits(number: usize) -> u64 {
    u64::from(usize::BITS - number.leading_zeros())
}
