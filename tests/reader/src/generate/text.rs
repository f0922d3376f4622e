//! What a text, an element of type 17, holds behind its header.

use super::random::Random;

/// The offset of the word with both counts.
pub fn counts_word(dim: u64) -> usize {
    [37, 29][usize::from(dim != 3)]
}

/// How many characters and fields: few, and now and then a limit. Without
/// characters there is no field.
pub fn counts(random: &mut Random) -> (usize, usize) {
    let characters = match random.below(40) {
        0 => 255,
        1 => 254,
        2 => random.index(256),
        3..=7 => 0,
        _ => 1 + random.index(12),
    };
    let fields = match random.below(40) {
        _ if characters == 0 => 0,
        0 => 255,
        1 => random.index(256),
        2..=20 => 0,
        _ => 1 + random.index(4),
    };
    (characters, fields)
}

/// The word of both counts, at least one field among them, of which none may
/// be good: there may be no characters.
pub fn counts_with_fields(random: &mut Random) -> usize {
    let (characters, fields) = counts(random);
    characters + 256 * fields.max(1 + random.index(3))
}

/// Whether a word of a text's fixed part has no count and no field in it.
pub fn is_free(dim: u64, counts: usize, at: usize) -> bool {
    let counted = counts_word(dim);
    at < counted || at > counted && at - counted <= counts % 256 / 2
}

/// A field of so many characters, at least one: any, or at the limits.
pub fn field(random: &mut Random, characters: usize) -> [u8; 3] {
    let first = match random.below(4) {
        0 => 1,
        1 => characters,
        _ => 1 + random.index(characters),
    };
    let most = characters + 1 - first;
    let length = match random.below(4) {
        0 => 0,
        1 => most,
        _ => random.index(most + 1),
    };
    [first as u8, length as u8, random.pick(&[255, 0, 1])]
}

/// A field that is none of so many characters.
pub fn bad_field(random: &mut Random, characters: usize) -> [u8; 3] {
    if characters == 0 {
        // Without characters no field is good.
        return random.pick(&[[1, 0, 0], [0, 0, 0], [1, 1, 255], [0, 1, 1]]);
    }
    let [first, length, justification] = field(random, characters);
    match random.below(5) {
        // It starts before the first character.
        0 => [0, length, justification],
        // It starts behind the last one, where a byte can say so.
        1 if characters < 255 => {
            let behind = random.pick(&[characters as u8 + 1, 255]);
            [behind, random.pick(&[0, 1]), justification]
        }
        // It ends behind the last one, or far behind it.
        2 | 3 => {
            let past = characters + 2 - usize::from(first);
            match u8::try_from(past) {
                Ok(past) => [first, random.pick(&[past, 255]), justification],
                Err(_) => [255, 2, justification],
            }
        }
        // Another justification.
        _ => [first, length, random.pick(&[2, 3, 127, 128, 129, 253, 254])],
    }
}

/// Bytes of characters: letters, any bytes, or such as a listing must show
/// with care.
pub fn characters(random: &mut Random, number: usize) -> Vec<u8> {
    let kind = random.below(3);
    (0..number)
        .map(|_| match kind {
            0 => random.pick(b"ABCxyz 019.,"),
            1 => random.pick(&[0, 9, 10, 13, 31, 32, 33, 91, 92, 93, 126, 127, 128, 255]),
            _ => random.draw() as u8,
        })
        .collect()
}

/// The bytes of so many fields.
pub fn fields(random: &mut Random, number: usize, characters: usize) -> Vec<u8> {
    (0..number)
        .flat_map(|_| field(random, characters))
        .collect()
}

/// Puts bytes into an element from a byte offset on. A byte that shares its
/// last word stays.
pub fn put_bytes(own: &mut [u16], at: usize, bytes: &[u8]) {
    for (offset, &byte) in bytes.iter().enumerate() {
        let word = &mut own[(at + offset) / 2];
        let mut pair = word.to_le_bytes();
        pair[(at + offset) % 2] = byte;
        *word = u16::from_le_bytes(pair);
    }
}

/// Fills in the counts, the characters and the fields of a text. Its other
/// words, the odd last byte among them, stay.
pub fn fill(random: &mut Random, own: &mut [u16], dim: u64, counted: usize) {
    let (number, wanted) = (counted % 256, counted / 256);
    let counts = counts_word(dim);
    own[counts] = counted as u16;
    let mut bytes = characters(random, number);
    bytes.extend(fields(random, wanted, number));
    put_bytes(own, 2 * counts + 2, &bytes);
}
