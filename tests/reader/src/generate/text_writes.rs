//! Arguments for the writer of texts.

use super::random::Random;
use super::text;
use super::writes::{self, spoil_header};
use crate::words::bytes_of;
use crate::write_text::TextFields;

/// One call of the writer of texts. The output buffer has that length and is
/// filled with that byte.
#[derive(Debug, Clone)]
pub struct TextWrite {
    pub text: TextFields,
    pub characters: Vec<u8>,
    /// Three bytes a field.
    pub fields: Vec<u8>,
    pub tail: Vec<u8>,
    pub dim: u64,
    pub room: usize,
    pub fill: u8,
}

/// A call that is mostly in order, with zero, one or two faults.
pub fn text_call(random: &mut Random) -> TextWrite {
    let mut call = good_text(random);
    let faults = match random.below(4) {
        0 => 2,
        1 => 1,
        _ => 0,
    };
    for _ in 0..faults {
        spoil(random, &mut call);
    }
    call
}

/// A call that must be accepted.
pub fn good_text(random: &mut Random) -> TextWrite {
    let dim = super::files::dimension(random);
    let (number, wanted) = text::counts(random);
    let fixed = super::elements::fixed(17, dim, number + 256 * wanted);
    let (header, tail) = writes::good_header(random, 17, fixed);
    let long = |random: &mut Random| random.draw() & 0xFFFF_FFFF;
    let turns = if dim == 3 { 4 } else { 1 };
    let odd = (number + 3 * wanted) % 2 == 1;
    let text = TextFields {
        header,
        font: random.below(256),
        justification: random.below(256),
        length_multiplier: long(random),
        height_multiplier: long(random),
        rotation: (0..turns).map(|_| long(random)).collect(),
        origin: (0..dim).map(|_| i64::from(random.draw() as i32)).collect(),
        spare: if odd { random.below(256) } else { 0 },
    };
    let slack = if random.one_in(2) { 0 } else { random.index(9) };
    TextWrite {
        text,
        characters: text::characters(random, number),
        fields: text::fields(random, wanted, number),
        room: (fixed + tail.len()) * 2 + slack,
        tail: bytes_of(&tail),
        dim,
        fill: random.draw() as u8,
    }
}

/// Sets one fault, or changes something that may be none.
fn spoil(random: &mut Random, call: &mut TextWrite) {
    let far = random.pick(&[1 << 32, u64::MAX, 1 << 16]);
    let text = &mut call.text;
    match random.below(30) {
        0..=6 => spoil_header(random, &mut text.header),
        7 => text.font = random.pick(&[256, far]),
        8 => text.justification = random.pick(&[256, far]),
        9 => text.length_multiplier = random.pick(&[1 << 32, u64::MAX]),
        10 => text.height_multiplier = random.pick(&[1 << 32, u64::MAX]),
        11 => text.rotation[0] = random.pick(&[1 << 32, u64::MAX]),
        12 => {
            let outside = [1 << 31, -(1 << 31) - 1, i64::MAX, i64::MIN, 1 << 32];
            text.origin[0] = random.pick(&outside);
        }
        // A spare byte where there is none, or another where there is one.
        13 => text.spare = random.pick(&[1, 7, 255]),
        14 => text.spare = random.pick(&[256, far]),
        15 => call.dim = random.pick(&[0, 1, 4, u64::MAX]),
        16 => call.tail.push(0),
        17 => call.tail.extend([1, 0]),
        18 => call.tail.extend(vec![0; 8]),
        19 => call.room = call.room.saturating_sub(1 + random.index(12)),
        20 => call.room = random.index(call.room + 1),
        21 => call.characters = vec![65; 256 + random.index(3)],
        22 => call.fields = [1, 0, 0].repeat(256 + random.index(3)),
        23 => call.fields.push(1),
        24 => {
            call.characters.pop();
        }
        25 => call.characters.push(65),
        _ => {
            // Another field than the characters allow.
            let bad = text::bad_field(random, call.characters.len().min(255));
            let at = 3 * random.index(call.fields.len() / 3 + 1);
            call.fields.splice(at..at, bad);
        }
    }
}

/// A text without characters, with a tail that makes it exactly that long, in
/// words.
pub fn long_text(size: usize, dim: u64) -> TextWrite {
    let fixed = super::elements::fixed(17, dim, 0);
    let mut text = TextFields {
        rotation: vec![0; if dim == 3 { 4 } else { 1 }],
        origin: vec![0; dim as usize],
        ..TextFields::default()
    };
    text.header.kind = 17;
    TextWrite {
        text,
        characters: Vec::new(),
        fields: Vec::new(),
        tail: vec![0; (size - fixed) * 2],
        dim,
        room: size * 2,
        fill: 0,
    }
}
