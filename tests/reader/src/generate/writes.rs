//! Arguments for the writer.

use super::elements::{self, fixed};
use super::files::dimension;
use super::random::Random;
use crate::words::bytes_of;
use crate::write::Fields;

/// One call of the writer. The output buffer has that length and is filled
/// with that byte.
#[derive(Debug, Clone)]
pub struct Write {
    pub fields: Fields,
    pub points: Vec<i32>,
    pub tail: Vec<u8>,
    pub dim: u64,
    pub room: usize,
    pub fill: u8,
}

/// A call that is mostly in order, with zero, one or two faults.
pub fn write_call(random: &mut Random) -> Write {
    let mut call = good_write(random);
    let faults = match random.below(4) {
        0 => 2,
        1 => 1,
        _ => 0,
    };
    for _ in 0..faults {
        spoil(random, &mut call);
    }
    call
}

/// A call that must be accepted.
pub fn good_write(random: &mut Random) -> Write {
    let dim = dimension(random);
    let kind = random.pick(&[3, 4, 6, 11]);
    let n = match random.below(30) {
        _ if kind == 3 => 2,
        0 => 101,
        _ => 2 + random.index(4),
    };
    let fixed = fixed(kind, dim, n);
    let (fields, tail) = good_header(random, kind, fixed);
    let points = (0..n * dim as usize)
        .map(|_| random.draw() as i32)
        .collect();
    let size = fixed + tail.len();
    let slack = if random.one_in(2) { 0 } else { random.index(9) };
    Write {
        fields,
        points,
        tail: bytes_of(&tail),
        dim,
        room: size * 2 + slack,
        fill: random.draw() as u8,
    }
}

/// Header fields of an element of that type and fixed part, with a tail that
/// fits them.
pub fn good_header(random: &mut Random, kind: u64, fixed: usize) -> (Fields, Vec<u16>) {
    let mut tail: Vec<u16> = Vec::new();
    let has_a = random.one_in(2);
    let mut attribute_index = random.below(65536);
    let mut properties = random.below(65536) & !(1 << 11);
    if has_a {
        properties |= 1 << 11;
        let gap = random.index(3);
        tail.extend(random.words(gap));
        attribute_index = (fixed + gap - 16) as u64;
        for _ in 0..random.index(4) {
            tail.extend(elements::linkage(random));
        }
    } else {
        let length = random.index(6);
        tail.extend(random.words(length));
    }
    let mut range = [0; 6];
    for value in &mut range {
        *value = i64::from(random.draw() as i32);
    }
    let fields = Fields {
        kind,
        level: random.below(64),
        c: random.below(2),
        deleted: random.below(2),
        range,
        graphic_group: random.below(65536),
        attribute_index,
        properties,
        style: random.below(8),
        weight: random.below(32),
        colour: random.below(256),
    };
    (fields, tail)
}

/// Sets a header field out of its range, or to what may be wrong with others.
pub fn spoil_header(random: &mut Random, fields: &mut Fields) {
    let far = random.pick(&[1 << 32, u64::MAX, 1 << 16, 256]);
    match random.below(11) {
        0 => fields.kind = random.below(130),
        1 => fields.level = random.pick(&[64, far]),
        2 => fields.c = random.pick(&[2, far]),
        3 => fields.deleted = random.pick(&[2, far]),
        4 => {
            let outside = [1 << 31, -(1 << 31) - 1, 1 << 32, i64::MAX, i64::MIN];
            fields.range[random.index(6)] = random.pick(&outside);
        }
        5 => fields.graphic_group = random.pick(&[65536, u64::MAX]),
        6 => fields.attribute_index = random.pick(&[65536, u64::MAX, 65535, 0, 9]),
        7 => fields.properties = random.pick(&[65536, u64::MAX, 2048]),
        8 => fields.style = random.pick(&[8, far]),
        9 => fields.weight = random.pick(&[32, far]),
        _ => fields.colour = random.pick(&[256, u64::MAX]),
    }
}

/// Sets one fault, or changes something that may be none.
fn spoil(random: &mut Random, call: &mut Write) {
    match random.below(22) {
        0..=10 => spoil_header(random, &mut call.fields),
        11 => call.dim = random.pick(&[0, 1, 4, u64::MAX]),
        12 => call.tail.push(0),
        13 => call.points.push(7),
        14 => {
            call.points.pop();
        }
        15 => call.points.truncate(call.dim.min(3) as usize),
        16 => call.points = vec![1; 102 * call.dim.min(3) as usize],
        17 => call.points.clear(),
        18 => call.tail.extend([1, 0]),
        19 => call.room = call.room.saturating_sub(1 + random.index(12)),
        20 => call.room = random.index(call.room + 1),
        _ => call.tail.extend(vec![0; 8]),
    }
}

/// A line with a tail that makes it exactly that long, in words.
pub fn long_line(size: usize) -> Write {
    Write {
        fields: Fields {
            kind: 3,
            ..Fields::default()
        },
        points: vec![0; 4],
        tail: vec![0; (size - 26) * 2],
        dim: 2,
        room: size * 2,
        fill: 0,
    }
}
