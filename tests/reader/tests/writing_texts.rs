//! Writing texts, and writing again what was read.

mod common;
use common::*;
use reader::generate::text_writes::{good_text, long_text, text_call, TextWrite};
use reader::generate::{self, Random};
use reader::words::{bytes_of, words_of};
use reader::*;

/// Fields that are in order for a dimension, all of them zero.
fn plain(dim: u64) -> TextFields {
    long_text(40, dim).text
}

/// One call with ample room. A refusal leaves the buffer.
fn try_write(
    text: &TextFields,
    characters: &[u8],
    fields: &[u8],
    tail: &[u8],
    dim: u64,
) -> Result<u64, Refusal> {
    let mut out = vec![0x5A; 140_000];
    let answer = write_text(text, characters, fields, tail, dim, &mut out);
    if answer.is_err() {
        // "A refusal changes no lent byte and no length."
        assert!(out.iter().all(|&byte| byte == 0x5A));
    }
    answer
}

fn run(call: &TextWrite, out: &mut [u8]) -> Result<u64, Refusal> {
    let TextWrite {
        text,
        characters,
        fields,
        tail,
        dim,
        ..
    } = call;
    write_text(text, characters, fields, tail, *dim, out)
}

// "a field out of its range" and "more than 255 characters or fields to write
// is 1".
#[test]
fn arguments_out_of_range() {
    let call = refused(1, 0);
    type Set = fn(&mut TextFields, u64);
    let limits: [(Set, u64); 14] = [
        (|text, value| text.header.level = value, 63),
        (|text, value| text.header.c = value, 1),
        (|text, value| text.header.deleted = value, 1),
        (|text, value| text.header.graphic_group = value, 65535),
        (|text, value| text.header.attribute_index = value, 65535),
        (|text, value| text.header.style = value, 7),
        (|text, value| text.header.weight = value, 31),
        (|text, value| text.header.colour = value, 255),
        (|text, value| text.font = value, 255),
        (|text, value| text.justification = value, 255),
        (
            |text, value| text.length_multiplier = value,
            u32::MAX as u64,
        ),
        (
            |text, value| text.height_multiplier = value,
            u32::MAX as u64,
        ),
        (|text, value| text.rotation[0] = value, u32::MAX as u64),
        (|text, value| text.spare = value, 255),
    ];
    for dim in [2, 3] {
        let base = if dim == 3 { 38 } else { 30 };
        let good = plain(dim);
        assert_eq!(try_write(&good, &[], &[], &[], dim), Ok(base));
        for wrong in [0, 1, 4, 5 - dim, u64::MAX] {
            assert_eq!(try_write(&good, &[], &[], &[], wrong), call);
        }
        for kind in [0, 3, 4, 7, 16, 18, 145, u64::MAX] {
            let mut text = good.clone();
            text.header.kind = kind;
            assert_eq!(try_write(&text, &[], &[], &[], dim), call);
        }
        for (set, limit) in limits {
            let mut text = good.clone();
            set(&mut text, limit);
            // One character, so that there is an odd last byte.
            assert_eq!(try_write(&text, b"A", &[], &[], dim), Ok(base + 1));
            for above in [limit + 1, u64::MAX] {
                set(&mut text, above);
                assert_eq!(try_write(&text, b"A", &[], &[], dim), call);
            }
        }
        let mut text = good.clone();
        for properties in [65536, u64::MAX] {
            text.header.properties = properties;
            assert_eq!(try_write(&text, &[], &[], &[], dim), call);
        }
        for longs in [0, 1, 2, 3, 4, 5] {
            let mut text = good.clone();
            text.rotation = vec![0; longs];
            let fits = longs == good.rotation.len();
            assert_eq!(try_write(&text, &[], &[], &[], dim).is_ok(), fits);
            let mut text = good.clone();
            text.origin = vec![0; longs];
            let fits = longs as u64 == dim;
            assert_eq!(try_write(&text, &[], &[], &[], dim).is_ok(), fits);
        }
        for axis in 0..dim as usize {
            let mut text = good.clone();
            for value in [i64::from(i32::MIN), i64::from(i32::MAX)] {
                text.origin[axis] = value;
                assert_eq!(try_write(&text, &[], &[], &[], dim), Ok(base));
                text.origin[axis] = value + value.signum();
                assert_eq!(try_write(&text, &[], &[], &[], dim), call);
            }
        }
        for end in 0..6 {
            let mut text = good.clone();
            for value in [i64::from(i32::MIN), i64::from(i32::MAX)] {
                text.header.range[end] = value;
                assert_eq!(try_write(&text, &[], &[], &[], dim), Ok(base));
                text.header.range[end] = value + value.signum();
                assert_eq!(try_write(&text, &[], &[], &[], dim), call);
            }
        }
        // Characters and fields: 255 each, the fields in whole threes.
        let field = [1, 0, 0];
        let full = try_write(&good, &[0; 255], &field.repeat(255), &[], dim);
        assert_eq!(full, Ok(base + 510));
        assert_eq!(try_write(&good, &[0; 256], &[], &[], dim), call);
        assert_eq!(try_write(&good, &[0; 70_000], &[], &[], dim), call);
        let many = field.repeat(256);
        assert_eq!(try_write(&good, b"A", &many, &[], dim), call);
        for length in [1, 2, 4, 5, 766] {
            let part = vec![1; length];
            assert_eq!(try_write(&good, b"AB", &part, &[], dim), call);
        }
        assert_eq!(try_write(&good, &[], &[], &[0], dim), call);
    }
}

// "An odd last byte is part of the reading": with an even number of bytes
// there is none, and its range is 0 alone.
#[test]
fn the_odd_last_byte() {
    for dim in [2, 3] {
        for (characters, fields) in [(0, 0), (1, 0), (2, 0), (1, 1), (2, 1), (3, 2), (4, 2)] {
            let letters = vec![65; characters];
            let bytes = [1, 1, 0].repeat(fields);
            let odd = (characters + bytes.len()) % 2 == 1;
            for spare in [0, 1, 200, 255, 256] {
                let text = TextFields {
                    spare,
                    ..plain(dim)
                };
                let answer = try_write(&text, &letters, &bytes, &[], dim);
                let good = spare == 0 || odd && spare < 256;
                assert_eq!(answer.is_ok(), good);
                assert!(good || answer == refused(1, 0));
            }
        }
    }
}

// "is 20 FIELD, after 7, in writing too": a justification of 2 is 20, not 1.
#[test]
fn fields_written() {
    let with = |fields: &[u8]| try_write(&plain(2), b"ABC", fields, &[], 2);
    for good in [[1, 3, 0], [3, 1, 1], [3, 0, 255], [1, 0, 0]] {
        assert_eq!(with(&good), Ok(33));
    }
    for bad in [
        [0, 0, 0],
        [0, 1, 0],
        [4, 0, 0],
        [3, 2, 0],
        [1, 4, 0],
        [255, 255, 0],
        [1, 255, 0],
        [1, 1, 2],
        [1, 1, 254],
    ] {
        assert_eq!(with(&bad), refused(20, 0));
        assert_eq!(with(&[[1, 1, 1], bad].concat()), refused(20, 0));
    }
    let none = try_write(&plain(2), &[], &[1, 0, 0], &[], 2);
    assert_eq!(none, refused(20, 0));
}

// 1, then 20, 8, 11 and 15; 7 cannot happen. All at once, mended one by one.
#[test]
fn order_of_the_writer() {
    for dim in [2, 3] {
        let base = if dim == 3 { 38 } else { 30 };
        let mut text = plain(dim);
        text.spare = 1;
        text.header.properties = 1 << 11;
        let long = vec![0; (65_536 - base - 2) * 2];
        let mut out = vec![7; (base + 2) * 2];
        let end = out.len();
        let mut ask = |text: &TextFields, length: u8, tail: &[u8], room: usize| {
            let answer = write_text(text, b"A", &[1, length, 0], tail, dim, &mut out[..room]);
            assert!(answer.is_ok() || out.iter().all(|&byte| byte == 7));
            answer
        };
        assert_eq!(ask(&text, 2, &long, 0), refused(1, 0));
        text.spare = 0;
        assert_eq!(ask(&text, 2, &long, 0), refused(20, 0));
        assert_eq!(ask(&text, 1, &long, 0), refused(8, 0));
        assert_eq!(ask(&text, 1, &[], 0), refused(11, 0));
        text.header.attribute_index = base as u64 + 2 - 16;
        assert_eq!(ask(&text, 1, &[], end - 1), refused(15, 0));
        assert_eq!(ask(&text, 1, &[], end), Ok(base as u64 + 2));
    }
}

// "8 (size above 65,535)" and "11 LINKAGE: attribute part wrong".
#[test]
fn tails() {
    for dim in [2, 3] {
        for (size, answer) in [
            (40, Ok(40)),
            (65_535, Ok(65_535)),
            (65_536, refused(8, 0)),
            (600_000, refused(8, 0)),
        ] {
            let call = long_text(size, dim);
            let mut out = vec![0; call.room];
            assert_eq!(run(&call, &mut out), answer);
        }
        let base = if dim == 3 { 38 } else { 30 };
        let with = |index: u64, tail: &[u16]| {
            let mut text = plain(dim);
            text.header.properties = 1 << 11;
            text.header.attribute_index = base + 2 + index - 16;
            try_write(&text, b"AB", &[1, 2, 0], &bytes_of(tail), dim)
        };
        // Two characters and a field of three bytes fill three words.
        assert_eq!(with(0, &[]), refused(11, 0));
        assert_eq!(with(1, &[]), Ok(base + 3));
        assert_eq!(with(2, &[]), refused(11, 0));
        assert_eq!(with(1, &[0x1001, 9]), Ok(base + 5));
        assert_eq!(with(1, &[0x1002, 9]), refused(11, 0));
        assert_eq!(with(2, &[4, 0, 1, 2, 3]), Ok(base + 8));
        assert_eq!(with(1, &[4, 0, 1, 2, 3]), refused(11, 0));
    }
}

// The words of a written text, each at its place.
#[test]
fn words_of_a_text() {
    let mut text = plain(2);
    text.header.level = 41;
    text.header.c = 1;
    text.header.deleted = 1;
    text.header.range = [65_538, 0, -1, i64::from(i32::MIN), i64::from(i32::MAX), -2];
    text.header.graphic_group = 77;
    text.header.attribute_index = 88;
    text.header.properties = 0xF7FF;
    text.header.style = 5;
    text.header.weight = 17;
    text.header.colour = 200;
    text.font = 3;
    text.justification = 2;
    text.length_multiplier = 65_538;
    text.height_multiplier = 0xFFFF_FFFF;
    text.rotation = vec![0x8000_0001];
    text.origin = vec![-2, 7];
    text.spare = 0xC7;
    let mut out = vec![0xAA; 72];
    let fields = [1, 1, 255, 2, 0, 1];
    let size = write_text(&text, b"ABC", &fields, &[9, 0], 2, &mut out);
    assert_eq!(size, Ok(36));
    let wanted = [
        17 << 8 | 1 << 15 | 1 << 7 | 41,
        34,
        0x8001,
        2,
        0x8000,
        0,
        0x7FFF,
        65535,
        0,
        0,
        65535,
        65535,
        0x7FFF,
        65534,
        77,
        88,
        0xF7FF,
        200 << 8 | 17 << 3 | 5,
        0x0203,
        1,
        2,
        65535,
        65535,
        0x8000,
        1,
        65535,
        65534,
        0,
        7,
        0x0203,
        0x4241,
        0x0143,
        0xFF01,
        0x0002,
        0xC701,
        9,
    ];
    assert_eq!(words_of(&out), wanted);
}

// "The output buffer may have any length; its bytes after the element stay."
#[test]
fn bytes_after_the_text() {
    for extra in 0..5 {
        let mut out = vec![0xC3; 62 + extra];
        let size = write_text(&plain(2), b"A", &[], &[], 2, &mut out);
        assert_eq!(size, Ok(31));
        assert!(out[62..].iter().all(|&byte| byte == 0xC3));
        assert_eq!(out[60..62], [b'A', 0]);
    }
}

// "Write text too, round trip as in demand 2": what is written reads back.
#[test]
fn written_then_read() {
    let mut random = Random::new(24);
    for _ in 0..5000 {
        let call = good_text(&mut random);
        let mut out = vec![call.fill; call.room];
        let size = run(&call, &mut out).unwrap();
        let bytes = size as usize * 2;
        assert!(out[bytes..].iter().all(|&byte| byte == call.fill));
        let mut file = out[..bytes].to_vec();
        let mut place = 0;
        if call.text.header.c == 1 {
            // A component needs a header above it.
            let mut above = library_cell(&[]);
            above[18] += size as u16;
            place = 35;
            file = [bytes_of(&above), file].concat();
        }
        file.extend([255, 255]);
        assert!(judge(&file, call.dim).is_ok());
        assert_eq!(text_fields_of(&file, call.dim, place), call.text);
        let (characters, fields, tail) = text_parts_of(&file, call.dim, place);
        assert_eq!(characters, call.characters);
        assert_eq!(fields, call.fields);
        assert_eq!(tail, call.tail);
    }
}

// The other way: an accepted text, written again from what was read of it,
// gives the same bytes.
#[test]
fn read_then_written() {
    let mut random = Random::new(25);
    let mut made_again = 0;
    for _ in 0..3000 {
        let dim = generate::files::dimension(&mut random);
        let made = generate::valid(&mut random, dim);
        made_again += rewrite_texts(&made.file, dim);
    }
    assert!(made_again > 2500);
}

// "A refusal changes no lent byte and no length."
#[test]
fn spoiled_calls() {
    let mut random = Random::new(26);
    let mut seen = std::collections::BTreeMap::new();
    for _ in 0..40_000 {
        let call = text_call(&mut random);
        let mut out = vec![call.fill; call.room];
        match run(&call, &mut out) {
            Ok(size) => assert!(out[size as usize * 2..].iter().all(|&b| b == call.fill)),
            Err(refusal) => {
                assert!(out.iter().all(|&byte| byte == call.fill));
                assert_eq!(refusal.place, 0);
                *seen.entry(refusal.number).or_insert(0) += 1;
            }
        }
    }
    assert_eq!(seen.keys().copied().collect::<Vec<_>>(), [1, 11, 15, 20]);
    assert!(seen.values().all(|&times| times > 200), "{seen:?}");
}

// The base's writer goes on refusing type 17.
#[test]
fn the_other_writer() {
    let fields = plain(2).header;
    let mut out = vec![0; 200];
    assert_eq!(write(&fields, &[0; 4], &[], 2, &mut out), refused(1, 0));
}
