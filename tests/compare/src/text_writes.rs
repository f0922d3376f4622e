//! The writer of texts of both readers: the same answers and the same bytes, and what was written reads back as it was handed
//! in.

use crate::library::{self, TextCall};
use crate::runs::{field_limits, field_numbers, set_field, written_numbers, Runs};
use reader::generate::text_writes::{good_text, long_text, text_call, TextWrite};
use reader::generate::Random;
use reader::{Field, Refusal};

/// The view, the numbers, the characters and the fields of a written text, a marker behind it, are those that were handed in.
fn read_back(w: &TextWrite, element: &[u8]) {
    let mut file = element.to_vec();
    // a component bit would be refused at the top
    file[0] &= 0x7f;
    file.extend([255, 255]);
    let v = library::view(&file, w.dim, 0).expect("a written text is read");
    let f = field_numbers(&w.text.header);
    assert_eq!([v[0], v[2], v[3]], [f[1], 17, f[3]], "level, type, deleted");
    assert_eq!((v[4], v[31]), (element.len() as i64 / 2, 0), "size, place");
    assert_eq!((v[8], &v[9..15]), (1, &f[4..10]), "range");
    assert_eq!((v[15], &v[16..22]), (1, &f[10..16]), "words 14 to 17");

    let text = library::text(&file, w.dim, 0).expect("a written text is read");
    let handed = written_numbers(&w.text);
    assert_eq!(text[..11], handed[..11], "font to origin");
    let (characters, triples) = (w.characters.len(), w.fields.len());
    assert_eq!(text[11..13], [characters as i64, triples as i64 / 3], "counts");
    let odd = (characters + triples) % 2 == 1;
    assert_eq!(text[13], if odd { handed[11] } else { -1 }, "the odd byte");
    let (start, number) = library::characters(&file, w.dim, 0).expect("a written text is read");
    assert_eq!(start as i64, text[14]);
    assert_eq!(file[start as usize..(start + number) as usize], w.characters);
    for (k, three) in w.fields.chunks(3).enumerate() {
        let field = Field {
            first: three[0].into(),
            length: three[1].into(),
            justification: (three[2] as i8).into(),
        };
        assert_eq!(library::field(&file, w.dim, 0, k as u64), Ok(field));
    }
    assert_eq!(library::field(&file, w.dim, 0, triples as u64 / 3), Err(Refusal { number: 13, place: 0 }));
    let (next, all) = library::texts(&file, w.dim, 0, 20).expect("one text");
    assert_eq!((next, &all[..3], &all[3..]), (1, &[0, f[3], 0][..], &text[..]));
}

/// Calls in order and with faults.
pub fn calls(random: &mut Random, runs: &mut Runs, times: u64) {
    for k in 0..times {
        let w = text_call(random);
        let made = runs.write_text(&w);
        if let (Some(element), 0) = (made, k % 4) {
            read_back(&w, &element);
        }
        let w = good_text(random);
        let element = runs.write_text(&w).expect("a good call");
        if k % 8 == 0 {
            read_back(&w, &element);
        }
    }
}

/// A good call with so many characters and so many fields, each of the first character, and an odd byte where there is one.
fn of_counts(random: &mut Random, dim: u64, characters: usize, fields: usize) -> TextWrite {
    let mut w = long_text(if dim == 2 { 30 } else { 38 }, dim);
    w.characters = random.bytes(characters);
    w.fields = [1, 1, 255].repeat(fields);
    w.text.spare = u64::from((characters + 3 * fields) % 2 == 1) * 200;
    w.room = 2000;
    w.fill = 9;
    w
}

/// "It refuses in this order: 1, 20, 8, 11, 15": the exact limits of each.
pub fn limits(random: &mut Random, runs: &mut Runs) {
    for dim in [2, 3] {
        let fixed = if dim == 2 { 30 } else { 38 };
        // a size of 65,535 words is the largest
        for size in [fixed, fixed + 1, 65_534, 65_535, 65_536, 65_537] {
            let w = long_text(size, dim);
            assert_eq!(runs.write_text(&w).is_some(), size <= 65_535);
            let w = TextWrite { room: 2 * size - 1, ..w };
            assert!(runs.write_text(&w).is_none());
            // 20 before 8
            let w = TextWrite { characters: vec![65], fields: vec![2, 0, 0], ..w };
            assert!(runs.write_text(&w).is_none());
        }
        // any buffer, and tails beyond every limit
        for room in [0, 1, 2 * fixed - 1, 2 * fixed, 2 * fixed + 1, 1_048_576, 1_048_577, 1_048_578] {
            runs.write_text(&TextWrite { room, fill: 9, ..long_text(fixed, dim) });
        }
        for tail in [0, 1, 2, 131_000, 131_020, 1_048_576, 1_048_577, 1_048_578] {
            runs.write_text(&TextWrite { tail: vec![0; tail], room: 1_048_578, ..long_text(fixed, dim) });
        }
        // every count of either kind, odd and even, and beyond
        for characters in (0..=256).chain([257, 65_535, 65_536]) {
            for fields in [0, 1, 2] {
                let w = of_counts(random, dim, characters, fields);
                let made = runs.write_text(&w);
                assert_eq!(made.is_some(), characters <= 255 && (characters > 0 || fields == 0));
            }
        }
        for fields in (0..=256).chain([257, 65_535, 65_536]) {
            for characters in [1, 2, 255] {
                let w = of_counts(random, dim, characters, fields);
                assert_eq!(runs.write_text(&w).is_some(), fields <= 255);
            }
        }
        // fields that are no whole threes
        for bytes in (0..8).chain([763, 764, 765, 766, 767, 768]) {
            let mut w = of_counts(random, dim, 3, 0);
            w.fields = [1, 1, 0].repeat(256)[..bytes].to_vec();
            w.text.spare = 0;
            runs.write_text(&w);
        }
        // every field of a text of four characters with bytes about its limits
        for first in [0, 1, 3, 4, 5, 254, 255] {
            for length in [0, 1, 2, 4, 5, 251, 252, 255] {
                for justification in [0, 1, 2, 127, 128, 254, 255] {
                    let mut w = of_counts(random, dim, 4, 0);
                    w.fields = vec![first, length, justification];
                    runs.write_text(&w);
                }
            }
        }
        // the odd byte, behind an odd and behind an even number of bytes
        for spare in [0, 1, 255, 256, 1 << 32, u64::MAX] {
            for characters in [1, 2] {
                let mut w = of_counts(random, dim, characters, 0);
                w.text.spare = spare;
                runs.write_text(&w);
            }
        }
        numbers(random, runs, dim);
        no_odd_byte(random, dim);
    }
    lengths_of_lists(random);
}

/// Each number at its limits and beyond, and in 2D those that only a 3D text has.
fn numbers(random: &mut Random, runs: &mut Runs, dim: u64) {
    let values = [i64::MIN, -(1 << 31) - 1, -(1 << 31), -1, 0, 1, 255, 256, (1 << 31) - 1, 1 << 31, (1 << 32) - 1, 1 << 32, i64::MAX];
    for i in 0..12 {
        for value in values {
            let w = of_counts(random, dim, 3, 0);
            let mut text = w.text.clone();
            match i {
                0 => text.font = value as u64,
                1 => text.justification = value as u64,
                2 => text.length_multiplier = value as u64,
                3 => text.height_multiplier = value as u64,
                4..=7 if i - 4 < text.rotation.len() => text.rotation[i - 4] = value as u64,
                8..=10 if i - 8 < text.origin.len() => text.origin[i - 8] = value,
                11 => text.spare = value as u64,
                // 2D has no such number: any but 0 is 1
                _ => {
                    let mut handed = written_numbers(&w.text);
                    handed[i] = value;
                    let fields = field_numbers(&w.text.header);
                    let call = TextCall { fields: &fields, numbers: &handed, characters: &w.characters, triples: &[], tail: &[], dim };
                    let mut buffer = vec![9; 100];
                    let answer = call.write(&mut buffer);
                    assert_eq!(answer, if value == 0 { Ok(32) } else { Err(Refusal { number: 1, place: 0 }) }, "number {i}: {value}");
                    assert_eq!(buffer.iter().all(|&byte| byte == 9), value != 0);
                    continue;
                }
            }
            runs.write_text(&TextWrite { text, ..w });
        }
    }
    // each field of the header at its limits and past them
    for (i, value) in field_limits(17) {
        let mut w = good_text(random);
        set_field(&mut w.text.header, i, value);
        runs.write_text(&w);
    }
}

/// -1 for the odd byte: the same as 0 behind an even number of bytes, and a call made wrongly behind an odd one, as all other
/// numbers below 0 are behind both.
fn no_odd_byte(random: &mut Random, dim: u64) {
    for characters in [0, 1, 2, 3, 254, 255] {
        let w = of_counts(random, dim, characters, 0);
        let fields = field_numbers(&w.text.header);
        let write = |odd: i64| {
            let mut numbers = written_numbers(&w.text);
            numbers[11] = odd;
            let mut buffer = vec![9; 2000];
            let call = TextCall { fields: &fields, numbers: &numbers, characters: &w.characters, triples: &[], tail: &[], dim };
            (call.write(&mut buffer), buffer)
        };
        let refused = (Err(Refusal { number: 1, place: 0 }), vec![9; 2000]);
        assert_eq!(write(-1), if characters % 2 == 0 { write(0) } else { refused.clone() });
        assert!(write(0).0.is_ok());
        for odd in [i64::MIN, -256, -255, -2] {
            assert_eq!(write(odd), refused);
        }
    }
}

/// Lists of fields of another length than 16, or of numbers of another length than 12, are a call made wrongly: 1, and the
/// buffer stays.
fn lengths_of_lists(random: &mut Random) {
    let w = good_text(random);
    let mut fields = field_numbers(&w.text.header).to_vec();
    fields.extend([0; 16]);
    let mut numbers = written_numbers(&w.text).to_vec();
    numbers.extend([0; 12]);
    let of = |n: usize, m: usize| {
        let (fields, numbers) = (&fields[..n], &numbers[..m]);
        let call = TextCall { fields, numbers, characters: &w.characters, triples: &w.fields, tail: &w.tail, dim: w.dim };
        let mut buffer = vec![w.fill; w.room];
        let answer = call.write(&mut buffer);
        assert!(answer.is_ok() || buffer.iter().all(|&byte| byte == w.fill));
        answer.map(|_| ())
    };
    assert_eq!(of(16, 12), Ok(()));
    for n in (0..16).chain(17..=32) {
        assert_eq!(of(n, 12), Err(Refusal { number: 1, place: 0 }), "{n} fields");
    }
    for m in (0..12).chain(13..=24) {
        assert_eq!(of(16, m), Err(Refusal { number: 1, place: 0 }), "{m} numbers");
    }
}
