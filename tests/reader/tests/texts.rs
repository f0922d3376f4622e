//! Texts: judging them, reading them, their characters and their fields.

mod common;
use common::*;
use reader::generate::journals::record;
use reader::generate::{self, large, Random};
use reader::words::bytes_of;
use reader::*;

/// A field of one character at the first one.
const GOOD: [u8; 3] = [1, 1, 0];

fn judged(dim: u64, words: &[u16]) -> Result<u64, Refusal> {
    judge(&file(&[words.to_vec()]), dim).map(|judged| judged.elements)
}

/// The words of a text's fixed part before its characters.
fn base(dim: u64) -> usize {
    if dim == 3 {
        38
    } else {
        30
    }
}

// "font and justification in word 18, length and height multipliers, rotation
// (2D) or four quaternion longs (3D), all unsigned, origin, then a byte of
// character count and a byte of enter-data field count, then the characters".
#[test]
fn the_layout() {
    let longs = |words: &mut Vec<u16>, from: usize, values: &[u32]| {
        for (k, value) in values.iter().enumerate() {
            words[from + 2 * k] = (value >> 16) as u16;
            words[from + 2 * k + 1] = *value as u16;
        }
    };
    let mut flat = text_with(2, false, b"ABC", &[[2, 2, 255]]);
    flat[18] = 0x0203;
    longs(
        &mut flat,
        19,
        &[65_538, u32::MAX, 0x8000_0001, 0xFFFF_FFFE, 7],
    );
    let mut solid = text_with(3, true, b"AB", &[]);
    solid[18] = 0xFF00;
    let values = [1, 2, 3, 4, 5, 0xFFFF_FFFF, 0x8000_0000, 0x7FFF_FFFF, 9];
    longs(&mut solid, 19, &values);
    let flat = file(&[line(false), flat]);
    let wanted = Text {
        font: 3,
        justification: 2,
        length_multiplier: 65_538,
        height_multiplier: u32::MAX,
        rotation: vec![0x8000_0001],
        origin: vec![-2, 7],
        characters: 3,
        fields: 1,
        spare: 0,
    };
    assert_eq!(read_text(&flat, 2, 26), Ok(wanted));
    // Characters from byte 60, in 3D from byte 76.
    assert_eq!(text_characters(&flat, 2, 26), Ok((2 * 26 + 60, 3)));
    assert_eq!(&flat[112..115], b"ABC");
    let field = Field {
        first: 2,
        length: 2,
        justification: -1,
    };
    assert_eq!(text_field(&flat, 2, 26, 0), Ok(field));
    let mut cell = element(2, false, 62);
    cell[18] = (62 - 19 + solid.len()) as u16;
    let solid = file(&[cell, solid]);
    let wanted = Text {
        font: 0,
        justification: 255,
        length_multiplier: 1,
        height_multiplier: 2,
        rotation: vec![3, 4, 5, u32::MAX],
        origin: vec![i32::MIN, i32::MAX, 9],
        characters: 2,
        fields: 0,
        spare: 0,
    };
    assert_eq!(read_text(&solid, 3, 62), Ok(wanted));
    assert_eq!(text_characters(&solid, 3, 62), Ok((2 * 62 + 76, 2)));
}

// "from now it is 30 (3D: 38) plus the words that the characters and fields
// fill, rounded up": one rounding over both.
#[test]
fn fixed_parts_of_texts() {
    for dim in [2, 3] {
        for characters in (0..7).chain([254, 255]) {
            for fields in (0..6).chain([254, 255]) {
                if characters == 0 && fields > 0 {
                    continue;
                }
                let words = text_with(dim, false, &vec![65; characters], &vec![GOOD; fields]);
                let filled = (characters + 3 * fields).div_ceil(2);
                assert_eq!(words.len(), base(dim) + filled);
                assert_eq!(judged(dim, &words), Ok(1));
                let mut short = words.clone();
                short.pop();
                short[1] -= 1;
                assert_eq!(judged(dim, &short), refused(7, 0));
                // A longer one has a tail.
                let mut long = words;
                long.extend([65535, 1, 2]);
                long[1] += 3;
                assert_eq!(judged(dim, &long), Ok(1));
            }
        }
        let full = text_with(dim, false, &[0; 255], &[GOOD; 255]);
        assert_eq!(full.len(), if dim == 3 { 548 } else { 540 });
        // Below the counts there is nothing to read them from, whatever
        // stands behind; 18 words were enough before.
        for size in [2, 14, 17, 18, 29, 30, 37] {
            let words = element(17, false, size);
            let answer = if size < base(dim) {
                refused(7, 0)
            } else {
                Ok(1)
            };
            assert_eq!(judged(dim, &words), answer);
            let behind = [words, element(5, false, 100)];
            let both = judge(&file(&behind), dim).map(|judged| judged.elements);
            assert_eq!(both, answer.map(|one| one + 1));
        }
    }
}

// "a byte of character count and a byte of enter-data field count": characters
// in the low byte.
#[test]
fn counts_in_their_bytes() {
    for dim in [2, 3] {
        let at = base(dim) - 1;
        let mut words = element(17, false, at + 1 + 100);
        words[at] = 200;
        assert_eq!(judged(dim, &words), Ok(1));
        words[at] = 201;
        assert_eq!(judged(dim, &words), refused(7, 0));
        // Without characters no field is good, and 67 of them do not fit.
        words[at] = 66 << 8;
        assert_eq!(judged(dim, &words), refused(20, 0));
        words[at] = 67 << 8;
        assert_eq!(judged(dim, &words), refused(7, 0));
        words[at] = 0xFFFF;
        assert_eq!(judged(dim, &words), refused(7, 0));
    }
}

// Font and justification of a text are two bytes, and no rule judges them.
#[test]
fn font_and_justification_are_free() {
    for value in 0..=255u16 {
        let mut words = text(false);
        words[18] = value << 8 | (255 - value);
        let seen = read_text(&file(&[words]), 2, 0).unwrap();
        assert_eq!(u16::from(seen.justification), value);
        assert_eq!(u16::from(seen.font), 255 - value);
    }
}

// "An odd last byte is part of the reading."
#[test]
fn the_odd_last_byte() {
    for dim in [2, 3] {
        for (characters, fields) in [(0, 0), (1, 0), (2, 0), (1, 1), (2, 1), (3, 2), (255, 254)] {
            let mut words = text_with(dim, false, &vec![65; characters], &vec![GOOD; fields]);
            let last = words.len() - 1;
            if (characters + 3 * fields) % 2 == 1 {
                words[last] |= 0xC700;
                let seen = read_text(&file(&[words.clone()]), dim, 0).unwrap();
                assert_eq!(seen.spare, 0xC7);
                // A tail behind it is none of its business.
                words.push(0xEEEE);
                words[1] += 1;
                let seen = read_text(&file(&[words]), dim, 0).unwrap();
                assert_eq!(seen.spare, 0xC7);
            } else {
                words.push(0xEEEE);
                words[1] += 1;
                let seen = read_text(&file(&[words]), dim, 0).unwrap();
                assert_eq!(seen.spare, 0);
            }
        }
    }
}

// "three bytes a field (first character counted from 1, length, justification
// -1, 0 or 1)", "A field may have length 0 but starts at a character." and "a
// field outside the characters or with another justification is 20 FIELD".
#[test]
fn bounds_of_a_field() {
    for dim in [2, 3] {
        for characters in [0, 1, 2, 3, 100, 254, 255] {
            let text = vec![65; characters];
            for first in [0, 1, 2, 3, 4, 99, 100, 101, 253, 254, 255] {
                for length in [0, 1, 2, 3, 99, 100, 101, 253, 254, 255] {
                    let (from, number) = (usize::from(first), usize::from(length));
                    // As numbers: 255 and 255 are not 254.
                    let inside = from >= 1 && from <= characters && from + number <= characters + 1;
                    for kind in [0, 1, 2, 127, 128, 254, 255] {
                        let words = text_with(dim, false, &text, &[[first, length, kind]]);
                        let good = inside && [255, 0, 1].contains(&kind);
                        let answer = if good { Ok(1) } else { refused(20, 0) };
                        assert_eq!(judged(dim, &words), answer, "{first} {length} {kind}");
                    }
                }
            }
        }
    }
}

// Fields may overlap, repeat and stand in any order; a wrong one among good
// ones is 20 at the element.
#[test]
fn fields_together() {
    let all = [[3, 1, 1], [1, 3, 255], [1, 3, 255], [2, 0, 0], [3, 1, 1]];
    let words = text_with(2, false, b"ABC", &all);
    let file = file(&[words]);
    for (k, three) in all.iter().enumerate() {
        let wanted = Field {
            first: u64::from(three[0]),
            length: u64::from(three[1]),
            justification: i64::from(three[2] as i8),
        };
        assert_eq!(text_field(&file, 2, 0, k as u64), Ok(wanted));
    }
    for k in [5, 6, 255, 256, 1 << 32, u64::MAX] {
        assert_eq!(text_field(&file, 2, 0, k), refused(13, 0));
    }
    for bad in 0..5 {
        let mut some = all;
        some[bad] = [4, 0, 0];
        assert_eq!(
            judged(2, &text_with(2, false, b"ABC", &some)),
            refused(20, 0)
        );
    }
    // "With c odd the first field does not lie on a word boundary."
    let mut odd = text_with(2, false, b"ABC", &[[1, 3, 255]]);
    assert_eq!(odd[31..33], [u16::from(b'C') | 1 << 8, 3 | 255 << 8]);
    odd[31] = u16::from(b'C') | 2 << 8;
    assert_eq!(judged(2, &odd), refused(20, 0));
}

// "20 FIELD, after 7", and before 8 and 11: the table's order.
#[test]
fn order_of_a_field() {
    for dim in [2, 3] {
        let mut words = text_with(dim, false, b"AB", &[[1, 3, 0], [1, 1, 0]]);
        words[16] = 1 << 11;
        let mut short = words.clone();
        short.pop();
        short[1] -= 1;
        assert_eq!(judged(dim, &short), refused(7, 0));
        assert_eq!(judged(dim, &words), refused(20, 0));
        let at = base(dim) + 1;
        words[at] = 1 | 2 << 8;
        assert_eq!(judged(dim, &words), refused(11, 0));
        words[15] = words.len() as u16 - 16;
        assert_eq!(judged(dim, &words), Ok(1));
        // A text too large, with a wrong field and without.
        for size in [65_536, 65_537] {
            let file = large::text_too_large(size, dim, true);
            assert_eq!(judge(&file, dim), refused(20, 0));
            let file = large::text_too_large(size, dim, false);
            assert_eq!(judge(&file, dim), refused(8, 0));
        }
        assert!(judge(&large::text_too_large(65_535, dim, false), dim).is_ok());
    }
    // Under a header: before its own 9, after its 8; and 5 and 6 come first.
    let bad = text_with(2, true, b"", &[GOOD]);
    let mut node = header(7, false, 35, &[text(true), bad.clone()]);
    node[19] = 7;
    assert_eq!(judged(2, &node), refused(20, 65));
    node[18] += 2;
    assert_eq!(judged(2, &node), refused(8, 0));
    assert_eq!(judged(2, &bad), refused(5, 0));
    let mut deep = nest(8, &[bad.clone()]);
    assert_eq!(judged(2, &deep), refused(10, 9 * 46));
    deep = nest(7, &[bad]);
    assert_eq!(judged(2, &deep), refused(20, 8 * 46));
}

// The attribute part may not begin before the new fixed part's end; words
// between are free.
#[test]
fn linkages_behind_a_text() {
    for dim in [2, 3] {
        let good = text_with(dim, false, b"ABC", &[[1, 3, 255], [3, 1, 1]]);
        let end = good.len();
        let mut words = good.clone();
        words[16] = 1 << 11;
        words.extend([9, 0x1003, 501, 1, 2, 0, 7, 7, 7]);
        words[1] = words.len() as u16 - 2;
        let with = |index: usize| {
            let mut words = words.clone();
            words[15] = (index - 16) as u16;
            judged(dim, &words)
        };
        assert_eq!(with(end + 1), Ok(1));
        assert_eq!(with(end + 5), Ok(1));
        for wrong in [16, 18, base(dim), end - 1, end, end + 2, words.len() + 1] {
            assert_eq!(with(wrong), refused(11, 0), "{wrong}");
        }
        words[15] = end as u16 + 1 - 16;
        let file = file(&[words]);
        let found = linkage(&file, dim, 0, 0).unwrap();
        assert_eq!(
            (found.place, found.size, found.id),
            (end as u64 + 1, 4, 501)
        );
        assert_eq!(linkage(&file, dim, 0, 1).unwrap().place, end as u64 + 5);
        assert_eq!(linkage(&file, dim, 0, 2), refused(13, 0));
        assert_eq!(read_text(&file, dim, 0).unwrap().fields, 2);
    }
}

/// The three calls on a text, as what they refuse.
type Ask = fn(&[u8], u64, u64) -> Option<Refusal>;
const CALLS: [Ask; 3] = [
    |file, dim, place| read_text(file, dim, place).err(),
    |file, dim, place| text_characters(file, dim, place).err(),
    |file, dim, place| text_field(file, dim, place, 0).err(),
];

// "Every call on a file answers 1, then the file's own refusals, then the
// rest": 13 for a place that starts nothing, then 6 at another type.
#[test]
fn refusals_of_reading() {
    let elements = [
        line(false),
        cell(false, &[text_with(2, true, b"A", &[GOOD])]),
        element(5, false, 40),
        header(7, false, 35, &[]),
    ];
    let good = file(&elements);
    for call in CALLS {
        for place in [0, 7, u64::MAX] {
            for (number, at, file) in faulty() {
                assert_eq!(call(&file, 2, place), Some(refusal(number, at)));
            }
            assert_eq!(call(&good, 4, place), Some(refusal(1, 0)));
            assert_eq!(call(&good[1..], 2, place), Some(refusal(1, 0)));
        }
        for place in [1, 25, 71, 73, 1 << 31, 1 << 32, u64::MAX] {
            assert_eq!(call(&good, 2, place), Some(refusal(13, 0)));
        }
        for place in [0, 26, 104, 144] {
            assert_eq!(call(&good, 2, place), Some(refusal(6, place)));
        }
        assert_eq!(call(&good, 2, 72), None);
    }
    // The type is looked at before the number of a field.
    assert_eq!(text_field(&good, 2, 0, 9), refused(6, 0));
    assert_eq!(text_field(&good, 2, 72, 1), refused(13, 0));
    // An empty part is no refusal.
    let empty = file(&[text(false)]);
    assert_eq!(text_characters(&empty, 2, 0), Ok((60, 0)));
    assert_eq!(text_field(&empty, 2, 0, 0), refused(13, 0));
}

// All texts from an element number on, in file order, deleted ones too.
#[test]
fn texts_of_a_file() {
    let mut dead = text_with(2, true, b"\\\0", &[]);
    dead[0] |= 1 << 15;
    let elements = [
        text_with(2, false, b"one", &[GOOD]),
        line(false),
        header(7, false, 35, &[text(true), dead]),
        text_with(2, false, b"two", &[]),
    ];
    let file = file(&elements);
    let all = texts_from(&file, 2, 0).unwrap();
    let seen: Vec<_> = all.iter().map(|t| (t.number, t.place, t.start)).collect();
    assert_eq!(
        seen,
        [(0, 0, 60), (3, 94, 248), (4, 124, 308), (5, 155, 370)]
    );
    for one in &all {
        assert_eq!(read_text(&file, 2, one.place).as_ref(), Ok(&one.text));
        let part = Ok((one.start, one.text.characters));
        assert_eq!(text_characters(&file, 2, one.place), part);
    }
    for k in (0..9).chain([1 << 32, u64::MAX]) {
        let rest: Vec<TextAt> = all.iter().filter(|t| t.number >= k).cloned().collect();
        assert_eq!(texts_from(&file, 2, k), Ok(rest));
    }
    for (number, place, file) in faulty() {
        assert_eq!(texts_from(&file, 2, 0), refused(number, place));
        assert_eq!(texts_from(&file, 2, u64::MAX), refused(number, place));
    }
    assert_eq!(texts_from(&file, 5, 0), refused(1, 0));
}

// An insert's piece and the payload that an undo puts back are judged by the
// same rule: 7, then 20, in the piece; 19 for the record.
#[test]
fn texts_in_a_session() {
    let start = file(&[header(7, false, 35, &[text(true)])]);
    let state = session(&start, 2000, 200);
    let good = text_with(2, true, b"ABC", &[[1, 3, 255]]);
    let short = good[..good.len() - 1].to_vec();
    let field = text_with(2, true, b"ABC", &[[4, 0, 0]]);
    let mut pieces = vec![(20, field)];
    for size in [18, 29] {
        pieces.push((7, element(17, true, size)));
    }
    let mut cut = short;
    cut[1] -= 1;
    pieces.push((7, cut));
    for (number, piece) in pieces {
        let call = Call::Insert {
            header: Some(0),
            place: 65,
            piece: bytes_of(&piece),
        };
        refuse(&state, &call, number, 0);
        let mut undone = session(&start, 2000, 0);
        undone.journal = bytes_of(&record(4, 0, 65, &piece));
        undone.jused = undone.journal.len() as u64;
        refuse(&undone, &Call::Undo, 19, 0);
    }
    // In an extent the place is the text's.
    let node = header(
        7,
        false,
        35,
        &[good.clone(), text_with(2, true, b"", &[GOOD])],
    );
    let top = Call::Insert {
        header: None,
        place: 0,
        piece: bytes_of(&node),
    };
    refuse(&state, &top, 20, 35 + good.len() as u64);
    let mut made = state.clone();
    let call = Call::Insert {
        header: Some(0),
        place: 65,
        piece: bytes_of(&good),
    };
    assert_eq!(made.run(&call), Ok(()));
    assert_eq!(read_text(made.used_file(), 2, 65).unwrap().characters, 3);
    assert_eq!(made.run(&Call::Remove { place: 65 }), Ok(()));
    assert_eq!(made.run(&Call::Undo), Ok(()));
    assert_eq!(made.run(&Call::Undo), Ok(()));
    assert_eq!(made.used_file(), start);
}

// Generated files: texts in nearly all of them, in both dimensions, with every
// part that a text can have; and damage to their counts and fields.
#[test]
fn generated_texts() {
    let mut random = Random::new(22);
    for dim in [2, 3] {
        let (mut files, mut empty, mut odd, mut fields, mut linked) = (0, 0, 0, 0, 0);
        let mut damaged = std::collections::BTreeMap::new();
        for _ in 0..3000 {
            let made = generate::valid(&mut random, dim);
            let texts = texts_from(&made.file, dim, 0).unwrap();
            files += usize::from(!texts.is_empty());
            for one in &texts {
                let text = &one.text;
                empty += usize::from(text.characters == 0);
                odd += usize::from(text.spare != 0);
                fields += usize::from(text.fields > 0);
                linked += usize::from(linkage(&made.file, dim, one.place, 0).is_ok());
                for k in 0..text.fields {
                    let field = text_field(&made.file, dim, one.place, k).unwrap();
                    assert!(field.first + field.length <= text.characters + 1);
                }
            }
            let mut changed = made.file.clone();
            generate::changes::change_text(&mut random, &mut changed, dim);
            let number = judge(&changed, dim).map_or_else(|refusal| refusal.number, |_| 0);
            *damaged.entry(number).or_insert(0) += 1;
        }
        assert!(files > 2500, "{files} files with texts");
        for times in [empty, odd, fields, linked] {
            assert!(times > 300, "{empty} {odd} {fields} {linked}");
        }
        for number in [0, 7, 11, 20] {
            assert!(damaged[&number] > 20, "{damaged:?}");
        }
    }
}

// The largest texts, and the most of them.
#[test]
fn largest_texts() {
    let mut random = Random::new(23);
    for dim in [2, 3] {
        let made = large::most_text(&mut random, dim);
        let judged = judge(&made.file, dim).unwrap();
        assert_eq!((judged.elements, judged.marker), (3, made.marker));
        let texts = texts_from(&made.file, dim, 0).unwrap();
        let counts = |t: &TextAt| (t.text.characters, t.text.fields);
        let seen: Vec<_> = texts.iter().map(counts).collect();
        assert_eq!(seen, [(255, 255), (0, 0), (255, 255)]);
        assert!(text_field(&made.file, dim, 0, 254).is_ok());
        assert_eq!(text_field(&made.file, dim, 0, 255), refused(13, 0));
        let made = large::most_texts(&mut random, dim);
        assert!(made.file.len() > 1_048_000);
        let texts = texts_from(&made.file, dim, 0).unwrap();
        assert_eq!(texts.len() as u64, made.elements);
        assert!(text_lines(&made.file, dim).is_ok());
    }
}
