//! Names and the finder.

mod common;
use common::*;
use reader::generate::{self, texts, Random};
use reader::*;

fn not_found(count: u64) -> Result<Found, FindRefusal> {
    Err(FindRefusal {
        number: 13,
        place: 0,
        count,
    })
}

// "As text, a name has 0 to 6 letters and no trailing space, so text and word
// pairs match one to one."
#[test]
fn one_to_one() {
    for word in 0..=u16::MAX {
        let good = word <= 63999
            && [word / 1600, word / 40 % 40, word % 40]
                .iter()
                .all(|&c| c != 29);
        for (first, second) in [(word, 0), (0, word), (word, 49234), (word, word)] {
            match unpack(first, second) {
                Ok(text) => {
                    assert!(good && text.len() <= 6 && text.last() != Some(&b' '));
                    assert_eq!(pack(&text), Ok((first, second)));
                }
                Err(found) => {
                    assert!(!good);
                    assert_eq!(found, refusal(12, 0));
                }
            }
        }
    }
}

// Each of the 65,536 words as either word of a name: its letters by dividing,
// each at its code. "Code 29 and words above 63999 are refused."
#[test]
fn every_word() {
    const CODES: &[u8; 40] = b" ABCDEFGHIJKLMNOPQRSTUVWXYZ$.-0123456789";
    let letters = |word: u16| {
        let codes = [word / 1600, word / 40 % 40, word % 40];
        let good = word <= 63_999 && !codes.contains(&29);
        good.then(|| codes.map(|code| CODES[usize::from(code)]))
    };
    let mut good = 0;
    for word in 0..=u16::MAX {
        good += u32::from(letters(word).is_some());
        // 417 as the other word, nothing, the word itself, and no name.
        for other in [55_677, 0, word, 29] {
            for (first, second) in [(word, other), (other, word)] {
                let wanted = match (letters(first), letters(second)) {
                    (Some(left), Some(right)) => {
                        let six = [left, right].concat();
                        let end = six.iter().rposition(|&letter| letter != b' ');
                        Ok(six[..end.map_or(0, |last| last + 1)].to_vec())
                    }
                    _ => refused(12, 0),
                };
                assert_eq!(unpack(first, second), wanted, "{first} {second}");
            }
        }
    }
    // 39 letters at each of three places.
    assert_eq!(good, 39 * 39 * 39);
}

// "space 0, A-Z 1-26, $ 27, . 28, 0-9 30-39; a word is a·1600 + b·40 + c".
#[test]
fn letters() {
    assert_eq!(pack(b""), Ok((0, 0)));
    assert_eq!(pack(b"A"), Ok((1600, 0)));
    assert_eq!(pack(b"Z$."), Ok((26 * 1600 + 27 * 40 + 28, 0)));
    assert_eq!(pack(b"   0"), Ok((0, 30 * 1600)));
    // "Dropping leading zeros or inner spaces from a name" is an error.
    assert_eq!(unpack(40, 0), Ok(b" A".to_vec()));
    assert_eq!(unpack(1600, 3200), Ok(b"A  B".to_vec()));
    for bad in [
        &b"a"[..],
        b"A ",
        b" ",
        b"ABCDEFG",
        b"A-B",
        b"      ",
        b"\0",
        b"\xC4",
        b"A\n",
    ] {
        assert_eq!(pack(bad), refused(12, 0));
    }
    let mut random = Random::new(5);
    for _ in 0..5000 {
        let text = texts::text(&mut random);
        let (first, second) = pack(&text).unwrap();
        assert_eq!(unpack(first, second), Ok(text));
        assert_eq!(pack(&texts::bad_text(&mut random)), refused(12, 0));
    }
}

// "it stops at the first type 1 or 2 with that name and reports its place and
// how many elements it looked at, itself counted" and "The finder's 13 also
// carries the count of all elements."
#[test]
fn the_finder() {
    let mut dead = cell(true, &[line(true)]);
    dead[0] |= 1 << 15;
    let elements = [
        line(false),
        library_cell(&[line(true), dead.clone()]),
        cell(false, &[]),
        line(false),
    ];
    let file = file(&elements);
    // The line, the library cell, its line, then the deleted cell.
    assert_eq!(
        find_with_deleted(&file, 2, b"00417"),
        Ok(Found {
            place: 26 + 35 + 26,
            looked: 4
        })
    );
    assert_eq!(
        find_with_deleted(&file, 2, b"417"),
        Ok(Found {
            place: 26,
            looked: 2
        })
    );
    assert_eq!(find_with_deleted(&file, 2, b"0417"), not_found(7));
    assert_eq!(find_with_deleted(&file, 2, b""), not_found(7));
    assert_eq!(find_with_deleted(&[255, 255], 2, b"A"), not_found(0));
}

// "Every call on a file answers 1, then the file's own refusals, then the
// rest." The text comes after the file.
#[test]
fn refusals_of_the_finder() {
    let with = |number, place| {
        Err(FindRefusal {
            number,
            place,
            count: 0,
        })
    };
    type Find = fn(&[u8], u64, &[u8]) -> Result<Found, FindRefusal>;
    let finders: [Find; 2] = [find, find_with_deleted];
    let good = file(&[cell(false, &[])]);
    for find in finders {
        for (number, place, file) in faulty() {
            assert_eq!(find(&file, 2, b"A"), with(number, place));
            assert_eq!(find(&file, 2, b"bad text"), with(number, place));
        }
        assert_eq!(find(&good, 1, b"A"), with(1, 0));
        assert_eq!(find(&good[1..], 2, b"bad text"), with(1, 0));
        assert_eq!(find(&good, 2, b"A "), with(12, 0));
        assert_eq!(find(&good, 2, b"ABCDEFG"), with(12, 0));
        assert_eq!(find(&good, 2, b"A"), not_found(1));
    }
}

// "looks at elements in file order, deleted ones too": against a plain search
// over the views.
#[test]
fn finder_against_views() {
    let mut random = Random::new(6);
    let mut hits = 0;
    for _ in 0..3000 {
        let dim = generate::files::dimension(&mut random);
        let made = generate::valid(&mut random, dim);
        let text = texts::text(&mut random);
        let (starts, _) = generate::places::scan(&made.file);
        let wanted = pack(&text).unwrap();
        let position = starts
            .iter()
            .position(|start| view(&made.file, dim, start.place).unwrap().name == Some(wanted));
        let answer = find_with_deleted(&made.file, dim, &text);
        match position {
            Some(at) => {
                hits += 1;
                let found = Found {
                    place: starts[at].place,
                    looked: at as u64 + 1,
                };
                assert_eq!(answer, Ok(found));
            }
            None => assert_eq!(answer, not_found(made.elements)),
        }
    }
    assert!(hits > 100);
    let names = generate::large::long_names(&mut random, 3);
    for (text, looked) in [(b"999999", 1), (b"A00000", 3), (b"ZZZZZZ", 5)] {
        let found = find_with_deleted(&names.file, 3, text).unwrap();
        assert_eq!(found.looked, looked);
    }
}
