//! Ranges: their coordinates, and whether the points lie in them.

mod common;
use common::*;
use reader::generate::{self, Random};
use reader::words::bytes_of;
use reader::*;

/// Sets the six ends of a range as they are stored.
fn set_range(words: &mut [u16], ends: [i32; 6]) {
    for (k, end) in ends.into_iter().enumerate() {
        let stored = (i64::from(end) + 2_147_483_648) as u32;
        words[2 + 2 * k] = (stored >> 16) as u16;
        words[3 + 2 * k] = stored as u16;
    }
}

/// Sets the coordinates of an element from a word on.
fn set_points(words: &mut [u16], first: usize, values: &[i32]) {
    for (k, &value) in values.iter().enumerate() {
        words[first + 2 * k] = (value as u32 >> 16) as u16;
        words[first + 2 * k + 1] = value as u16;
    }
}

// "the coordinate is the unsigned number less 2,147,483,648", "Stored bytes
// 00 80 00 00 mean 0."
#[test]
fn stored_numbers() {
    let cases: [([u16; 2], i32); 7] = [
        ([0x8000, 0], 0),
        ([0x8000, 1], 1),
        ([0x7FFF, 0xFFFF], -1),
        ([0, 0], i32::MIN),
        ([0xFFFF, 0xFFFF], i32::MAX),
        ([0x8001, 2], 65_538),
        ([0x0000, 0xFFFF], i32::MIN + 65_535),
    ];
    for end in 0..6 {
        for (pair, wanted) in cases {
            // A line, a raw element of 14 words, and a cell.
            for mut words in [line(false), element(5, false, 14), cell(false, &[])] {
                set_range(&mut words, [9; 6]);
                words[2 + 2 * end..4 + 2 * end].copy_from_slice(&pair);
                let bytes = file(&[words]);
                let mut range = [9; 6];
                range[end] = wanted;
                assert_eq!(view(&bytes, 2, 0).unwrap().range, Some(range));
            }
        }
    }
    let mut words = line(false);
    words[2..4].copy_from_slice(&words::words_of(&[0x00, 0x80, 0x00, 0x00]));
    assert_eq!(view(&file(&[words]), 2, 0).unwrap().range.unwrap()[0], 0);
    // Fewer than 14 words have none.
    let short = file(&[element(5, false, 13)]);
    assert_eq!(view(&short, 2, 0).unwrap().range, None);
}

// "the writer takes them so": both writers.
#[test]
fn written() {
    let ends = [i32::MIN, -1, 0, 1, 65_538, i32::MAX];
    let mut wanted = line(false);
    set_range(&mut wanted, ends);
    assert_eq!(wanted[2..6], [0, 0, 0x7FFF, 0xFFFF]);
    assert_eq!(
        wanted[6..14],
        [0x8000, 0, 0x8000, 1, 0x8001, 2, 0xFFFF, 0xFFFF]
    );
    let header = Fields {
        kind: 3,
        range: ends.map(i64::from),
        ..Fields::default()
    };
    let mut out = vec![0xAA; 52];
    assert_eq!(write(&header, &[0; 4], &[], 2, &mut out), Ok(26));
    assert_eq!(out, bytes_of(&wanted));
    let text = TextFields {
        header: Fields {
            kind: 17,
            ..header.clone()
        },
        rotation: vec![0],
        origin: vec![0, 0],
        ..TextFields::default()
    };
    let mut out = vec![0xAA; 60];
    assert_eq!(write_text(&text, &[], &[], &[], 2, &mut out), Ok(30));
    assert_eq!(words::words_of(&out)[2..14], wanted[2..14]);
}

// "whether all points of a type 3, 4, 6 or 11 lie in the range, its ends
// included (2D: x and y); yes exactly then".
#[test]
fn the_ends() {
    let limits = [i32::MIN, -3, 5, i32::MAX];
    for kind in [3, 4, 6, 11] {
        for dim in [2, 3] {
            let first = if kind == 3 { 18 } else { 19 };
            let number = if kind == 3 { 2 } else { 3 };
            let axes = dim as usize;
            let mut base = element(kind, false, first + 2 * number * axes);
            if kind != 3 {
                base[18] = number as u16;
            }
            for (low, high) in [(-3, 5), (5, 5), (i32::MIN, i32::MAX), (5, -3)] {
                for at in 0..number * axes {
                    for limit in limits {
                        for off in [-1, 0, 1] {
                            let value = limit.saturating_add(off);
                            // All other coordinates lie at the low end.
                            let mut values = vec![low; number * axes];
                            values[at] = value;
                            let mut words = base.clone();
                            set_points(&mut words, first, &values);
                            let mut range = [low, low, low, high, high, high];
                            if dim == 2 {
                                // z says nothing.
                                range[2] = 7;
                                range[5] = 6;
                            }
                            set_range(&mut words, range);
                            let held = low <= high && low <= value && value <= high;
                            let answer = points_in_range(&file(&[words]), dim, 0);
                            assert_eq!(answer, Ok(held));
                        }
                    }
                }
            }
        }
    }
}

// Each end of each axis by itself, and of all N points the last too.
#[test]
fn each_end() {
    for dim in [2, 3] {
        let axes = dim as usize;
        let mut words = element(11, true, 19 + 101 * 2 * axes);
        words[18] = 101;
        let good = [-10, -20, -30, 10, 20, 30];
        set_range(&mut words, good);
        let mut values = vec![0; 101 * axes];
        values[100 * axes..].copy_from_slice(&[10, -20, 30][..axes]);
        values[..axes].copy_from_slice(&[-10, 20, -30][..axes]);
        set_points(&mut words, 19, &values);
        let ask = |words: &[u16]| {
            let own = if dim == 3 { 62 } else { 46 };
            let bytes = file(&[header(2, false, own, &[words.to_vec()])]);
            points_in_range(&bytes, dim, own as u64)
        };
        assert_eq!(ask(&words), Ok(true));
        // A deleted element alike.
        words[0] |= 1 << 15;
        assert_eq!(ask(&words), Ok(true));
        for end in 0..6 {
            let mut narrow = good;
            narrow[end] += if end < 3 { 1 } else { -1 };
            let mut other = words.clone();
            set_range(&mut other, narrow);
            let z = end % 3 == 2;
            assert_eq!(ask(&other), Ok(z && dim == 2));
        }
    }
}

// "another type is 6, after 13": at the element.
#[test]
fn refusals() {
    for (number, place, file) in faulty() {
        for at in [0, 26, u64::MAX] {
            assert_eq!(points_in_range(&file, 2, at), refused(number, place));
        }
    }
    let chain = header(12, true, 20, &[]);
    let bytes = file(&[
        line(false),
        points(21, false, 2),
        text(false),
        element(15, false, 36),
        element(16, false, 40),
        element(5, false, 2),
        library_cell(&[chain]),
    ]);
    assert_eq!(points_in_range(&bytes, 1, 0), refused(1, 0));
    assert_eq!(points_in_range(&bytes[1..], 2, 0), refused(1, 0));
    for place in [26, 53, 83, 119, 159, 161, 196] {
        assert_eq!(points_in_range(&bytes, 2, place), refused(6, place));
    }
    for place in [1, 25, 27, 216, 217, 1 << 31, 1 << 32, u64::MAX] {
        assert_eq!(points_in_range(&bytes, 2, place), refused(13, 0));
    }
}

// Generated ones, against the calls for the range and the points.
#[test]
fn generated() {
    let mut random = Random::new(60);
    let (mut yes, mut no, mut other) = (0, 0, 0);
    for _ in 0..8000 {
        let dim = generate::files::dimension(&mut random);
        let made = generate::ranges(&mut random, dim);
        for start in generate::places::scan(&made).0 {
            let answer = points_in_range(&made, dim, start.place);
            if ![3, 4, 6, 11].contains(&start.kind) {
                assert_eq!(answer, refused(6, start.place));
                other += 1;
                continue;
            }
            let range = view(&made, dim, start.place).unwrap().range.unwrap();
            let held = (0..)
                .map_while(|k| point(&made, dim, start.place, k).ok())
                .all(|point| {
                    let mut ends = point.iter().zip(range[..3].iter().zip(&range[3..]));
                    ends.all(|(value, (low, high))| (low..=high).contains(&value))
                });
            assert_eq!(answer, Ok(held));
            if held {
                yes += 1;
            } else {
                no += 1;
            }
        }
    }
    assert!(
        yes > 3000 && no > 3000 && other > 1000,
        "{yes} {no} {other}"
    );
}
