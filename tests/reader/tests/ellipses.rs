//! Ellipses and arcs: judging them and reading them.

mod common;
use common::*;
use reader::generate::floats::{float, float_words, offsets};
use reader::generate::journals::record;
use reader::generate::{self, Random};
use reader::words::bytes_of;
use reader::*;

/// The sizes: type, dimension, words.
const SIZES: [(u16, u64, usize); 4] = [(15, 2, 36), (16, 2, 40), (15, 3, 46), (16, 3, 50)];

const ONE: u64 = 1023 << 52;

fn judged(dim: u64, words: &[u16]) -> Result<u64, Refusal> {
    judge(&file(&[words.to_vec()]), dim).map(|judged| judged.elements)
}

/// Puts the longs into an element from a word on.
fn longs(words: &mut [u16], from: usize, values: &[u32]) {
    for (k, value) in values.iter().enumerate() {
        words[from + 2 * k] = (value >> 16) as u16;
        words[from + 2 * k + 1] = *value as u16;
    }
}

/// Puts powers of two into an element, each as the first word of a float.
fn powers(words: &mut [u16], at: &[(usize, i32)]) {
    for &(from, power) in at {
        words[from] = (129 + power) as u16 * 128;
    }
}

fn bits(power: i64) -> u64 {
    ((1023 + power) as u64) << 52
}

// "Axes and origins are VAX D-floats", "Rotation or quaternion longs, and the
// arc's start and sweep longs, are handed out unsigned, as stored."
#[test]
fn layouts() {
    let mut flat = element(15, false, 36);
    powers(&mut flat, &[(18, 1), (22, 2), (28, 3), (32, 4)]);
    longs(&mut flat, 26, &[0xFFFF_FFFE]);
    let bytes = file(&[line(false), flat]);
    let axes = Axes {
        primary: bits(1),
        secondary: bits(2),
        rotation: vec![0xFFFF_FFFE],
        origin: vec![bits(3), bits(4)],
    };
    assert_eq!(read_ellipse(&bytes, 2, 26), Ok(EllipseOrArc::Ellipse(axes)));

    let mut flat = element(16, true, 40);
    longs(&mut flat, 18, &[0x8000_0001, 0xFFFF_FFFF]);
    powers(&mut flat, &[(22, -1), (26, -2), (32, -3), (36, 0)]);
    longs(&mut flat, 30, &[7]);
    let bytes = file(&[cell(false, &[flat])]);
    let axes = Axes {
        primary: bits(-1),
        secondary: bits(-2),
        rotation: vec![7],
        origin: vec![bits(-3), ONE],
    };
    let arc = EllipseOrArc::Arc {
        start: 0x8000_0001,
        sweep: u32::MAX,
        axes,
    };
    assert_eq!(read_ellipse(&bytes, 2, 46), Ok(arc));

    let mut solid = element(15, false, 46);
    powers(&mut solid, &[(18, 1), (22, 2), (34, 3), (38, 4), (42, 5)]);
    longs(&mut solid, 26, &[1, 2, 0x8000_0000, u32::MAX]);
    let axes = Axes {
        primary: bits(1),
        secondary: bits(2),
        rotation: vec![1, 2, 0x8000_0000, u32::MAX],
        origin: vec![bits(3), bits(4), bits(5)],
    };
    assert_eq!(
        read_ellipse(&file(&[solid]), 3, 0),
        Ok(EllipseOrArc::Ellipse(axes))
    );

    let mut solid = element(16, false, 50);
    longs(&mut solid, 18, &[3, 4]);
    powers(&mut solid, &[(22, 1), (26, 2), (38, 3), (42, 4), (46, 5)]);
    longs(&mut solid, 30, &[5, 6, 7, 8]);
    // A negative axis, and a zero with fraction bits.
    solid[26] |= 1 << 15;
    solid[46..50].copy_from_slice(&[0x7F, 0xFFFF, 0, 1]);
    let axes = Axes {
        primary: bits(1),
        secondary: 1 << 63 | bits(2),
        rotation: vec![5, 6, 7, 8],
        origin: vec![bits(3), bits(4), 0],
    };
    let arc = EllipseOrArc::Arc {
        start: 3,
        sweep: 4,
        axes,
    };
    assert_eq!(read_ellipse(&file(&[solid]), 3, 0), Ok(arc));
}

// "The source layouts fix sizes (36 and 40 words; 3D: 46 and 50)", "short is
// 7": each size, one less, and one more.
#[test]
fn sizes() {
    for (kind, dim, size) in SIZES {
        assert_eq!(judged(dim, &element(kind, false, size)), Ok(1));
        assert_eq!(judged(dim, &element(kind, false, size + 1)), Ok(1));
        for short in [size - 1, 2, 10, 13, 14, 18] {
            assert_eq!(judged(dim, &element(kind, false, short)), refused(7, 0));
        }
        // A short one whose next words would be a float that is none.
        let mut short = element(kind, false, size - 1);
        short.extend([1 << 15; 40]);
        assert_eq!(judged(dim, &short), refused(7, 0));
    }
}

// "linkages of these types are now judged": the attribute part begins at the
// fixed part's end or later; 18 words of a header are viewed.
#[test]
fn linkages() {
    for (kind, dim, size) in SIZES {
        let with = |index: usize, tail: &[u16]| {
            let mut words = element(kind, false, size + tail.len());
            words[15] = index as u16;
            words[16] = 1 << 11;
            words[17] = 200 << 8 | 17 << 3 | 5;
            words[size..].copy_from_slice(tail);
            words
        };
        let begin = size - 16;
        let answer = |index: usize, tail: &[u16]| judged(dim, &with(index, tail));
        assert_eq!(answer(begin, &[]), Ok(1));
        assert_eq!(answer(begin - 1, &[]), refused(11, 0));
        assert_eq!(answer(begin + 1, &[]), refused(11, 0));
        assert_eq!(answer(begin + 1, &[7]), Ok(1));
        assert_eq!(answer(begin, &[7]), refused(11, 0));
        assert_eq!(answer(begin, &[0, 1, 2, 3, 0x1001, 9]), Ok(1));
        let bytes = file(&[with(begin, &[0, 1, 2, 3, 0x1001, 9])]);
        let second = Linkage {
            kind: LinkageKind::User,
            place: size as u64 + 4,
            size: 2,
            id: 9,
        };
        assert_eq!(linkage(&bytes, dim, 0, 1), Ok(second));
        assert_eq!(linkage(&bytes, dim, 0, 2), refused(13, 0));
        let seen = view(&bytes, dim, 0).unwrap();
        let shown = seen.display.unwrap();
        assert_eq!((shown.style, shown.weight, shown.colour), (5, 17, 200));
        assert_eq!((seen.n, seen.name, seen.total), (None, None, None));
        assert_eq!(point(&bytes, dim, 0, 0), refused(13, 0));
    }
}

// "E=0 with sign set is 21 FLOAT, after 11": at the element, for each float and
// for no other word.
#[test]
fn floats_that_are_none() {
    for (kind, dim, size) in SIZES {
        let floats = offsets(u64::from(kind), dim);
        assert_eq!(floats.len() as u64, 2 + dim);
        let before = element(3, false, if dim == 3 { 30 } else { 26 });
        let place = before.len() as u64;
        for at in 18..size {
            let mut words = element(kind, false, size);
            words[at] = 1 << 15;
            let answer = judge(&file(&[before.clone(), words]), dim);
            if floats.contains(&at) {
                assert_eq!(answer, refused(21, place), "word {at} of type {kind}");
            } else {
                assert_eq!(answer.unwrap().elements, 2, "word {at} of type {kind}");
            }
        }
        // Whatever the fraction; not with another exponent.
        for at in floats {
            let mut words = element(kind, false, size);
            for (fraction, answer) in [(0x7F, refused(21, 0)), (1 << 7, Ok(1)), (0x7F80, Ok(1))] {
                words[at] = 1 << 15 | fraction;
                words[at + 1] = 0xFFFF;
                assert_eq!(judged(dim, &words), answer);
            }
        }
    }
}

// The order: 7, 8, 11, 21.
#[test]
fn order() {
    for (kind, dim, size) in SIZES {
        let at = offsets(u64::from(kind), dim)[3];
        let mut words = element(kind, false, size);
        words[at] = 1 << 15;
        words[16] = 1 << 11;
        let mut short = words[..size - 1].to_vec();
        short[1] -= 1;
        assert_eq!(judged(dim, &short), refused(7, 0));
        let mut large = words.clone();
        large.resize(65_536, 0);
        large[1] = 65_534;
        assert_eq!(judged(dim, &large), refused(8, 0));
        assert_eq!(judged(dim, &words), refused(11, 0));
        words[15] = (size - 16) as u16;
        assert_eq!(judged(dim, &words), refused(21, 0));
        words[at] = 1 << 7;
        assert_eq!(judged(dim, &words), Ok(1));
    }
    // 21 of a component before its header's 9, and before a later fault.
    let mut bad = element(15, true, 36);
    bad[18] = 1 << 15;
    let mut chain = header(12, false, 20, &[line(true), bad, line(false)]);
    chain[19] = 9;
    assert_eq!(judged(2, &chain), refused(21, 46));
}

// Ellipses and arcs stand wherever an element without components may.
#[test]
fn where_they_stand() {
    for kind in [15, 16] {
        let words = element(kind, true, 50);
        for (above, own) in [(1, 35), (2, 46), (12, 20), (14, 20)] {
            let bytes = file(&[header(above, false, own, &[words.clone()])]);
            assert_eq!(judge(&bytes, 2).unwrap().elements, 2);
        }
        let node = file(&[header(7, false, 35, &[words.clone()])]);
        assert_eq!(judge(&node, 2), refused(6, 35));
        for above in [18, 19] {
            let bytes = file(&[header(above, false, 21, &[words.clone()])]);
            assert_eq!(judge(&bytes, 3).unwrap().elements, 2);
        }
    }
}

// 1, the file's own, 13, then 6 at an element of another type.
#[test]
fn refusals_of_the_reading() {
    for (number, place, file) in faulty() {
        for at in [0, 26, u64::MAX] {
            assert_eq!(read_ellipse(&file, 2, at), refused(number, place));
        }
        assert_eq!(ellipses_from(&file, 2, 0), refused(number, place));
    }
    let bytes = file(&[
        line(false),
        element(15, false, 36),
        cell(false, &[text(true)]),
    ]);
    assert_eq!(read_ellipse(&bytes, 4, 26), refused(1, 0));
    assert_eq!(read_ellipse(&bytes[1..], 2, 26), refused(1, 0));
    assert!(read_ellipse(&bytes, 2, 26).is_ok());
    for place in [0, 62, 108] {
        assert_eq!(read_ellipse(&bytes, 2, place), refused(6, place));
    }
    for place in [1, 27, 138, 139, 1 << 32, u64::MAX] {
        assert_eq!(read_ellipse(&bytes, 2, place), refused(13, 0));
    }
}

// The piece of an insert and the payload of a removal are judged so too.
#[test]
fn pieces() {
    let mut bad = element(16, false, 40);
    bad[36] = 1 << 15;
    let state = session(&file(&[line(false)]), 200, 200);
    let insert = |piece: &[u16]| Call::Insert {
        header: None,
        place: 26,
        piece: bytes_of(piece),
    };
    refuse(&state, &insert(&bad), 21, 0);
    refuse(&state, &insert(&element(16, false, 39)), 7, 0);
    let in_cell = cell(
        false,
        &[{
            let mut words = bad.clone();
            words[0] |= 1 << 7;
            words
        }],
    );
    refuse(&state, &insert(&in_cell), 21, 46);
    let mut good = bad.clone();
    good[36] = 0;
    assert_eq!(state.clone().run(&insert(&good)), Ok(()));
    for (piece, answer) in [(bad, refused(19, 0)), (good, Ok(()))] {
        let mut state = session(&file(&[line(false)]), 200, 0);
        state.journal = bytes_of(&record(4, u32::MAX, 0, &piece));
        state.jused = state.journal.len() as u64;
        assert_eq!(state.run(&Call::Undo), answer);
    }
}

// Generated ones: the floats by their words, in file order.
#[test]
fn generated() {
    let mut random = Random::new(51);
    let (mut ellipses, mut arcs) = (0, 0);
    for _ in 0..4000 {
        let dim = generate::files::dimension(&mut random);
        let made = generate::valid(&mut random, dim);
        let found = ellipses_from(&made.file, dim, 0).unwrap();
        let (starts, _) = generate::places::scan(&made.file);
        let wanted: Vec<(u64, u64)> = starts
            .iter()
            .enumerate()
            .filter(|(_, start)| start.kind == 15 || start.kind == 16)
            .map(|(number, start)| (number as u64, start.place))
            .collect();
        let numbers: Vec<(u64, u64)> = found.iter().map(|one| (one.number, one.place)).collect();
        assert_eq!(numbers, wanted);
        for one in &found {
            let reading = read_ellipse(&made.file, dim, one.place);
            assert_eq!(reading.as_ref(), Ok(&one.reading));
            let (kind, axes) = match &one.reading {
                EllipseOrArc::Ellipse(axes) => (15, axes),
                EllipseOrArc::Arc { axes, .. } => (16, axes),
            };
            ellipses += u32::from(kind == 15);
            arcs += u32::from(kind == 16);
            let mut all = vec![axes.primary, axes.secondary];
            all.extend(&axes.origin);
            let stored = offsets(kind, dim).into_iter().map(|at| {
                let from = 2 * (one.place as usize + at);
                let four = words::words_of(&made.file[from..from + 8]);
                float_bits(four.try_into().unwrap()).unwrap()
            });
            assert_eq!(all, stored.collect::<Vec<_>>());
        }
        let from = random.below(4);
        let later: Vec<EllipseAt> = found.into_iter().filter(|one| one.number >= from).collect();
        assert_eq!(ellipses_from(&made.file, dim, from), Ok(later));
    }
    assert!(ellipses > 1000 && arcs > 1000, "{ellipses} {arcs}");
    let mut wrong = 0;
    for _ in 0..6000 {
        let dim = generate::files::dimension(&mut random);
        let made = generate::ellipses(&mut random, dim);
        match ellipses_from(&made, dim, 0) {
            Ok(found) => assert!(!found.is_empty()),
            Err(refusal) => {
                assert_eq!(refusal.number, 21);
                wrong += 1;
            }
        }
    }
    assert!((500..1500).contains(&wrong), "{wrong}");
}

// Each float over each kind and place of an element, read back.
#[test]
fn floats_of_all_sorts() {
    let mut random = Random::new(52);
    for (kind, dim, size) in SIZES {
        for _ in 0..2000 {
            let mut words = element(kind, false, size);
            let mut wanted = Vec::new();
            for at in offsets(u64::from(kind), dim) {
                let four = if random.one_in(4) {
                    float_words(0, 0, random.draw() >> 9)
                } else {
                    float(&mut random)
                };
                words[at..at + 4].copy_from_slice(&four);
                wanted.push(float_bits(four).unwrap());
            }
            let axes = match read_ellipse(&file(&[words]), dim, 0).unwrap() {
                EllipseOrArc::Ellipse(axes) => axes,
                EllipseOrArc::Arc { axes, .. } => axes,
            };
            assert_eq!((axes.primary, axes.secondary), (wanted[0], wanted[1]));
            assert_eq!(axes.origin, wanted[2..]);
        }
    }
}
