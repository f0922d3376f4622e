//! Judging: each rule, each number, the order of checks.

mod common;
use common::*;
use reader::generate::{self, Random, ORDER};
use reader::words::bytes_of;
use reader::*;

// "1 CALL: dimension not 2 or 3, odd or oversize length".
#[test]
fn call_not_in_order() {
    let good = file(&[]);
    for dim in [0, 1, 4, 5, 1 << 32, u64::MAX] {
        assert_eq!(judge(&good, dim), refused(1, 0));
    }
    assert_eq!(judge(&good[..1], 2), refused(1, 0));
    assert_eq!(judge(&generate::large::oversize_file(), 2), refused(1, 0));
    assert_eq!(judge(&vec![0; 1_048_577], 2), refused(1, 0));
    let longest = generate::large::longest_file();
    assert_eq!(longest.file.len(), 1_048_576);
    assert_eq!(judge(&longest.file, 2).unwrap().marker, longest.marker);
}

// "A refusal carries its number and a place: the element at fault (for 2, the
// end of the file)".
#[test]
fn each_number_once() {
    for (number, place, file) in faulty() {
        assert_eq!(judge(&file, 2), refused(number, place), "number {number}");
    }
}

// "2 NO END: no word left where the marker or a top-level element is due" and
// "3 CUT: fewer than two words, or the size, before the bound".
#[test]
fn cuts_of_a_file() {
    let mut whole = line(false);
    whole.extend(line(false));
    for words in 0..=52 {
        let answer = judge(&bytes_of(&whole[..words]), 2);
        let wanted = match words {
            0 | 26 | 52 => refusal(2, words as u64),
            1..=25 => refusal(3, 0),
            _ => refusal(3, 26),
        };
        assert_eq!(answer, Err(wanted));
    }
}

// "In type 9, bits 6 and 7 are not judged (H)".
#[test]
fn type_nine() {
    for bits in 0..4u16 {
        let mut words = element(9, false, 2);
        words[0] |= bits << 6;
        assert_eq!(judge(&file(&[words.clone()]), 2).unwrap().elements, 1);
        assert_eq!(
            judge(&file(&[cell(false, &[words])]), 2).unwrap().elements,
            2
        );
    }
    // Other raw types are judged there.
    let mut words = element(5, false, 2);
    words[0] |= 1 << 6;
    assert_eq!(judge(&file(&[words]), 2), refused(4, 0));
    assert_eq!(judge(&file(&[element(5, true, 2)]), 2), refused(5, 0));
    assert_eq!(
        judge(&file(&[cell(false, &[element(5, false, 2)])]), 2),
        refused(5, 46)
    );
}

// "A top-level element has depth 0; depth 8 is the deepest allowed (H)."
#[test]
fn depths() {
    let judged = judge(&file(&[nest(7, &[line(true)])]), 2).unwrap();
    assert_eq!((judged.elements, judged.deepest), (9, 8));
    assert_eq!(judge(&file(&[nest(8, &[])]), 2).unwrap().deepest, 8);
    assert_eq!(
        judge(&file(&[nest(8, &[line(true)])]), 2),
        refused(10, 9 * 46)
    );
    assert_eq!(judge(&file(&[nest(9, &[])]), 2), refused(10, 9 * 46));
}

// "Type 1 stands only at the top. Under 7 stand only elements of type 17.
// Under 12, 14 (H), 18 and 19 stands no header." and "18, 19 surface, solid:
// in a 2D file refused, 6". "Types 24, 27 and 87 are refused in the base."
#[test]
fn what_stands_where() {
    let under = |kind: u16, own: usize, component: Vec<u16>, dim: u64| {
        judge(&file(&[header(kind, false, own, &[component])]), dim).map(|judged| judged.elements)
    };
    for kind in [24, 27, 87] {
        assert_eq!(judge(&file(&[element(kind, false, 2)]), 2), refused(6, 0));
        assert_eq!(under(2, 46, element(kind, true, 2), 2), refused(6, 46));
    }
    for kind in [18, 19] {
        assert_eq!(
            judge(&file(&[header(kind, false, 21, &[])]), 2),
            refused(6, 0)
        );
        assert_eq!(
            judge(&file(&[header(kind, false, 21, &[])]), 3)
                .unwrap()
                .elements,
            1
        );
        assert_eq!(under(kind, 21, solid_text(true), 3), Ok(2));
        assert_eq!(
            under(kind, 21, header(12, true, 20, &[]), 3),
            refused(6, 21)
        );
    }
    let mut library = library_cell(&[]);
    library[0] |= 1 << 7;
    assert_eq!(under(2, 46, library.clone(), 2), refused(6, 46));
    assert_eq!(under(1, 35, library, 2), refused(6, 35));
    assert_eq!(under(7, 35, text(true), 2), Ok(2));
    assert_eq!(under(7, 35, line(true), 2), refused(6, 35));
    assert_eq!(under(7, 35, element(5, true, 2), 2), refused(6, 35));
    for kind in [12, 14] {
        assert_eq!(under(kind, 20, line(true), 2), Ok(2));
        assert_eq!(under(kind, 20, element(0, true, 2), 2), Ok(2));
        for (inner, own) in [(2, 46), (7, 35), (12, 20), (14, 20)] {
            assert_eq!(
                under(kind, 20, header(inner, true, own, &[]), 2),
                refused(6, 20)
            );
            assert_eq!(under(2, 46, header(inner, true, own, &[]), 2), Ok(2));
        }
    }
}

// "Fixed parts, in words (2D, 3D)": one word less is 7 for every type.
#[test]
fn fixed_parts() {
    let table: [(u16, usize, usize); 14] = [
        (1, 35, 35),
        (2, 46, 62),
        (3, 26, 30),
        (4, 27, 31),
        (6, 27, 31),
        (11, 27, 31),
        (21, 27, 31),
        (7, 35, 43),
        (12, 20, 20),
        (14, 20, 20),
        (15, 36, 46),
        (16, 40, 50),
        (17, 30, 38),
        (18, 0, 21),
    ];
    for (kind, flat, solid) in table {
        for (dim, size) in [(2, flat), (3, solid)] {
            if size == 0 {
                continue;
            }
            let make = |size: usize| {
                let mut words = element(kind, false, size);
                if [4, 6, 11, 21].contains(&kind) {
                    words[18] = 2;
                } else if size > 18 && ![3, 15, 16, 17].contains(&kind) {
                    words[18] = (size - 19) as u16;
                }
                file(&[words])
            };
            assert_eq!(judge(&make(size), dim).unwrap().elements, 1, "type {kind}");
            assert_eq!(judge(&make(size - 1), dim), refused(7, 0), "type {kind}");
        }
    }
    for size in [2, 3, 13, 18] {
        assert_eq!(judge(&file(&[element(4, false, size)]), 2), refused(7, 0));
    }
}

// "8 TOTAL: size above 65,535 words; extent ends before its header does, past
// its bound or above 65,535 words".
#[test]
fn totals() {
    use generate::large;
    assert_eq!(
        judge(&large::largest_element().file, 2).unwrap().marker,
        65_535
    );
    for size in [65_536, 65_537] {
        assert_eq!(judge(&large::element_too_large(size), 2), refused(8, 0));
    }
    // Too large and not all there: 3 comes first.
    let cut = &large::element_too_large(65_536)[..131_000];
    assert_eq!(judge(cut, 2), refused(3, 0));
    // Too large and not read: 6 comes first.
    let mut words = large::raw_of(65_536, false);
    words[0] = 24 << 8;
    assert_eq!(judge(&bytes_of(&words), 2), refused(6, 0));

    let with = |total: u16| {
        let mut words = cell(false, &[]);
        words[18] = total;
        judge(&file(&[words]), 2)
    };
    assert!(with(27).is_ok());
    assert_eq!(with(26), refused(8, 0));
    assert_eq!(with(29), refused(8, 0));
    // The bound of a component is the end of the enclosing extent.
    let mut words = cell(false, &[cell(true, &[])]);
    words.extend(line(false));
    words[46 + 18] += 1;
    assert_eq!(judge(&file(&[words]), 2), refused(8, 46));
    let nested = large::largest_extent_nested();
    let judged = judge(&nested.file, 2).unwrap();
    assert_eq!(
        (judged.elements, judged.deepest, judged.marker),
        (9, 8, 65_535)
    );
}

// "The attribute part begins at word 16 + word 15 (unsigned), not before the
// fixed part's end nor after the element's end, and runs to the element's end.
// Linkages fill it exactly."
#[test]
fn attribute_parts() {
    let with = |index: u16, tail: &[u16]| {
        let mut words = element(3, false, 26 + tail.len());
        words[15] = index;
        words[16] = 1 << 11;
        words[26..].copy_from_slice(tail);
        judge(&file(&[words]), 2).map(|judged| judged.elements)
    };
    let wrong = refused(11, 0);
    assert_eq!(with(10, &[]), Ok(1));
    assert_eq!(with(9, &[]), wrong);
    assert_eq!(with(11, &[]), wrong);
    assert_eq!(with(65535, &[]), wrong);
    assert_eq!(with(65520, &[]), wrong);
    // Words between the fixed part and the attribute part.
    assert_eq!(with(12, &[7, 7]), Ok(1));
    assert_eq!(with(10, &[7, 7]), wrong);
    // A user linkage: at least one word follows.
    assert_eq!(with(10, &[0x1001, 5]), Ok(1));
    assert_eq!(with(10, &[0xFF01, 5]), Ok(1));
    assert_eq!(with(10, &[0x1000, 5]), wrong);
    assert_eq!(with(10, &[0x1000]), wrong);
    assert_eq!(with(10, &[0x1002, 5]), wrong);
    // The other kind: four words, the first 0 or 32768.
    assert_eq!(with(10, &[0, 1, 2, 3]), Ok(1));
    assert_eq!(with(10, &[32768, 1, 2, 3]), Ok(1));
    assert_eq!(with(10, &[32769, 1, 2, 3]), wrong);
    assert_eq!(with(10, &[1, 1, 2, 3]), wrong);
    assert_eq!(with(10, &[0, 1, 2]), wrong);
    assert_eq!(with(10, &[0, 1, 2, 3, 0x1001, 5, 32768, 0, 0, 0]), Ok(1));
    // "With A clear there are none and word 15 is free."
    let mut words = line(false);
    words[15] = 65535;
    assert!(judge(&file(&[words]), 2).is_ok());
    // Type 1 and raw types carry no linkages: their word 16 is not looked at.
    let mut raw = element(5, false, 20);
    raw[16] = 1 << 11;
    let mut library = library_cell(&[]);
    library[16] = 1 << 11;
    assert!(judge(&file(&[raw, library]), 2).is_ok());
}

// "Code 29 and words above 63999 are refused."
#[test]
fn stored_names() {
    for (kind, own, at) in [(1, 35, 16), (2, 46, 19)] {
        for offset in [0, 1] {
            for bad in [64000, 65535, 29, 29 * 40, 29 * 1600] {
                let mut words = header(kind, false, own, &[]);
                words[at + offset] = bad;
                assert_eq!(judge(&file(&[words]), 2), refused(12, 0));
            }
            let mut words = header(kind, false, own, &[]);
            words[at + offset] = 63999;
            assert!(judge(&file(&[words]), 2).is_ok());
        }
    }
}

// "Word 19 of types 7, 12, 14, 18 and 19 counts the direct components." and
// "Skipping deleted components when adding up T" as an error.
#[test]
fn counts() {
    for (kind, own, dim) in [
        (7, 35, 2),
        (12, 20, 2),
        (14, 20, 2),
        (18, 21, 3),
        (19, 21, 3),
    ] {
        let live = if dim == 3 {
            solid_text(true)
        } else {
            text(true)
        };
        let mut dead = live.clone();
        dead[0] |= 1 << 15;
        let good = header(kind, false, own, &[live, dead]);
        assert_eq!(judge(&file(&[good.clone()]), dim).unwrap().elements, 3);
        for count in [0, 1, 3, 65535] {
            let mut words = good.clone();
            words[19] = count;
            assert_eq!(judge(&file(&[words]), dim), refused(9, 0));
        }
    }
}

// "A file ends at the first word 65535 met where a top-level element would
// begin. Words after it are not judged."
#[test]
fn words_after_the_marker() {
    let mut words = line(false);
    words.extend([MARKER, 24 << 8, 0, 1]);
    let judged = judge(&bytes_of(&words), 2).unwrap();
    assert_eq!(
        judged,
        Judged {
            elements: 1,
            deepest: 0,
            marker: 26
        }
    );
}

// "Judging reports the number of elements at all depths, the greatest depth
// (0 if none) and the marker's place."
#[test]
fn valid_files() {
    let mut random = Random::new(1);
    let mut seen_depth = [false; 9];
    for _ in 0..20_000 {
        let dim = generate::files::dimension(&mut random);
        let made = generate::valid(&mut random, dim);
        let wanted = Judged {
            elements: made.elements,
            deepest: made.deepest,
            marker: made.marker,
        };
        assert_eq!(judge(&made.file, dim), Ok(wanted));
        seen_depth[made.deepest as usize] = true;
    }
    assert!(seen_depth.iter().all(|&seen| seen));
}

// "The file's first fault decides." Each number at each depth.
#[test]
fn single_faults() {
    let mut random = Random::new(2);
    for number in [1, 2].into_iter().chain(ORDER) {
        for depth in 0..9 {
            for _ in 0..300 {
                let dim = generate::files::dimension(&mut random);
                let made = generate::aimed(&mut random, dim, number, depth);
                assert_eq!(judge(&made.file, made.dim), Err(made.refusal));
            }
        }
    }
}

// "The table's order is the order of checks ...: for one element, 3 to 12 as
// listed, then its components in order, then 9."
#[test]
fn two_faults_in_one_element() {
    let mut random = Random::new(3);
    for depth in 0..10 {
        for _ in 0..2000 {
            let dim = generate::files::dimension(&mut random);
            let made = generate::two_faults(&mut random, dim, depth);
            assert_eq!(judge(&made.file, made.dim), Err(made.refusal));
        }
    }
    for _ in 0..2000 {
        let made = generate::faults::component_before_count(&mut random, 2);
        assert_eq!(judge(&made.file, made.dim), Err(made.refusal));
    }
}

// The same order by hand: one cell with every fault, mended one by one.
#[test]
fn faults_mended_one_by_one() {
    let mut bad = cell(true, &[]);
    bad[0] = (bad[0] | 1 << 6) & !(1 << 7);
    bad[1] = 60_000;
    bad[16] = 1 << 11;
    bad[18] = 0;
    bad[20] = 64_000;
    let place = 8 * 46;
    let at = |words: &[u16], depth: u64| {
        let mut list = vec![words.to_vec()];
        if depth == 9 {
            list = vec![cell(true, &list)];
        }
        judge(&file(&[nest(7, &list)]), 2)
    };
    let deep = place + 46;
    assert_eq!(at(&bad, 9), refused(3, deep));
    bad[1] = 44;
    assert_eq!(at(&bad, 9), refused(4, deep));
    bad[0] &= !(1 << 6);
    assert_eq!(at(&bad, 9), refused(5, deep));
    bad[0] |= 1 << 7;
    assert_eq!(at(&bad, 9), refused(10, deep));
    bad[0] = bad[0] & 0x00FF | 24 << 8;
    assert_eq!(at(&bad, 9), refused(10, deep));
    assert_eq!(at(&bad, 8), refused(6, place));
    bad[0] = bad[0] & 0x00FF | 2 << 8;
    let mut short = bad[..45].to_vec();
    short[1] = 43;
    assert_eq!(at(&short, 8), refused(7, place));
    assert_eq!(at(&bad, 8), refused(8, place));
    bad[18] = 27;
    assert_eq!(at(&bad, 8), refused(11, place));
    bad[15] = 30;
    assert_eq!(at(&bad, 8), refused(12, place));
    bad[20] = 0;
    assert!(at(&bad, 8).is_ok());
}
