//! Files of every kind, made from a seed, handed to every reading call of both readers.

use crate::runs::{small_or_huge, Runs};
use reader::generate::places::scan;
use reader::generate::{aimed, changes, faults, files, large, texts, two_faults, valid, Aimed, Random, Valid, ORDER};

/// A valid file: both give the numbers that it was made with, and every call at the start of each element agrees.
fn accepted(random: &mut Random, runs: &mut Runs, v: &Valid) {
    let judged = runs.all(random, &v.file, v.dim);
    assert_eq!(judged.map(|j| (j.elements, j.deepest, j.marker)), Ok((v.elements, v.deepest, v.marker)));
    for s in scan(&v.file).0 {
        let k = small_or_huge(random);
        runs.at(&v.file, v.dim, s.place, k);
    }
    runs.seen.accepted(&v.file, v.dim);
}

/// A file with a fault: both answer the refusal that it was made for, in every call.
fn refused(random: &mut Random, runs: &mut Runs, a: &Aimed) {
    let judged = runs.all(random, &a.file, a.dim);
    assert_eq!(judged, Err(a.refusal.clone()));
}

/// One file: valid, with aimed or double faults, with a word or a part of a text changed, or of bytes that are hardly a
/// file.
pub fn generated(random: &mut Random, runs: &mut Runs) {
    let dim = files::dimension(random);
    match random.below(10) {
        0..=3 => {
            let v = valid(random, dim);
            accepted(random, runs, &v);
        }
        4..=5 => {
            let number = random.pick(&ORDER);
            let depth = random.below(9);
            let a = aimed(random, dim, number, depth);
            refused(random, runs, &a);
        }
        6 => {
            let depth = random.below(10);
            let a = two_faults(random, dim, depth);
            refused(random, runs, &a);
        }
        7..=8 => {
            let mut v = valid(random, dim).file;
            if random.one_in(3) {
                changes::change_text(random, &mut v, dim);
            } else {
                changes::change_word(random, &mut v);
            }
            let other = if random.one_in(8) { random.below(6) } else { dim };
            let _ = runs.all(random, &v, other);
        }
        _ => {
            let bytes = if random.one_in(2) { changes::random_bytes(random) } else { changes::soup(random) };
            let _ = runs.all(random, &bytes, dim);
        }
    }
}

/// Each number that judging can answer, aimed at an element of each depth, and two faults in one element.
pub fn numbers(random: &mut Random, runs: &mut Runs, times: u64) {
    for dim in [2, 3] {
        for depth in 0..=9 {
            for _ in 0..times {
                for number in (1..=12).chain([20, 21]) {
                    let a = aimed(random, dim, number, depth);
                    refused(random, runs, &a);
                    let stands = match number {
                        1 | 2 => 0,
                        10 => 9,
                        _ => depth.min(8),
                    };
                    runs.seen.refused(number, stands);
                }
                let a = two_faults(random, dim, depth);
                refused(random, runs, &a);
                let a = faults::component_before_count(random, dim);
                refused(random, runs, &a);
            }
        }
    }
    runs.seen.check_refused();
}

/// Small valid files cut before each word, and every call at every place of them.
pub fn cuts(random: &mut Random, runs: &mut Runs, times: u64) {
    for _ in 0..times {
        let dim = files::dimension(random);
        let v = valid(random, dim);
        for cut in changes::cuts(&v.file) {
            let _ = runs.all(random, cut, dim);
        }
        runs.everywhere(&v.file, dim);
        let a = faults::component_before_count(random, dim);
        runs.everywhere(&a.file, dim);
    }
}

/// The exact limits, and lengths that are refused.
pub fn limits(random: &mut Random, runs: &mut Runs) {
    let check = |random: &mut Random, runs: &mut Runs, v: Valid, ks: &[u64]| {
        let judged = runs.all(random, &v.file, v.dim);
        assert_eq!(judged.map(|j| (j.elements, j.deepest, j.marker)), Ok((v.elements, v.deepest, v.marker)));
        let (starts, marker) = scan(&v.file);
        let last = starts.last().map_or(0, |s| s.place);
        for p in [0, last, marker.saturating_sub(1), marker, marker + 1] {
            for &k in ks {
                runs.at(&v.file, v.dim, p, k);
            }
        }
        runs.find(&v.file, v.dim, b"00417");
        runs.find(&v.file, v.dim, b"999999");
    };
    check(random, runs, large::largest_extent(), &[0]);
    check(random, runs, large::largest_extent_nested(), &[0]);
    check(random, runs, large::largest_element(), &[0]);
    for dim in [2, 3] {
        let v = large::most_points(random, dim);
        check(random, runs, v, &[0, 99, 100, 101, 102]);
        let v = large::long_names(random, dim);
        check(random, runs, v, &[0]);
        let v = large::most_text(random, dim);
        check(random, runs, v, &[0]);
        let v = large::most_texts(random, dim);
        check(random, runs, v, &[0]);
        for (size, bad) in [(65_535, true), (65_536, true), (65_536, false), (65_537, false)] {
            let _ = runs.all(random, &large::text_too_large(size, dim, bad), dim);
        }
    }
    check(random, runs, large::most_elements(), &[0]);
    check(random, runs, large::longest_file(), &[0]);
    check(random, runs, large::longest_file_of_cells(), &[0]);
    check(random, runs, large::most_linkages(), &[0, 16_376, 16_377]);
    for file in [
        large::total_too_large(),
        large::element_too_large(65_536),
        large::element_too_large(65_537),
        large::oversize_file(),
        vec![],
        vec![0],
        vec![255, 255],
        vec![0; 1_048_577],
        vec![0; 1_048_578],
    ] {
        for dim in [0, 1, 2, 3, 4, u64::MAX] {
            let _ = runs.all(random, &file, dim);
        }
    }
}

/// Every word as either word of a name: unpacked beside nothing, three letters, itself and any other word, and judged in a
/// cell whose other word is nothing.
pub fn name_words(runs: &mut Runs) {
    let cell = files::finish(&[large::cell_of(48)], 2, &[]).file;
    let mut accepted = [0; 2];
    for w in 0..=u16::MAX {
        for other in [0, 51_080, w, w.rotate_left(7)] {
            runs.unpack(w, other);
            runs.unpack(other, w);
        }
        for (half, count) in accepted.iter_mut().enumerate() {
            let mut file = cell.clone();
            let at = 2 * (19 + half);
            file[at..at + 2].copy_from_slice(&w.to_le_bytes());
            *count += u32::from(runs.judge(&file, 2).is_ok());
        }
    }
    // 39 letters at each of three places
    assert_eq!(accepted, [39 * 39 * 39; 2]);
}

/// Texts and word pairs: every text of two bytes or fewer, and any others.
pub fn names(random: &mut Random, runs: &mut Runs, times: u64) {
    for w in 0..=u16::MAX {
        let [a, b] = w.to_le_bytes();
        runs.pack(&[a, b]);
        runs.pack(&[b'A', a, b]);
    }
    runs.pack(&[]);
    for a in 0..=u8::MAX {
        runs.pack(&[a]);
        runs.pack(&[b'0', b'0', b'4', b'1', b'7', a]);
    }
    for _ in 0..times {
        runs.pack(&texts::any_text(random));
        let (first, second) = texts::name_words(random);
        runs.unpack(first, second);
        let bad = texts::bad_name_word(random);
        runs.unpack(first, bad);
        runs.unpack(bad, second);
        // above 16 bits there is no word, so no letters either
        let far = (1 << (16 + random.below(48))) + u64::from(first);
        let no_name = Err(reader::Refusal { number: 12, place: 0 });
        assert_eq!(crate::library::unpack(far, 0), no_name);
        assert_eq!(crate::library::unpack(0, far), no_name);
    }
}
