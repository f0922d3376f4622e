//! The index of a file built, its cells listed, and names looked up in an index that is built, stale, damaged or none.

use crate::guard::Side;
use crate::library;
use crate::runs::Runs;
use reader::generate::cells::{cells, text_for};
use reader::generate::indexes::{any_index, built, room};
use reader::generate::{aimed, changes, large, texts, valid, Random, ORDER};
use reader::{FindRefusal, Found, Index};

/// A file that is accepted, has a fault or was changed.
fn file(random: &mut Random, dim: u64) -> Vec<u8> {
    match random.below(8) {
        0..=3 => cells(random, dim).file,
        4 | 5 => valid(random, dim).file,
        6 => {
            let (number, depth) = (random.pick(&ORDER), random.below(9));
            aimed(random, dim, number, depth).file
        }
        _ => {
            let mut file = cells(random, dim).file;
            changes::change_word(random, &mut file);
            file
        }
    }
}

/// Small files, each with buffers of every length around the exact one, and of any.
pub fn lengths(random: &mut Random, runs: &mut Runs, times: u64) {
    for k in 0..times {
        library::lend_at(if k % 2 == 0 { Side::Before } else { Side::Behind }, k % 8 == 0);
        let dim = 2 + random.below(2);
        let file = file(random, dim);
        let number = reader::index::entries(&file, dim).map_or(0, |entries| entries.len());
        let exact = 8 * number;
        for length in exact.saturating_sub(9)..=exact + 9 {
            runs.index(&file, dim, length);
        }
        let any = room(random, number).len();
        runs.index(&file, dim, any);
        runs.index(&file, dim, 0);
        runs.files += 1;
    }
    library::lend_at(Side::Behind, false);
}

/// Names looked up: of an index as built every name of the file, at the place that the finder gives; and texts of all sorts in
/// indexes of all sorts.
pub fn look_ups(random: &mut Random, runs: &mut Runs, times: u64) {
    for k in 0..times {
        library::lend_at(if k % 2 == 0 { Side::Before } else { Side::Behind }, k % 8 == 0);
        let dim = 2 + random.below(2);
        let file = file(random, dim);
        if reader::judge(&file, dim).is_ok() {
            let index = built(random, &file, dim);
            for _ in 0..4 {
                let text = if random.one_in(4) { texts::any_text(random) } else { text_for(random, &file) };
                let outcome = |answer: Result<Found, FindRefusal>| answer.map(|found| found.place).map_err(|refused| refused.number);
                let found = outcome(library::find_with_deleted(&file, dim, &text));
                assert_eq!(outcome(runs.look_up_with_deleted(&index, &text)), found, "{text:?}");
                let live = outcome(library::find(&file, dim, &text));
                assert_eq!(outcome(runs.look_up(&file, dim, &index, &text)), live, "{text:?}");
            }
        }
        let index = any_index(random, &file, dim);
        for _ in 0..4 {
            let text = if random.one_in(4) { texts::any_text(random) } else { text_for(random, &file) };
            let _ = runs.look_up_with_deleted(&index, &text);
            let _ = runs.look_up(&file, dim, &index, &text);
        }
        runs.files += 1;
    }
    library::lend_at(Side::Behind, false);
}

/// Each number of entries to some, and each name of them, before, between and behind them: the looks are at most one more than the
/// binary digits of their number.
pub fn looks(runs: &mut Runs) {
    for number in 0..70u64 {
        // names of the words 2, 4, 6, ..
        let words = |k: u64| [2 * k as u16 + 2, 0, 0, k as u16];
        let buffer: Vec<u8> = (0..number).flat_map(words).flat_map(u16::to_le_bytes).collect();
        let index = Index { used: buffer.len() as u64, buffer };
        for word in 0..2 * number as u16 + 4 {
            let Ok(text) = reader::unpack(word, 0) else { continue };
            let looked = runs.look_up_with_deleted(&index, &text);
            let looks = looked.as_ref().map_or_else(|refused| refused.count, |found| found.looked);
            assert!(looks <= u64::from(u64::BITS - number.leading_zeros()) + 1);
            let there = word % 2 == 0 && (1..=2 * number).contains(&u64::from(word));
            assert_eq!(looked.map(|found| found.place).ok(), there.then(|| u64::from(word) / 2 - 1));
        }
    }
}

/// The files of the most cells, of one name and of many, and the largest of other sorts.
pub fn largest(random: &mut Random, runs: &mut Runs) {
    for names in [1, 2, 300, 14_979] {
        let v = large::most_cells(names);
        for length in [119_831, 119_832, 119_833, 119_840, 1_048_578] {
            runs.index(&v.file, v.dim, length);
        }
        let index = built(random, &v.file, v.dim);
        assert_eq!(index.used, 119_832);
        for _ in 0..200 {
            let cells = 1 + random.index(14_979);
            let text = text_for(random, &v.file[..70 * cells]);
            let found = library::find_with_deleted(&v.file, v.dim, &text).map(|found| found.place).ok();
            assert_eq!(runs.look_up_with_deleted(&index, &text).map(|found| found.place).ok(), found);
            let live = library::find(&v.file, v.dim, &text).map(|found| found.place).ok();
            assert_eq!(runs.look_up(&v.file, v.dim, &index, &text).map(|found| found.place).ok(), live);
        }
    }
    for v in [large::most_elements(), large::longest_file_of_cells(), large::largest_extent_nested()] {
        for length in [0, 8, 119_832, 1_048_578] {
            runs.index(&v.file, v.dim, length);
        }
    }
}
