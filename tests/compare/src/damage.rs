//! What could damage the caller: bytes outside of what is lent, stores to what is lent to be read, a deep stack.

use crate::guard::Side;
use crate::library;
use crate::runs::Runs;
use crate::sessions;
use reader::generate::places::scan;
use reader::generate::text_writes::{long_text, TextWrite};
use reader::generate::writes::{long_line, Write};
use reader::generate::{changes, large, valid, Random, Valid};
use reader::Index;

/// The lengths at which a call could go wrong: none, one byte, odd ones, the longest allowed, one word more.
const LENGTHS: [usize; 8] = [0, 1, 2, 3, 4097, 1_048_575, 1_048_576, 1_048_578];

/// Contents for a length: all bytes alike, any bytes, a file cut off or filled up, and two-word elements of which the
/// last has a size far beyond the end.
fn contents(random: &mut Random, length: usize) -> Vec<Vec<u8>> {
    let mut longest = large::longest_file().file;
    longest.resize(length, 0);
    let mut cells = large::longest_file_of_cells().file;
    cells.resize(length, 255);
    let mut far = longest.clone();
    if length >= 4 {
        let at = (length / 4 - 1) * 4;
        far[at..at + 4].copy_from_slice(&[0, 5, 253, 255]);
    }
    vec![vec![0; length], vec![255; length], random.bytes(length), longest, cells, far]
}

/// Every call on slices of these lengths, next to either page, with no right to write what is to be read.
pub fn lengths(random: &mut Random, runs: &mut Runs) {
    for length in LENGTHS {
        for bytes in contents(random, length) {
            for side in [Side::Before, Side::Behind] {
                library::lend_at(side, true);
                for dim in [2, 3] {
                    let _ = runs.judge(&bytes, dim);
                    for p in [0, 1, length as u64 / 2, u64::MAX] {
                        runs.at(&bytes, dim, p, 0);
                    }
                    runs.find(&bytes, dim, b"00417");
                    for (k, room) in [(0, 0), (0, 96), (u64::MAX, 0)] {
                        runs.part(&bytes, dim, k, room);
                    }
                    runs.index(&bytes, dim, length);
                }
                for used in [0, 12, length as u64, u64::MAX] {
                    let _ = runs.record(&bytes, used);
                }
                runs.find(&[255, 255], 2, &bytes);
                runs.pack(&bytes);
                // as an index, and as a text that is looked up
                let index = Index { used: length as u64 / 8 * 8, buffer: bytes.clone() };
                for text in [&b"00417"[..], b"", b"999999"] {
                    let _ = runs.look_up_with_deleted(&index, text);
                }
                let _ = runs.look_up_with_deleted(&Index { buffer: vec![0; 8], used: 8 }, &bytes);
                // as the tail, and as the room, of a written element
                runs.write(&Write { tail: bytes.clone(), room: length, fill: 7, ..long_line(26) });
                runs.write(&Write { room: length, fill: 7, ..long_line(26) });
                // and of a written text; as its characters, and as its fields
                runs.write_text(&TextWrite { tail: bytes.clone(), room: length, fill: 7, ..long_text(30, 2) });
                runs.write_text(&TextWrite { characters: bytes.clone(), room: 4096, fill: 7, ..long_text(38, 3) });
                runs.write_text(&TextWrite { fields: bytes.clone(), room: 4096, fill: 7, ..long_text(30, 2) });
                runs.unpack(65535, 0);
                runs.unpack(63999, 63999);
            }
        }
        // as many coordinates
        let most = length.min(library::MOST_COORDINATES);
        for side in [Side::Before, Side::Behind] {
            library::lend_at(side, true);
            for kind in [3, 4] {
                let mut w = Write { points: vec![-1; most], room: 4096, fill: 7, ..long_line(26) };
                w.fields.kind = kind;
                runs.write(&w);
            }
        }
    }
    library::lend_at(Side::Behind, false);
}

/// Small files cut before each word, each cut next to either page: every word of an element is once the last before it.
pub fn cut_at_a_page(random: &mut Random, runs: &mut Runs, times: u64) {
    for _ in 0..times {
        let dim = 2 + random.below(2);
        let v = valid(random, dim);
        let starts = scan(&v.file).0;
        for cut in changes::cuts(&v.file) {
            for side in [Side::Before, Side::Behind] {
                library::lend_at(side, true);
                let _ = runs.judge(cut, dim);
                if let Some(s) = starts.iter().rfind(|s| 2 * s.place <= cut.len() as u64) {
                    runs.at(cut, dim, s.place, 0);
                }
                runs.find(cut, dim, b"00417");
                runs.part(cut, dim, 1, 64);
                runs.index(cut, dim, 24);
            }
        }
    }
    library::lend_at(Side::Behind, false);
}

/// Every call on the most elements, the longest files and the deepest nesting in a stack of 256 KiB.
pub fn small_stack() {
    let mut random = Random::new(3);
    let deep = loop {
        let v = valid(&mut random, 2);
        if v.deepest == 8 {
            break v;
        }
    };
    let files: [Valid; 9] = [
        large::most_elements(),
        large::longest_file(),
        large::longest_file_of_cells(),
        large::largest_extent_nested(),
        large::most_linkages(),
        large::most_text(&mut random, 3),
        large::most_texts(&mut random, 2),
        large::most_cells(417),
        deep,
    ];
    for v in files {
        // the deepest element, the last of them
        let deepest = scan(&v.file).0.iter().rfind(|s| s.depth == v.deepest).map_or(0, |s| s.place);
        let run = move || {
            let mut runs = Runs::default();
            let judged = runs.judge(&v.file, v.dim);
            assert_eq!(judged.map(|j| (j.elements, j.deepest)), Ok((v.elements, v.deepest)));
            runs.at(&v.file, v.dim, deepest, 0);
            runs.numbered(&v.file, v.dim, deepest, 16_376);
            runs.find(&v.file, v.dim, b"NONE");
            runs.part(&v.file, v.dim, v.elements.saturating_sub(2), 400);
            runs.write(&long_line(65_535));
            runs.write_text(&long_text(65_535, 3));
            runs.unpack(63_999, 63_999);
            runs.index(&v.file, v.dim, 119_832);
            sessions::large_session(&mut runs, &v.file, v.dim, false);
            sessions::large_session(&mut runs, &v.file, v.dim, true);
        };
        std::thread::Builder::new().stack_size(256 * 1024).spawn(run).unwrap().join().expect("256 KiB are enough");
    }
}
