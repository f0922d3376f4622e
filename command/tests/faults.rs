//! The part at fault: every element of every good file is damaged in turn, and the part that is named is the innermost cell
//! around it, else the last before it.

use dgn::{Dimension, Type, View};
use dgn_command::faults;
use dgn_command::files::Taken;
use std::path::{Path, PathBuf};

const ROOT: &str = concat!(env!("CARGO_MANIFEST_DIR"), "/..");

fn files() -> Vec<PathBuf> {
    let folders = ["samples", "tests/real", "tests/real/texts", "tests/real/curves"];
    let mut files: Vec<PathBuf> = folders
        .iter()
        .flat_map(|folder| std::fs::read_dir(Path::new(ROOT).join(folder)).expect("a folder"))
        .map(|entry| entry.expect("an entry").path())
        .filter(|path| path.extension().is_some_and(|ending| ending == "dgn" || ending == "cel"))
        .collect();
    files.sort();
    files
}

/// The place of the cell that is due for a fault at the element number k, and whether that is around it.
fn due(views: &[View], k: usize) -> Option<(usize, bool)> {
    let mut around = views[k].header;
    while let Some(place) = around {
        let header = views.iter().find(|view| view.place == place).expect("a header");
        if header.name.is_some() {
            return Some((place, true));
        }
        around = header.header;
    }
    views[..k].iter().rfind(|view| view.name.is_some()).map(|view| (view.place, false))
}

fn near(bytes: &[u8], dimension: Dimension, place: usize, beneath: bool) -> Option<(usize, bool)> {
    let refusal = dgn::judge(bytes, dimension).expect_err("a damaged file");
    assert_eq!(refusal.place, place);
    assert_eq!(faults::of(bytes, dimension, refusal).beneath, beneath);
    faults::of(bytes, dimension, refusal).near.map(|near| (near.place, near.inside))
}

#[test]
fn a_reserved_bit_in_every_element() {
    let mut tried = 0;
    for path in files() {
        let bytes = std::fs::read(&path).expect("a file");
        let taken = Taken::of(&bytes, None);
        if taken.judged.is_err() {
            continue;
        }
        let views = dgn::all_views(&bytes, taken.dimension).expect("a good file");
        for (k, view) in views.iter().enumerate().filter(|(_, view)| view.kind != Type::Raw(9)) {
            let mut damaged = bytes.clone();
            damaged[2 * view.place] |= 0x40;
            assert_eq!(
                near(&damaged, taken.dimension, view.place, view.depth > 0),
                due(&views, k),
                "{path:?} at {}",
                view.place
            );
            tried += 1;
        }
    }
    assert!(tried > 200, "{tried} elements");
}

#[test]
fn the_end_cut_off_at_every_element() {
    for path in files() {
        let bytes = std::fs::read(&path).expect("a file");
        let taken = Taken::of(&bytes, None);
        if taken.judged.is_err() {
            continue;
        }
        let views = dgn::all_views(&bytes, taken.dimension).expect("a good file");
        for (k, view) in views.iter().enumerate().filter(|(_, view)| view.depth == 0) {
            // behind it nothing is left
            let cut = &bytes[..2 * view.place];
            let refusal = dgn::judge(cut, taken.dimension).expect_err("a cut file");
            assert_eq!(refusal.place, view.place);
            let near = faults::of(cut, taken.dimension, refusal).near.map(|near| (near.place, near.inside));
            assert_eq!(near, due(&views, k), "{path:?} at {}", view.place);
        }
    }
}

/// A fault far from the beginning of a header that counts its components, in a cell.
#[test]
fn in_a_long_chain() {
    let line = |component| {
        let fields = dgn::Fields { component, ..dgn::Fields::new(Type::Line) };
        let mut buffer = [0; 64];
        let words = dgn::write(&fields, &[0; 4], &[], Dimension::Two, &mut buffer).expect("a line");
        buffer[..2 * words].to_vec()
    };
    let lines = 2000;
    // a chain of lines in a cell; of both the words 0, 1, 18 (the total) and 19 (the count of the chain) are put
    let put = |words: usize, first: u16, total: usize, count: usize| {
        let mut bytes = vec![0; 2 * words];
        for (word, value) in [(0, first), (1, words as u16 - 2), (18, total as u16), (19, count as u16)] {
            bytes[2 * word..2 * word + 2].copy_from_slice(&value.to_le_bytes());
        }
        bytes
    };
    let mut file = put(46, 2 << 8, 27 + 20 + 26 * lines, 0);
    file.extend(put(20, 12 << 8 | 128, 1 + 26 * lines, lines));
    file.extend(line(true).repeat(lines));
    file.extend(dgn::END_MARKER);
    let judged = dgn::judge(&file, Dimension::Two).expect("a good file");
    assert_eq!(judged.elements, lines + 2);
    for k in [0, 1, 2, 1000, 1998, 1999] {
        let place = 66 + 26 * k;
        let mut damaged = file.clone();
        damaged[2 * place] |= 0x40;
        assert_eq!(near(&damaged, Dimension::Two, place, true), Some((0, true)), "line {k}");
    }
}
