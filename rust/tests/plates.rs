//! Plates: of one cell, of all of a file, and on all samples and real files as the views of the elements say.

mod common;

use common::{cell, sample, TWO};
use dgn::{Dimension, Number, Plate, PlateAt, Refusal, Type, View};
use std::path::Path;

const THREE: Dimension = Dimension::Three;

fn refused(number: Number, place: usize) -> Refusal {
    Refusal { number, place, count: 0 }
}

/// An element of so many words beneath a header, all zeros but its first two.
fn component(kind: u16, size: u16) -> Vec<u16> {
    let mut words = vec![kind << 8 | 1 << 7, size - 2];
    words.resize(size.into(), 0);
    words
}

/// The same, marked deleted.
fn deleted(mut words: Vec<u16>) -> Vec<u16> {
    words[0] |= 1 << 15;
    words
}

/// A 2D cell of no name with a mask and components.
fn header(mask: [u16; 4], under: &[Vec<u16>]) -> Vec<u16> {
    let mut words = component(2, 46);
    words.extend(under.concat());
    words[18] = words.len() as u16 - 19;
    words[22..26].copy_from_slice(&mask);
    words
}

/// A file of one cell.
fn file(mut words: Vec<u16>) -> Vec<u8> {
    words[0] &= !(1 << 7);
    words.push(65_535);
    words.iter().flat_map(|word| word.to_le_bytes()).collect()
}

/// A line string, a shape, a curve or a pole of two points.
fn pointed(kind: u16) -> Vec<u16> {
    let mut words = component(kind, 27);
    words[18] = 2;
    words
}

/// The counts and levels of the plate at 0.
fn counted(words: Vec<u16>) -> ([usize; 6], usize) {
    let file = file(words);
    let plate = dgn::plate(&file, TWO, 0).expect("a cell");
    assert_eq!(dgn::all_plates(&file, TWO).unwrap()[0], PlateAt { place: 0, deleted: false, plate });
    (plate.counts(), plate.levels)
}

#[test]
fn of_one_cell() {
    let name = dgn::pack("00417").unwrap();
    let plate = Plate { name, lines: 0, pointed: 0, texts: 0, curves: 0, headers: 0, others: 0, levels: 0 };
    assert_eq!(dgn::plate(&cell(), TWO, 0), Ok(plate), "its line is deleted");
    // a cell with nothing in it, of a code without letters
    assert_eq!(counted(header([0; 4], &[])), ([0; 6], 0));
    assert_eq!(dgn::unpack(dgn::plate(&file(header([0; 4], &[])), TWO, 0).unwrap().name).as_deref(), Ok(""));
    // one of each kind, a cell with another line in it among them, and each once more, deleted
    let inner = header([1; 4], &[component(3, 26)]);
    let mut once = vec![component(3, 26), pointed(4), component(17, 30), component(15, 36), inner, component(5, 2)];
    once.extend(once.clone().into_iter().map(deleted));
    assert_eq!(counted(header([0; 4], &once)), ([1; 6], 0));
    // all types of a kind
    let all = [4, 6, 11, 21].map(pointed).into_iter().chain([15, 16].map(|kind| component(kind, 40)));
    assert_eq!(counted(header([0; 4], &all.collect::<Vec<_>>())), ([0, 4, 0, 2, 0, 0], 0));
    // masks: none, all, one bit in one word
    assert_eq!(counted(header([65_535; 4], &[])), ([0; 6], 64));
    for (word, bit) in (0..4).flat_map(|word| (0..16).map(move |bit| (word, bit))) {
        let mut mask = [0; 4];
        mask[word] = 1 << bit;
        assert_eq!(counted(header(mask, &[])), ([0; 6], 1));
    }
}

#[test]
fn refused_readings() {
    let file = cell();
    assert_eq!(dgn::plate(&file, TWO, 46), Err(refused(Number::NotACell, 0)));
    for place in [1, 72, usize::MAX] {
        assert_eq!(dgn::plate(&file, TWO, place), Err(refused(Number::NoSuch, 0)));
    }
    assert_eq!(dgn::plate(&file, THREE, 0), Err(refused(Number::Short, 0)));
    let shortened = sample("shortened.cel");
    assert_eq!(dgn::plate(&shortened, TWO, 0), Err(refused(Number::Cut, 155)));
    assert_eq!(dgn::all_plates(&shortened, TWO), Err(refused(Number::Cut, 155)));
    for len in [1, dgn::FILE_BYTES + 2] {
        assert_eq!(dgn::all_plates(&vec![255; len], TWO), Err(refused(Number::Call, 0)));
    }
}

#[test]
fn all_in_parts() {
    let file = sample("seals.cel");
    let all = dgn::all_plates(&file, TWO).unwrap();
    let shown: Vec<_> = all.iter().map(|at| (at.place, at.deleted, at.plate.counts(), at.plate.name)).collect();
    let name = |code| dgn::pack(code).unwrap();
    let wanted = [
        (0, false, [2, 2, 0, 0, 0, 0], name("00417")),
        (181, false, [0, 2, 0, 0, 0, 0], name("417")),
        (286, false, [1, 1, 0, 0, 0, 0], name("PUMP.1")),
        (386, false, [0; 6], name("EMPTY")),
    ];
    assert_eq!(shown, wanted);
    let elements = dgn::judge(&file, TWO).unwrap().elements;
    for room in 11..60 {
        let (mut numbers, mut k, mut got) = (vec![7; room], 0, Vec::new());
        while k < elements {
            let part = dgn::plates(&file, TWO, k, &mut numbers).unwrap();
            assert_eq!(part.len(), (all.len() - got.len()).min(room / 11));
            k = part.next_element;
            got.extend(part);
        }
        assert_eq!((k, &got), (elements, &all));
    }
    let room = |k: usize, room: usize| {
        let mut numbers = vec![7; room];
        let answer = dgn::plates(&file, TWO, k, &mut numbers).map(|part| part.next_element);
        assert!(numbers.iter().all(|&number| number == 7), "nothing is written");
        answer
    };
    assert_eq!(room(0, 10), Err(refused(Number::Room, 0)));
    assert_eq!(room(elements, 0), Ok(elements));
    assert_eq!(room(417, 0), Ok(417));
}

/// The kind of a type on a plate, by its place among the counts.
fn kind(kind: Type) -> usize {
    match kind {
        Type::Line => 0,
        Type::LineString | Type::Shape | Type::Curve | Type::BsplinePole => 1,
        Type::Text => 2,
        Type::Ellipse | Type::Arc => 3,
        Type::Raw(_) => 5,
        _ => 4,
    }
}

/// The plates as the views say: of the elements that have a cell as their direct header, and of the words of its mask.
fn by_views(file: &[u8], views: &[View]) -> Vec<PlateAt> {
    let word = |place: usize| u16::from_le_bytes([file[2 * place], file[2 * place + 1]]);
    let cells = views.iter().filter_map(|cell| cell.name.map(|name| (cell, name)));
    let of = |(cell, name): (&View, _)| {
        let mut counts = [0; 6];
        for under in views.iter().filter(|view| view.header == Some(cell.place) && !view.deleted) {
            counts[kind(under.kind)] += 1;
        }
        let [lines, pointed, texts, curves, headers, others] = counts;
        let levels = (22..26).map(|k| word(cell.place + k).count_ones() as usize).sum();
        let plate = Plate { name, lines, pointed, texts, curves, headers, others, levels };
        PlateAt { place: cell.place, deleted: cell.deleted, plate }
    };
    cells.map(of).collect()
}

#[test]
fn as_by_views() {
    let (mut files, mut plates, mut dead) = (0, 0, 0);
    for folder in ["samples", "tests/real", "tests/real/texts", "tests/real/curves"] {
        let folder = Path::new(env!("CARGO_MANIFEST_DIR")).join("..").join(folder);
        for entry in std::fs::read_dir(folder).expect("a folder") {
            let path = entry.expect("an entry").path();
            if !path.extension().is_some_and(|ending| ending == "dgn" || ending == "cel") {
                continue;
            }
            let file = std::fs::read(&path).expect("a file");
            for dimension in [TWO, THREE] {
                let all = dgn::all_plates(&file, dimension);
                match dgn::all_views(&file, dimension) {
                    Err(refusal) => assert_eq!(all, Err(refusal), "{path:?}"),
                    Ok(views) => {
                        let all = all.unwrap_or_else(|refusal| panic!("{path:?}: {refusal}"));
                        assert_eq!(all, by_views(&file, &views), "{path:?}");
                        for view in &views {
                            let one = all.iter().find(|at| at.place == view.place).map(|at| at.plate);
                            let wanted = one.ok_or(refused(Number::NotACell, 0));
                            assert_eq!(dgn::plate(&file, dimension, view.place), wanted, "{path:?}");
                        }
                        files += 1;
                        plates += all.len();
                        dead += all.iter().filter(|at| at.deleted).count();
                    }
                }
            }
        }
    }
    assert!(files > 40 && plates > 50 && dead > 2, "{files} {plates} {dead}");
}
