//! Catalogue plates, by the call and as the program prints them.

mod common;
use common::*;
use reader::generate::places::scan;
use reader::generate::{self, changes, Random};
use reader::*;

fn dead(mut words: Vec<u16>) -> Vec<u16> {
    words[0] |= 1 << 15;
    words
}

fn printed(input: &[u8]) -> String {
    String::from_utf8(platelist(input)).unwrap()
}

fn counts(bytes: &[u8], dim: u64, place: u64) -> [u64; 6] {
    plate(bytes, dim, place).unwrap().counts
}

// "number of direct components by kind (line; types 4, 6, 11, 21; 17; 15, 16;
// headers; other)".
#[test]
fn kinds() {
    let slots: [(Vec<u16>, usize); 14] = [
        (line(true), 0),
        (points(4, true, 2), 1),
        (points(6, true, 2), 1),
        (points(11, true, 2), 1),
        (points(21, true, 2), 1),
        (text(true), 2),
        (element(15, true, 36), 3),
        (element(16, true, 40), 3),
        (cell(true, &[]), 4),
        (header(7, true, 35, &[]), 4),
        (header(12, true, 20, &[]), 4),
        (header(14, true, 20, &[]), 4),
        (element(5, true, 2), 5),
        (element(9, true, 14), 5),
    ];
    for (component, slot) in &slots {
        for number in 0..3 {
            let under = vec![component.clone(); number];
            let mut wanted = [0; 6];
            wanted[*slot] = number as u64;
            assert_eq!(counts(&file(&[cell(false, &under)]), 2, 0), wanted);
            assert_eq!(counts(&file(&[library_cell(&under)]), 2, 0), wanted);
            // "Deleted components don't count".
            let under = vec![dead(component.clone()); number];
            assert_eq!(counts(&file(&[cell(false, &under)]), 2, 0), [0; 6]);
        }
    }
    for kind in [18, 19] {
        let solid = header(kind, true, 21, &[]);
        let cell = header(2, false, 62, &[solid]);
        assert_eq!(counts(&file(&[cell]), 3, 0), [0, 0, 0, 0, 1, 0]);
    }
    for kind in (0..128).filter(|kind| ![24, 27, 87].contains(kind)) {
        let raw = match kind {
            1..=4 | 6 | 7 | 11 | 12 | 14..=19 | 21 => continue,
            _ => element(kind, true, 3),
        };
        assert_eq!(counts(&file(&[cell(false, &[raw])]), 2, 0)[5], 1);
    }
}

// Direct components only: a header counts once, whatever stands under it.
#[test]
fn direct_components() {
    let chain = header(12, true, 20, &[line(true), element(15, true, 36)]);
    let inner = cell(true, &[line(true), chain.clone(), dead(text(true))]);
    // 0 cell, 46 cell in it, 92 line, 118 chain, 200 text, 230 line, 256 text.
    let outer = cell(false, &[inner, line(true), text(true)]);
    let bytes = file(&[outer]);
    assert_eq!(counts(&bytes, 2, 0), [1, 0, 1, 0, 1, 0]);
    assert_eq!(counts(&bytes, 2, 46), [1, 0, 0, 0, 1, 0]);
    // A deleted header with live components: it does not count, nor do they.
    let bytes = file(&[cell(false, &[dead(chain), line(true)])]);
    assert_eq!(counts(&bytes, 2, 0), [1, 0, 0, 0, 0, 0]);
}

// "The number of levels set in the cell's four mask words 22 to 25 is the
// number of one bits there."
#[test]
fn levels() {
    let cells = [(cell(false, &[]), 2), (library_cell(&[]), 2)];
    let solid = (header(2, false, 62, &[]), 3);
    for (words, dim) in cells.into_iter().chain([solid]) {
        let ask = |mask: [u16; 4]| {
            let mut words = words.clone();
            words[22..26].copy_from_slice(&mask);
            plate(&file(&[words]), dim, 0).unwrap().levels
        };
        assert_eq!(ask([0; 4]), 0);
        assert_eq!(ask([0xFFFF; 4]), 64);
        for at in 0..4 {
            for bit in 0..16 {
                let mut mask = [0; 4];
                mask[at] = 1 << bit;
                assert_eq!(ask(mask), 1);
                assert_eq!(ask(mask.map(|word| !word)), 63);
            }
        }
        assert_eq!(ask([0x8001, 0x5555, 0, 7]), 2 + 8 + 3);
        // The words around the mask say nothing.
        let mut words = words.clone();
        words[21] = 0xFFFF;
        words[26] = 0xFFFF;
        assert_eq!(plate(&file(&[words]), dim, 0).unwrap().levels, 0);
    }
}

// "Refusals: those of judging, then 13, 18." A deleted cell has its plate too.
#[test]
fn refusals() {
    for (number, place, file) in faulty() {
        for at in [0, 26, u64::MAX] {
            assert_eq!(plate(&file, 2, at), refused(number, place));
        }
        assert_eq!(plate_lines(&file, 2), refused(number, place));
        assert_eq!(printed(&file), format!("REFUSED {number} {place}\n"));
    }
    let bytes = file(&[line(false), dead(cell(false, &[line(true)]))]);
    assert_eq!(plate(&bytes, 4, 26), refused(1, 0));
    assert_eq!(plate(&bytes[1..], 2, 26), refused(1, 0));
    for place in [1, 27, 98, 99, 1 << 32, u64::MAX] {
        assert_eq!(plate(&bytes, 2, place), refused(13, 0));
    }
    for place in [0, 72] {
        assert_eq!(plate(&bytes, 2, place), refused(18, 0));
    }
    let wanted = Plate {
        counts: [1, 0, 0, 0, 0, 0],
        levels: 0,
        code: b"00417".to_vec(),
    };
    assert_eq!(plate(&bytes, 2, 26), Ok(wanted));
}

// "prints only a plate for each cell of a file in file order, one line: place,
// the six counts in that order, levels and code, written as there", "the
// program passes over deleted cells".
#[test]
fn the_program() {
    let mut nameless = cell(true, &[element(16, true, 40)]);
    nameless[19..21].copy_from_slice(&[0, 0]);
    nameless[22..26].copy_from_slice(&[1, 0xFFFF, 0, 3]);
    let mut spaced = dead(cell(false, &[nameless]));
    spaced[19..21].copy_from_slice(&[1600, 3200]);
    let mut named = library_cell(&[line(true), line(true), points(21, true, 2), text(true)]);
    named[16..18].copy_from_slice(&[40, 3200]);
    let bytes = file(&[
        line(false),
        cell(false, &[element(5, true, 2), dead(line(true))]),
        spaced,
        named,
    ]);
    // 26 cell 00417, 100 deleted, 146 without a name in it, 232 " A B".
    let wanted = "26 0 0 0 0 0 1 0 00417\n\
                  146 0 0 0 1 0 0 19\n\
                  232 2 1 1 0 0 0 0  A B\n";
    assert_eq!(printed(&bytes), wanted);
    assert_eq!(plate_lines(&bytes, 2), Ok(wanted.as_bytes().to_vec()));
    // No cells, no line: no heading and no end.
    assert_eq!(printed(&file(&[line(false)])), "");
    assert_eq!(printed(&file(&[])), "");
    assert_eq!(printed(&[]), "REFUSED 2 0\n");
    assert_eq!(printed(&[255]), "REFUSED 1 0\n");
    // A live cell under a deleted one is printed, a deleted one is not.
    let bytes = file(&[dead(cell(false, &[cell(true, &[]), dead(cell(true, &[]))]))]);
    assert_eq!(printed(&bytes), "46 0 0 0 0 0 0 0 00417\n");
}

// "reads and refuses as celllist does": at most 65,536 bytes.
#[test]
fn length_of_the_input() {
    let mut input = file(&[cell(false, &[])]);
    input.resize(65_536, 0);
    assert_eq!(printed(&input), "0 0 0 0 0 0 0 0 00417\n");
    input.push(0);
    assert_eq!(printed(&input), "REFUSED 1 0\n");
    input.push(0);
    assert_eq!(printed(&input), "REFUSED 1 0\n");
    assert!(plate_lines(&input, 2).is_ok());
}

// Generated ones: the counts against a scan, and each line against its plate.
#[test]
fn generated() {
    let mut random = Random::new(70);
    let mut seen = [0; 6];
    let (mut cells, mut passed) = (0, 0);
    for _ in 0..4000 {
        let dim = generate::files::dimension(&mut random);
        let made = generate::plates(&mut random, dim);
        let (starts, _) = scan(&made);
        let mut lines = String::new();
        for start in &starts {
            let answer = plate(&made, dim, start.place);
            if start.kind > 2 || start.kind == 0 {
                assert_eq!(answer, refused(18, 0));
                continue;
            }
            let answer = answer.unwrap();
            let mut wanted = [0; 6];
            for inner in starts.iter().filter(|inner| !inner.deleted) {
                if inner.header == Some(start.place) {
                    let slot = match inner.kind {
                        3 => 0,
                        4 | 6 | 11 | 21 => 1,
                        17 => 2,
                        15 | 16 => 3,
                        1 | 2 | 7 | 12 | 14 | 18 | 19 => 4,
                        _ => 5,
                    };
                    wanted[slot] += 1;
                    seen[slot] += 1;
                }
            }
            assert_eq!(answer.counts, wanted);
            let from = 2 * (start.place as usize + 22);
            let ones: u32 = made[from..from + 8].iter().map(|b| b.count_ones()).sum();
            assert_eq!(answer.levels, u64::from(ones));
            let name = view(&made, dim, start.place).unwrap().name.unwrap();
            assert_eq!(Ok(answer.code.clone()), unpack(name.0, name.1));
            cells += 1;
            if start.deleted {
                passed += 1;
                continue;
            }
            let [a, b, c, d, e, f] = answer.counts;
            let place = start.place;
            let levels = answer.levels;
            let mut line = format!("{place} {a} {b} {c} {d} {e} {f} {levels}");
            if !answer.code.is_empty() {
                line.push(' ');
                line.push_str(std::str::from_utf8(&answer.code).unwrap());
            }
            lines.push_str(&line);
            lines.push('\n');
        }
        assert_eq!(plate_lines(&made, dim), Ok(lines.clone().into_bytes()));
        if dim == 2 {
            assert_eq!(printed(&made), lines);
        }
    }
    assert!(cells > 5000 && passed > 1000, "{cells} {passed}");
    assert!(seen.iter().all(|&number| number > 1000), "{seen:?}");
}

// Any bytes: the refusals of judging, each of them printed.
#[test]
fn any_bytes() {
    let mut random = Random::new(71);
    for _ in 0..6000 {
        let dim = generate::files::dimension(&mut random);
        let mut made = generate::plates(&mut random, dim);
        match random.below(4) {
            0 => made = changes::soup(&mut random),
            1 => made = changes::random_bytes(&mut random),
            _ => changes::change_word(&mut random, &mut made),
        }
        let place = generate::place(&mut random, &made);
        let judged = judge(&made, dim);
        assert_eq!(plate_lines(&made, dim).err(), judged.clone().err());
        let answer = plate(&made, dim, place).err();
        match judged {
            Err(own) => assert_eq!(answer, Some(own)),
            Ok(_) => {
                let seen = view(&made, dim, place);
                let wanted = match seen {
                    Ok(seen) if seen.name.is_some() => None,
                    Ok(_) => Some(refusal(18, 0)),
                    Err(none) => Some(none),
                };
                assert_eq!(answer, wanted);
            }
        }
        if let Err(own) = judge(&made, 2) {
            assert_eq!(
                printed(&made),
                format!("REFUSED {} {}\n", own.number, own.place)
            );
        }
    }
}
