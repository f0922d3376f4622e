//! The real files of tests/real, each with the answer of its table, by both; and the same files changed and cut. Those of
//! tests/real/texts have a table of their texts too, those of tests/real/curves one of their ellipses and arcs.

use crate::bindings;
use crate::library;
use crate::program;
use crate::runs::Runs;
use crate::sessions;
use crate::whole;
use reader::generate::{changes, Random};
use reader::LinkageKind;

const FOLDER: &str = concat!(env!("CARGO_MANIFEST_DIR"), "/../real");

/// The lines of a table behind its heading, each as its fields.
fn lines_of(path: &str) -> Vec<Vec<String>> {
    let table = std::fs::read_to_string(format!("{FOLDER}/{path}")).expect(path);
    let lines: Vec<_> = table.lines().skip(1).map(|line| line.split('\t').map(str::to_string).collect()).collect();
    assert!(!lines.is_empty(), "{path}");
    lines
}

/// Each line of a folder's table: file, dimension, and the answer as `accepted E D M` or `refused N P`.
fn table(folder: &str) -> Vec<(String, u64, String, Vec<u8>)> {
    let lines = lines_of(&format!("{folder}TABLE.tsv")).into_iter();
    let files = lines.map(|line| {
        let [name, dim, answer, ..] = &line[..] else { panic!("{line:?}") };
        let file = std::fs::read(format!("{FOLDER}/{folder}{name}")).expect(name);
        (name.clone(), dim.parse().expect("2 or 3"), answer.clone(), file)
    });
    files.collect()
}

/// The answer of both to a file is that of its table.
fn answered(runs: &mut Runs, name: &str, dim: u64, answer: &str, file: &[u8]) {
    let ours = match runs.judge(file, dim) {
        Ok(j) => format!("accepted {} {} {}", j.elements, j.deepest, j.marker),
        Err(r) => format!("refused {} {}", r.number, r.place),
    };
    assert_eq!(ours, answer, "{name}");
}

/// The answers of the table, and every call at every place.
pub fn run(runs: &mut Runs) {
    for (name, dim, answer, file) in table("") {
        answered(runs, &name, dim, &answer, &file);
        runs.everywhere(&file, dim);
        whole::every_part(runs, &file, dim);
        runs.every_range(&file, dim);
        bindings::file(runs, &file, dim);
        for p in 0..file.len() as u64 / 2 {
            for k in 2..5 {
                runs.numbered(&file, dim, p, k);
            }
        }
        for text in [&b"00417"[..], b"417", b"", b"ZZZZZZ", b"A.B$9", b"NONE", b"SUB", b"EMPTY", b"bad"] {
            runs.find(&file, dim, text);
        }
    }
}

/// A field of the table of texts, `-` where there is none.
fn number(field: &str) -> i64 {
    if field == "-" {
        0
    } else {
        field.parse().expect(field)
    }
}

/// The text at a place as one line of the table has it.
fn text_of(file: &[u8], dim: u64, line: &[String]) {
    let [_, place, _, depth, deleted, _, font, just, length, height, turn, x, y, z, characters, fields, hex, each, odd, ..] = line else {
        panic!("{line:?}");
    };
    let place = number(place) as u64;
    let mut wanted: Vec<i64> = [font, just, length, height].iter().map(|field| number(field)).collect();
    let mut turn: Vec<i64> = turn.split(',').map(number).collect();
    turn.resize(4, 0);
    wanted.extend(turn);
    wanted.extend([x, y, z, characters, fields].iter().map(|field| number(field)));
    wanted.push(if odd == "-" { -1 } else { i64::from_str_radix(odd, 16).expect(odd) });
    let text = library::text(file, dim, place).expect("a text");
    assert_eq!(text[..14], wanted[..], "{line:?}");
    let (start, count) = library::characters(file, dim, place).expect("a text");
    assert_eq!((start as i64, count as i64), (text[14], text[11]));
    let part = &file[start as usize..(start + count) as usize];
    let digits: String = part.iter().map(|byte| format!("{byte:02x}")).collect();
    assert_eq!(digits, if hex == "-" { "" } else { hex }, "{line:?}");
    let each = each.split(';').filter(|field| *field != "-");
    let fields: Vec<String> = (0..)
        .map_while(|k| library::field(file, dim, place, k).ok())
        .map(|field| format!("{}:{}:{}", field.first, field.length, field.justification))
        .collect();
    assert!(each.eq(fields.iter().map(String::as_str)), "{line:?}");
    let view = library::view(file, dim, place).expect("a text");
    assert_eq!([view[2], view[3], view[5]], [17, number(deleted), number(depth)], "{line:?}");
}

/// The files with texts: the answers of their table, every text as the table of texts has it and no others, every call at
/// every place where one begins and beside it, and their listings.
pub fn texts(runs: &mut Runs) {
    let lines = lines_of("texts/TEXTS.tsv");
    let mut checked = 0;
    for (name, dim, answer, file) in table("texts/") {
        answered(runs, &name, dim, &answer, &file);
        let own: Vec<_> = lines.iter().filter(|line| line[0] == name).collect();
        assert!(!own.is_empty(), "{name}");
        let given = library::texts(&file, dim, 0, 18 * own.len());
        if let Ok((_, numbers)) = &given {
            let places = numbers.chunks(18).map(|text| text[0]);
            assert!(places.eq(own.iter().map(|line| number(&line[1]))), "{name}");
            own.iter().for_each(|line| text_of(&file, dim, line));
            checked += own.len();
        }
        assert_eq!(given.is_ok(), answer.starts_with("accepted"), "{name}");
        for line in own {
            let place = number(&line[1]) as u64;
            for p in [place.saturating_sub(1), place, place + 1] {
                (0..4).for_each(|k| runs.at(&file, dim, p, k));
            }
        }
        for k in [0, 1, 5, u64::MAX] {
            for room in [0, 17, 18, 35, 36, 40, 1000, 100_000] {
                runs.part(&file, dim, k, room);
            }
        }
        bindings::file(runs, &file, dim);
        program::check(&file);
    }
    assert!(checked > 600, "{checked}");
}

/// Every word from the first named one on changed, to a value that is drawn, and every such cut; every call on each.
fn changed_and_cut(random: &mut Random, runs: &mut Runs, file: &[u8], dim: u64, first: usize) {
    let mut copy = file.to_vec();
    for i in first..file.len() / 2 {
        let old = [copy[2 * i], copy[2 * i + 1]];
        let new = random.pick(&changes_of(u16::from_le_bytes(old)));
        copy[2 * i..2 * i + 2].copy_from_slice(&new.to_le_bytes());
        let _ = runs.all(random, &copy, dim);
        copy[2 * i..2 * i + 2].copy_from_slice(&old);
        let _ = runs.all(random, &file[..2 * i], dim);
    }
}

/// The files with texts damaged: every word from the first text on changed, to a value that is drawn, every such cut, and
/// counts and fields changed; every call on each.
pub fn damaged_texts(random: &mut Random, runs: &mut Runs) {
    let lines = lines_of("texts/TEXTS.tsv");
    for (name, dim, _, file) in table("texts/") {
        let first = lines.iter().find(|line| line[0] == name).map(|line| number(&line[1])).expect("a text");
        changed_and_cut(random, runs, &file, dim, first as usize);
        let mut copy = file.clone();
        for _ in 0..200 {
            changes::change_text(random, &mut copy, dim);
            let _ = runs.all(random, &copy, dim);
            copy.copy_from_slice(&file);
        }
    }
}

/// The ellipse or the arc at a place as one line of the table has it: 7 numbers and the bits of 5 floats.
fn curve_of(file: &[u8], dim: u64, line: &[String]) -> ([i64; 7], [u64; 5]) {
    let [_, place, kind, depth, deleted, words, start, sweep, turn, floats, linkages] = line else { panic!("{line:?}") };
    let mut numbers = vec![number(kind), number(start), number(sweep)];
    numbers.extend(turn.split(',').map(number));
    numbers.resize(7, 0);
    let mut bits: Vec<u64> = floats.split(',').map(|float| u64::from_str_radix(float, 16).expect(float)).collect();
    bits.resize(5, 0);
    let wanted = (numbers.try_into().expect("7 numbers"), bits.try_into().expect("5 floats"));
    let place = number(place) as u64;
    assert_eq!(library::curve(file, dim, place), Ok(wanted), "{line:?}");
    let view = library::view(file, dim, place).expect("an ellipse or an arc");
    assert_eq!([view[2], view[3], view[4], view[5]], [kind, deleted, words, depth].map(|field| number(field)), "{line:?}");
    let each = linkages.split(';').filter(|linkage| *linkage != "-");
    let given: Vec<String> = (0..)
        .map_while(|k| library::linkage(file, dim, place, k).ok())
        .map(|linkage| format!("{}:{}:{}:{}", kind_of(linkage.kind), linkage.place, linkage.size, linkage.id))
        .collect();
    assert!(each.eq(given.iter().map(String::as_str)), "{line:?}");
    wanted
}

/// A kind of linkages as the table names it.
fn kind_of(kind: LinkageKind) -> &'static str {
    match kind {
        LinkageKind::User => "user",
        LinkageKind::Other => "other",
    }
}

/// The files with ellipses and arcs, by the library: the answers of their table, every ellipse and arc as the table of them has it and
/// no others, also in parts, and 13 or 6 beside it.
pub fn curves(runs: &mut Runs) {
    let lines = lines_of("curves/CURVES.tsv");
    let mut checked = 0;
    for (name, dim, answer, file) in table("curves/") {
        let judged = runs.judge(&file, dim);
        let ours = match &judged {
            Ok(j) => format!("accepted {} {} {}", j.elements, j.deepest, j.marker),
            Err(r) => format!("refused {} {}", r.number, r.place),
        };
        assert_eq!(ours, answer, "{name}");
        let own: Vec<_> = lines.iter().filter(|line| line[0] == name).collect();
        let elements = match judged {
            Ok(judged) => judged.elements,
            Err(refusal) => {
                assert!(own.is_empty(), "{name}");
                assert_eq!(library::curve(&file, dim, refusal.place), Err(refusal.clone()), "{name}");
                assert_eq!(library::curves(&file, dim, 0, (900, 500)), Err(refusal), "{name}");
                continue;
            }
        };
        let (mut numbers, mut floats) = (Vec::new(), Vec::new());
        for line in &own {
            let (longs, bits) = curve_of(&file, dim, line);
            runs.curve(&file, dim, number(&line[1]) as u64);
            numbers.extend([number(&line[1]), number(&line[4])]);
            numbers.extend(longs);
            floats.extend(bits);
            let inside = library::curve(&file, dim, number(&line[1]) as u64 + 1).expect_err("no element starts there");
            assert_eq!((inside.number, inside.place), (13, 0), "{line:?}");
        }
        let first = library::curve(&file, dim, 0).expect_err("a header of a design file");
        assert_eq!((first.number, first.place), (6, 0), "{name}");
        for rooms in [(9, 5), (9, 500), (900, 5), (26, 14), (100, 30), (9 * own.len(), 5 * own.len())] {
            let (mut k, mut got) = (0, (Vec::new(), Vec::new()));
            while k < elements {
                let (next, some, more) = library::curves(&file, dim, k, rooms).expect("room for one");
                assert!(some.len() / 9 <= rooms.0.min(9 * rooms.1 / 5) / 9 && next > k);
                got.0.extend(some);
                got.1.extend(more);
                k = next;
                runs.calls += 1;
            }
            assert!(got.0 == numbers && got.1 == floats, "{name}, {rooms:?}");
        }
        runs.calls += 3 * own.len() as u64;
        checked += own.len();
    }
    assert!(checked > 700, "{checked}");
}

/// The last 150 words of the files with ellipses and arcs changed and cut.
pub fn damaged_curves(random: &mut Random, runs: &mut Runs) {
    for (_, dim, _, file) in table("curves/") {
        changed_and_cut(random, runs, &file, dim, file.len() / 2 - 150);
    }
}

/// Every edit at every place of those that are accepted, each undone.
pub fn sessions(random: &mut Random, runs: &mut Runs) {
    for (_, dim, answer, file) in table("").into_iter().chain(table("texts/")) {
        if answer.starts_with("accepted") {
            let marker: usize = answer.rsplit(' ').next().and_then(|m| m.parse().ok()).expect("the marker's place");
            let start = sessions::ample(&file[..2 * marker + 2], dim);
            sessions::everywhere(random, runs, start.clone(), false);
            sessions::everywhere(random, runs, start, true);
        }
    }
}

/// The values that a word is changed to.
fn changes_of(word: u16) -> [u16; 8] {
    [word ^ 1, word ^ 0x40, word ^ 0x80, word ^ 0x0100, word ^ 0x8000, word.wrapping_add(1), 0, 65535]
}

/// Every word changed, one at a time, to several values, and every cut; every call on each.
pub fn changed(random: &mut Random, runs: &mut Runs) {
    for (_, dim, _, file) in table("") {
        let mut copy = file.clone();
        for i in 0..file.len() / 2 {
            let old = [copy[2 * i], copy[2 * i + 1]];
            let word = u16::from_le_bytes(old);
            for new in changes_of(word) {
                copy[2 * i..2 * i + 2].copy_from_slice(&new.to_le_bytes());
                let _ = runs.all(random, &copy, dim);
            }
            copy[2 * i..2 * i + 2].copy_from_slice(&old);
        }
        for cut in changes::cuts(&file) {
            let _ = runs.all(random, cut, dim);
        }
    }
}
