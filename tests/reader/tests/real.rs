//! The real files of tests/real: each with the answer of its table, and every
//! text of tests/real/texts with the reading of its own.

mod common;
use common::*;
use reader::*;
use std::collections::BTreeMap;

/// The lines of a table behind its heading, each as its fields.
fn table(name: &str) -> Vec<Vec<String>> {
    let path = format!("{}/../real/{name}", env!("CARGO_MANIFEST_DIR"));
    let table = std::fs::read_to_string(&path).expect(&path);
    let lines: Vec<Vec<String>> = table
        .lines()
        .skip(1)
        .map(|line| line.split('\t').map(str::to_string).collect())
        .collect();
    assert!(!lines.is_empty(), "{path}");
    lines
}

fn bytes(folder: &str, name: &str) -> Vec<u8> {
    let path = format!("{}/../real/{folder}{name}", env!("CARGO_MANIFEST_DIR"));
    std::fs::read(&path).expect(&path)
}

/// Each file with its dimension and the answer that it must get.
fn files(folder: &str) -> Vec<(String, u64, String, Vec<u8>)> {
    table(&format!("{folder}TABLE.tsv"))
        .into_iter()
        .map(|line| {
            let file = bytes(folder, &line[0]);
            let dim = line[1].parse().unwrap();
            (line[0].clone(), dim, line[2].clone(), file)
        })
        .collect()
}

// Judging gives the table's answer, of the files with texts too.
#[test]
fn answers() {
    let mut checked = 0;
    for folder in ["", "texts/"] {
        for (name, dim, answer, file) in files(folder) {
            let ours = match judge(&file, dim) {
                Ok(j) => format!("accepted {} {} {}", j.elements, j.deepest, j.marker),
                Err(r) => format!("refused {} {}", r.number, r.place),
            };
            assert_eq!(ours, answer, "{name}");
            checked += 1;
        }
    }
    assert_eq!(checked, 13 + 36);
}

/// "-" for none, else the parts between the separators.
fn list<'a>(field: &'a str, separator: &str) -> Vec<&'a str> {
    if field == "-" {
        Vec::new()
    } else {
        field.split(separator).collect()
    }
}

fn number<T: std::str::FromStr>(field: &str) -> T {
    match field.parse() {
        Ok(value) => value,
        Err(_) => panic!("{field} is no number"),
    }
}

/// One line of the table of texts: place, depth, deleted, size in words, the
/// numbers, the characters in hexadecimal digits, the fields, the odd last
/// byte, the fixed part in words and the linkages.
fn check(file: &[u8], dim: u64, line: &[String]) {
    let [_, place, kind, depth, deleted, size, font, just, length, height, turn, x, y, z, chars, fields, hex, each, odd, fixed, links, _] =
        line
    else {
        panic!("{line:?}");
    };
    let place: u64 = number(place);
    let seen = view(file, dim, place).unwrap();
    assert_eq!((seen.kind, kind.as_str()), (17, "17"));
    assert_eq!((seen.depth, seen.size), (number(depth), number(size)));
    assert_eq!(u8::from(seen.deleted), number::<u8>(deleted));

    let text = read_text(file, dim, place).unwrap();
    let origin = if dim == 3 { vec![x, y, z] } else { vec![x, y] };
    let spare = list(odd, " ").concat();
    let wanted = Text {
        font: number(font),
        justification: number(just),
        length_multiplier: number(length),
        height_multiplier: number(height),
        rotation: turn.split(',').map(number).collect(),
        origin: origin.into_iter().map(|axis| number(axis)).collect(),
        characters: number(chars),
        fields: number(fields),
        spare: u8::from_str_radix(&spare, 16).unwrap_or(0),
    };
    assert_eq!(text, wanted);
    let odd_bytes = (text.characters + 3 * text.fields) % 2 == 1;
    assert_eq!(odd_bytes, !spare.is_empty());

    let (start, length) = text_characters(file, dim, place).unwrap();
    let part = &file[start as usize..(start + length) as usize];
    let digits: String = part.iter().map(|byte| format!("{byte:02x}")).collect();
    assert_eq!(digits, list(hex, " ").concat());
    let each = list(each, ";");
    assert_eq!(each.len() as u64, text.fields);
    for (k, field) in each.iter().enumerate() {
        let numbers: Vec<i64> = field.split(':').map(number).collect();
        let found = text_field(file, dim, place, k as u64).unwrap();
        let found = [found.first as i64, found.length as i64, found.justification];
        assert_eq!(numbers, found);
    }
    let past = text_field(file, dim, place, each.len() as u64);
    assert_eq!(past, refused(13, 0));

    // The fixed part ends with the word of the last byte.
    let filled = start - 2 * place + length + 3 * text.fields;
    assert_eq!(filled.div_ceil(2), number::<u64>(fixed));
    let links = list(links, ";");
    for (k, link) in links.iter().enumerate() {
        let found = linkage(file, dim, place, k as u64).unwrap();
        let kind = match found.kind {
            LinkageKind::User => "user",
            LinkageKind::Other => "dmrs",
        };
        let found = format!("{kind}:{}:{}:{}", found.place, found.size, found.id);
        assert_eq!(&found, link);
    }
    assert!(linkage(file, dim, place, links.len() as u64).is_err());
}

// Every text of the accepted files as its table has it, and the places of the
// table are all that there are; a refused file refuses each call on it.
#[test]
fn readings() {
    let mut lines: BTreeMap<String, Vec<Vec<String>>> = BTreeMap::new();
    for line in table("texts/TEXTS.tsv") {
        lines.entry(line[0].clone()).or_default().push(line);
    }
    let mut checked = 0;
    for (name, dim, answer, file) in files("texts/") {
        let mine = lines.remove(&name).unwrap_or_default();
        assert!(!mine.is_empty(), "{name}");
        let own = match judge(&file, dim) {
            Ok(_) => {
                let texts = texts_from(&file, dim, 0).unwrap();
                let places: Vec<u64> = texts.iter().map(|one| one.place).collect();
                let wanted: Vec<u64> = mine.iter().map(|line| number(&line[1])).collect();
                assert_eq!(places, wanted, "{name}");
                for line in &mine {
                    assert_eq!(line[21], "ok");
                    check(&file, dim, line);
                    checked += 1;
                }
                continue;
            }
            Err(own) => own,
        };
        // The one text that is refused stands with its number and place.
        let wrong: Vec<String> = mine
            .iter()
            .filter(|line| line[21] != "ok")
            .map(|line| format!("refused {}", line[21]))
            .collect();
        assert_eq!(wrong, [answer], "{name}");
        for line in &mine {
            let place = number(&line[1]);
            let answer = Some(own.clone());
            assert_eq!(read_text(&file, dim, place).err(), answer);
            assert_eq!(text_characters(&file, dim, place).err(), answer);
            assert_eq!(text_field(&file, dim, place, 0).err(), answer);
        }
        assert_eq!(texts_from(&file, dim, 0), Err(own.clone()));
        let shown = format!("REFUSED {} {}\n", own.number, own.place);
        assert_eq!(textlist(&file, dim), shown.into_bytes());
    }
    assert!(lines.is_empty(), "{:?}", lines.keys());
    assert!(checked > 600, "{checked}");
}

// A text of a real file, written again from what was read of it, is the same
// bytes.
#[test]
fn written_again() {
    let mut written = 0;
    for (_, dim, answer, file) in files("texts/") {
        if answer.starts_with("accepted") {
            written += rewrite_texts(&file, dim);
        }
    }
    assert!(written > 600, "{written}");
}

// Ellipses and arcs of real files, as GDAL's writer was given them.
#[test]
fn ellipses() {
    let read = |folder: &str, name: &str, dim: u64| {
        let found = ellipses_from(&bytes(folder, name), dim, 0).unwrap();
        let floats = |axes: &Axes| {
            let mut all = vec![axes.primary, axes.secondary];
            all.extend(&axes.origin);
            all.into_iter().map(f64::from_bits).collect::<Vec<f64>>()
        };
        found
            .iter()
            .map(|one| match &one.reading {
                EllipseOrArc::Ellipse(axes) => (one.place, None, floats(axes)),
                EllipseOrArc::Arc { start, sweep, axes } => {
                    (one.place, Some((*start, *sweep)), floats(axes))
                }
            })
            .collect::<Vec<_>>()
    };
    let centre = [-249_879_416.0, -669_487_710.0];
    let ring = vec![600.0, 600.0, centre[0], centre[1]];
    let found = read("", "a11_cells_2d.dgn", 2);
    assert_eq!(found, [(1239, None, ring.clone())]);
    let found = read("", "a14_linkages_2d.dgn", 2);
    assert_eq!(found, [(1196, Some((0, 32_400_000)), ring)]);
    let solid = vec![4000.0, 5000.0, 1000.0, 2000.0, 3000.0];
    let found = read("", "d04_cells_3d.dgn", 3);
    assert_eq!(found, [(1328, Some((0, 32_400_000)), solid)]);
    let found = read("texts/", "e08_ellipses_links_cells_deleted_2d.dgn", 2);
    assert_eq!(found.len(), 10);
    let third = vec![1.0 / 3.0, 0.1, -1.0, -2.0];
    assert_eq!(found[4], (1524, None, third));
    let found = read("texts/", "e08_arcs_links_cells_deleted_3d.dgn", 3);
    assert_eq!(found.len(), 12);
    let third = vec![1.0 / 3.0, 0.1, -1.0, -2.0, -3.0];
    // A sweep with its sign bit set, as stored.
    assert_eq!(found[4], (1606, Some((5_400_000, 2_158_283_648)), third));
}

// The points of every line, line string, shape and curve of the accepted files
// lie in its range.
#[test]
fn ranges() {
    let mut held = 0;
    for folder in ["", "texts/"] {
        for (name, dim, answer, file) in files(folder) {
            if !answer.starts_with("accepted") {
                continue;
            }
            for start in generate::places::scan(&file).0 {
                if let Ok(in_range) = points_in_range(&file, dim, start.place) {
                    assert!(in_range, "{name} at {}", start.place);
                    held += 1;
                }
            }
        }
    }
    assert!(held >= 65, "{held}");
}
