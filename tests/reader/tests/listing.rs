//! The listings of cells and of texts.

mod common;
use common::*;
use reader::generate::{self, Random};
use reader::*;

fn printed(input: &[u8]) -> String {
    String::from_utf8(celllist(input)).unwrap()
}

// "A refused file prints one line, `REFUSED`, number, place."
#[test]
fn refused_files() {
    for (number, place, file) in faulty() {
        assert_eq!(printed(&file), format!("REFUSED {number} {place}\n"));
    }
    assert_eq!(printed(&[]), "REFUSED 2 0\n");
    assert_eq!(printed(&[255]), "REFUSED 1 0\n");
}

// "reads a 2D file from standard input, at most 65,536 bytes (more: `REFUSED
// 1 0`)".
#[test]
fn length_of_the_input() {
    let mut input = file(&[]);
    input.resize(65_536, 0);
    assert_eq!(
        printed(&input),
        "PLACE DEPTH TYPE WORDS STATE NAME\nEND 0\n"
    );
    input.push(0);
    assert_eq!(printed(&input), "REFUSED 1 0\n");
    input.push(0);
    assert_eq!(printed(&input), "REFUSED 1 0\n");
    assert_eq!(printed(&vec![0; 2_000_000]), "REFUSED 1 0\n");
}

// "Only cells have a name; an empty one prints nothing, nor the space before
// it."
#[test]
fn names_printed() {
    let mut nameless = cell(false, &[]);
    nameless[19] = 0;
    nameless[20] = 0;
    let mut spaced = cell(false, &[text(true)]);
    spaced[0] |= 1 << 15;
    spaced[19] = 40;
    spaced[20] = 3200;
    let input = file(&[
        library_cell(&[]),
        nameless,
        spaced,
        header(12, false, 20, &[]),
    ]);
    let wanted = "PLACE DEPTH TYPE WORDS STATE NAME\n\
                  0 0 1 35 live 417\n\
                  35 0 2 46 live\n\
                  81 0 2 46 dead  A B\n\
                  127 1 17 30 live\n\
                  157 0 12 20 live\n\
                  END 177\n";
    assert_eq!(printed(&input), wanted);
}

// "prints all of": one line for each element between the first line and END.
#[test]
fn lines_for_all_elements() {
    let mut random = Random::new(10);
    for _ in 0..1000 {
        let made = generate::valid(&mut random, 2);
        let text = printed(&made.file);
        assert_eq!(text.lines().count() as u64, made.elements + 2);
        assert!(text.ends_with(&format!("END {}\n", made.marker)));
        for (line, start) in text
            .lines()
            .skip(1)
            .zip(generate::places::scan(&made.file).0)
        {
            let seen = view(&made.file, 2, start.place).unwrap();
            let state = if seen.deleted { "dead" } else { "live" };
            let mut wanted = format!(
                "{} {} {} {} {}",
                start.place, seen.depth, seen.kind, seen.size, state
            );
            if let Some((first, second)) = seen.name {
                let name = unpack(first, second).unwrap();
                if !name.is_empty() {
                    wanted = format!("{wanted} {}", String::from_utf8(name).unwrap());
                }
            }
            assert_eq!(line, wanted);
        }
    }
}

fn texts_printed(input: &[u8], dim: u64) -> String {
    String::from_utf8(textlist(input, dim)).unwrap()
}

// One line for each text in file order: place, depth, state, characters; none
// for other types, and no heading.
#[test]
fn lines_of_texts() {
    let mut dead = text_with(2, true, b"SEAL 00417", &[[6, 5, 255]]);
    dead[0] |= 1 << 15;
    let node = header(7, true, 35, &[dead, text(true)]);
    let input = file(&[
        text_with(2, false, b" two  spaces ", &[]),
        line(false),
        cell(false, &[node, line(true)]),
        text_with(2, false, b"", &[]),
    ]);
    let wanted = "0 0 live  two  spaces \n\
                  144 2 dead SEAL 00417\n\
                  181 2 live\n\
                  237 0 live\n";
    assert_eq!(texts_printed(&input, 2), wanted);
    assert_eq!(text_lines(&input, 2), Ok(wanted.as_bytes().to_vec()));
    assert_eq!(texts_printed(&file(&[line(false)]), 2), "");
    let solid = file(&[text_with(3, false, b"AB", &[])]);
    assert_eq!(texts_printed(&solid, 3), "0 0 live AB\n");
}

// A byte outside 32 to 126 is shown as backslash, x and two small hexadecimal
// digits, a backslash doubled.
#[test]
fn bytes_that_do_not_print() {
    let printed = |characters: &[u8]| {
        let input = file(&[text_with(2, false, characters, &[])]);
        texts_printed(&input, 2)
    };
    assert_eq!(printed(b"a\\b\nc"), "0 0 live a\\\\b\\x0ac\n");
    assert_eq!(printed(b"\\x41"), "0 0 live \\\\x41\n");
    for byte in 0..=255u8 {
        let shown = match byte {
            b'\\' => "\\\\".to_string(),
            32..=126 => char::from(byte).to_string(),
            _ => format!("\\x{}{}", hex(byte / 16), hex(byte % 16)),
        };
        assert_eq!(printed(&[byte]), format!("0 0 live {shown}\n"));
    }
}

fn hex(digit: u8) -> char {
    char::from(b"0123456789abcdef"[usize::from(digit)])
}

// Refused files, and the length of the input, as in the other listing.
#[test]
fn refusals_of_the_texts() {
    for (number, place, file) in faulty() {
        let wanted = format!("REFUSED {number} {place}\n");
        assert_eq!(texts_printed(&file, 2), wanted);
        assert_eq!(text_lines(&file, 2), refused(number, place));
    }
    assert_eq!(texts_printed(&[], 2), "REFUSED 2 0\n");
    assert_eq!(texts_printed(&[255], 2), "REFUSED 1 0\n");
    assert_eq!(texts_printed(&[255, 255], 4), "REFUSED 1 0\n");
    let mut input = file(&[text(false)]);
    input.resize(65_536, 0);
    assert_eq!(texts_printed(&input, 2), "0 0 live\n");
    input.extend([0, 0]);
    assert_eq!(texts_printed(&input, 2), "REFUSED 1 0\n");
    assert!(text_lines(&input, 2).is_ok());
}

// Each line of a generated file against the calls on its text.
#[test]
fn lines_for_all_texts() {
    let mut random = Random::new(27);
    for _ in 0..1000 {
        let dim = generate::files::dimension(&mut random);
        let made = generate::valid(&mut random, dim);
        let printed = texts_printed(&made.file, dim);
        let texts = texts_from(&made.file, dim, 0).unwrap();
        assert_eq!(printed.lines().count(), texts.len());
        for (line, one) in printed.lines().zip(&texts) {
            let seen = view(&made.file, dim, one.place).unwrap();
            let state = if seen.deleted { "dead" } else { "live" };
            let begin = format!("{} {} {state}", one.place, seen.depth);
            let shown = line.strip_prefix(&begin).unwrap();
            assert_eq!(shown.is_empty(), one.text.characters == 0);
            if let Some(shown) = shown.strip_prefix(' ') {
                let start = one.start as usize;
                let end = start + one.text.characters as usize;
                assert_eq!(unescaped(shown), made.file[start..end]);
            }
        }
    }
}

/// The bytes of which a line shows the characters.
fn unescaped(shown: &str) -> Vec<u8> {
    let mut rest = shown.as_bytes();
    let mut bytes = Vec::new();
    while let Some((&byte, behind)) = rest.split_first() {
        rest = behind;
        if byte != b'\\' {
            bytes.push(byte);
        } else if let Some(behind) = rest.strip_prefix(b"\\") {
            bytes.push(b'\\');
            rest = behind;
        } else {
            let digits = std::str::from_utf8(&rest[1..3]).unwrap();
            bytes.push(u8::from_str_radix(digits, 16).unwrap());
            rest = &rest[3..];
        }
    }
    bytes
}
