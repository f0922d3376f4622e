//! Texts: what is read of one, all of a file, and what is written.

mod common;

use common::{cell, sample, TWO};
use dgn::{Dimension, Field, Fields, Number, Point, Refusal, Text, TextAt, TextFields, Turn, Type};

const THREE: Dimension = Dimension::Three;

fn refused(number: Number, place: usize) -> Refusal {
    Refusal { number, place, count: 0 }
}

/// The numbers of a 2D text.
fn flat() -> TextFields {
    TextFields {
        font: 3,
        justification: 7,
        length: 1000,
        height: 4_294_901_761,
        turn: Turn::Flat(65_538),
        origin: Point { x: -2, y: 5, z: 0 },
        odd: Some(42),
    }
}

/// The numbers of a 3D text.
fn solid() -> TextFields {
    TextFields { turn: Turn::Solid([2_147_483_647, 1, 0, 4_294_967_295]), origin: Point { x: -2, y: 5, z: -7 }, ..flat() }
}

const LAST_TWO: Field = Field { first: 5, length: 2, justification: -1 };

/// A file of one text, with six characters and a field of the last two, in either dimension.
fn plate(dimension: Dimension) -> Vec<u8> {
    let text = if dimension == TWO { flat() } else { solid() };
    let mut file = vec![9; 100];
    let words = dgn::write_text(&Fields::new(Type::Text), &text, b"SEAL 7", &[LAST_TWO], &[], dimension, &mut file).unwrap();
    assert_eq!(words, if dimension == TWO { 35 } else { 43 });
    assert!(file[2 * words..].iter().all(|&byte| byte == 9), "what stands behind the text stays");
    file.truncate(2 * words);
    file.extend([255, 255]);
    file
}

#[test]
fn read_as_written() {
    for (dimension, written, start) in [(TWO, flat(), 60), (THREE, solid(), 76)] {
        let file = plate(dimension);
        let TextFields { font, justification, length, height, turn, origin, odd } = written;
        let text = Text { font, justification, length, height, turn, origin, characters: start..start + 6, fields: 1, odd };
        assert_eq!(dgn::text(&file, dimension, 0), Ok(text.clone()));
        assert_eq!(dgn::characters(&file, dimension, 0), Ok(&b"SEAL 7"[..]));
        assert_eq!(dgn::field(&file, dimension, 0, 0), Ok(LAST_TWO));
        assert_eq!(dgn::field(&file, dimension, 0, 1), Err(refused(Number::NoSuch, 0)));
        let found = TextAt { place: 0, deleted: false, depth: 0, text };
        assert_eq!(dgn::all_texts(&file, dimension), Ok(vec![found]));
    }
}

#[test]
fn refused_readings() {
    let (file, cell) = (plate(TWO), cell());
    assert_eq!(dgn::text(&file, TWO, 1), Err(refused(Number::NoSuch, 0)));
    assert_eq!(dgn::text(&cell, TWO, 46), Err(refused(Number::Kind, 46)));
    assert_eq!(dgn::characters(&cell, TWO, 0), Err(refused(Number::Kind, 0)));
    assert_eq!(dgn::field(&cell, TWO, 46, 0), Err(refused(Number::Kind, 46)));
    assert_eq!(dgn::characters(&file, THREE, 0), Err(refused(Number::Short, 0)));
    let mut past = file;
    past[67] = 3;
    let wrong = refused(Number::Field, 0);
    assert_eq!(dgn::text(&past, TWO, 0), Err(wrong));
    assert_eq!(dgn::characters(&past, TWO, 0), Err(wrong));
    assert_eq!(dgn::field(&past, TWO, 0, 0), Err(wrong));
    assert_eq!(dgn::all_texts(&past, TWO), Err(wrong));
}

#[test]
fn all_in_parts() {
    let file = sample("plate.dgn");
    let all = dgn::all_texts(&file, TWO).unwrap();
    let listed: Vec<String> = all
        .iter()
        .map(|found| {
            let state = if found.deleted { "dead" } else { "live" };
            let characters = file[found.text.characters.clone()].escape_ascii();
            format!("{} {} {state} {characters}", found.place, found.depth)
        })
        .collect();
    let wanted = [
        "85 1 live 00417",
        "118 1 dead 417",
        "185 1 live SHAFT SEAL",
        "220 1 live \\xd8 40 x 52",
        "255 1 live NBR\\\\FKM",
        "289 0 live PCS: ___",
        "325 0 live ",
    ];
    assert_eq!(listed, wanted);
    for found in &all {
        assert_eq!(dgn::text(&file, TWO, found.place).as_ref(), Ok(&found.text));
    }
    let elements = dgn::judge(&file, TWO).unwrap().elements;
    for room in 18..200 {
        let (mut numbers, mut k, mut got) = (vec![7; room], 0, Vec::new());
        while k < elements {
            let part = dgn::texts(&file, TWO, k, &mut numbers).unwrap();
            assert_eq!(part.len(), (all.len() - got.len()).min(room / 18));
            k = part.next_element;
            got.extend(part);
        }
        assert_eq!((k, &got), (elements, &all));
    }
    let room = |k: usize, room: usize| dgn::texts(&file, TWO, k, &mut vec![7; room]).map(|part| part.next_element);
    assert_eq!(room(0, 17), Err(refused(Number::Room, 0)));
    assert_eq!(room(elements, 0), Ok(elements));
    assert_eq!(room(417, 0), Ok(417));
    let mut numbers = vec![7; 400];
    assert_eq!(dgn::texts(&sample("shortened.cel"), TWO, 0, &mut numbers).unwrap_err(), refused(Number::Cut, 155));
    assert!(numbers.iter().all(|&number| number == 7), "a refusal writes nothing");
    for len in [1, dgn::FILE_BYTES + 2] {
        assert_eq!(dgn::all_texts(&vec![255; len], TWO), Err(refused(Number::Call, 0)));
    }
}

#[test]
fn refused_writing() {
    let fields = Fields::new(Type::Text);
    let write = |fields: &Fields, text: &TextFields, characters: &[u8], enter_data: &[Field], tail: &[u8], room: usize| {
        let mut buffer = vec![9; room];
        let answer = dgn::write_text(fields, text, characters, enter_data, tail, TWO, &mut buffer);
        assert!(answer.is_ok() || buffer.iter().all(|&byte| byte == 9), "a refusal changes no byte");
        answer.map_err(|refusal| {
            assert_eq!((refusal.place, refusal.count), (0, 0));
            refusal.number
        })
    };
    let even = TextFields { odd: None, ..flat() };
    assert_eq!(write(&fields, &even, b"SEAL", &[], &[], 64), Ok(32));
    assert_eq!(write(&fields, &even, b"SEALS", &[], &[], 66), Ok(33), "no odd byte is 0");
    assert_eq!(write(&fields, &even, b"SEAL", &[], &[], 63), Err(Number::Room));
    assert_eq!(write(&fields, &flat(), b"SEAL", &[], &[], 64), Err(Number::Call), "no odd byte here");
    assert_eq!(write(&Fields::new(Type::Line), &even, b"", &[], &[], 64), Err(Number::Call));
    assert_eq!(write(&Fields { level: 64, ..fields }, &even, b"", &[], &[], 64), Err(Number::Call));
    assert_eq!(write(&fields, &TextFields { odd: None, ..solid() }, b"", &[], &[], 64), Err(Number::Call));
    let risen = TextFields { origin: Point { z: 1, ..even.origin }, ..even };
    assert_eq!(write(&fields, &risen, b"", &[], &[], 64), Err(Number::Call));
    assert_eq!(write(&fields, &even, &[65; 256], &[], &[], 600), Err(Number::Call));
    assert_eq!(write(&fields, &even, b"SEAL 7", &[LAST_TWO; 256], &[], 2000), Err(Number::Call));
    assert_eq!(write(&fields, &even, b"", &[], &[0], 64), Err(Number::Call));
    for field in [
        Field { first: 0, ..LAST_TWO },
        Field { length: 3, ..LAST_TWO },
        Field { first: 7, length: 0, ..LAST_TWO },
        Field { justification: 2, ..LAST_TWO },
        Field { justification: -2, ..LAST_TWO },
    ] {
        assert_eq!(write(&fields, &even, b"SEAL 7", &[field], &[], 100), Err(Number::Field), "{field:?}");
    }
    assert_eq!(write(&fields, &even, b"", &[], &[0; 131_012], 64), Err(Number::Total));
    let mut attributes = fields;
    attributes.display.properties = 1 << 11;
    assert_eq!(write(&attributes, &even, b"", &[], &[], 64), Err(Number::Linkage));
    let mut buffer = [9; 100];
    let of_2d = dgn::write_text(&fields, &even, b"", &[], &[], THREE, &mut buffer);
    assert_eq!(of_2d, Err(refused(Number::Call, 0)), "a turn of the other dimension");
}
