//! Ellipses and arcs: what is read of one, and all of a file.

mod common;

use common::{cell, sample, TWO};
use dgn::{Curve, CurveAt, Dimension, Ellipse, Number, Origin, Refusal, Turn};

const THREE: Dimension = Dimension::Three;

fn refused(number: Number, place: usize) -> Refusal {
    Refusal { number, place, count: 0 }
}

/// The words of 2 to a power.
fn power(power: u16) -> [u16; 4] {
    [16_512 + 128 * power, 0, 0, 0]
}

/// A file of one 3D arc, every number another, and of an ellipse with the same words behind it.
fn solid() -> Vec<u8> {
    let mut shared = [power(0), power(1)].concat();
    shared.extend([1, 2, 0, 11, 0, 12, 65_535, 13]);
    shared.extend([power(2), power(3), power(4)].concat());
    let mut arc = vec![16 << 8, 48];
    arc.resize(18, 0);
    arc.extend([65_535, 65_534, 1, 3]);
    arc.extend(&shared);
    let mut ellipse = vec![15 << 8, 44];
    ellipse.resize(18, 0);
    ellipse.extend(&shared);
    [arc, ellipse, vec![65_535]].concat().iter().flat_map(|word| word.to_le_bytes()).collect()
}

#[test]
fn in_3d() {
    let file = solid();
    let of = Ellipse {
        primary: 1.0,
        secondary: 2.0,
        turn: Turn::Solid([65_538, 11, 12, 4_294_901_773]),
        origin: Origin { x: 4.0, y: 8.0, z: 16.0 },
    };
    assert_eq!(dgn::curve(&file, THREE, 0), Ok(Curve::Arc { start: 4_294_967_294, sweep: 65_539, of }));
    assert_eq!(dgn::curve(&file, THREE, 50), Ok(Curve::Ellipse(of)));
    assert_eq!(dgn::curve(&file, TWO, 0).map(|_| ()), Ok(()), "words behind the fixed part of 2D");
}

#[test]
fn refused_readings() {
    let file = sample("rings.dgn");
    assert_eq!(dgn::curve(&file, TWO, 1), Err(refused(Number::NoSuch, 0)));
    assert_eq!(dgn::curve(&file, TWO, 0), Err(refused(Number::Kind, 0)));
    assert_eq!(dgn::curve(&cell(), TWO, 46), Err(refused(Number::Kind, 46)));
    // the sign of the secondary axis, with an exponent of 0
    for (place, word) in [(46, 22), (190, 26)] {
        let mut wrong = file.clone();
        let at = 2 * (place + word);
        wrong[at..at + 2].copy_from_slice(&[0, 128]);
        assert_eq!(dgn::judge(&wrong, TWO), Err(refused(Number::Float, place)));
        assert_eq!(dgn::curve(&wrong, TWO, 82), Err(refused(Number::Float, place)));
        assert_eq!(dgn::all_curves(&wrong, TWO), Err(refused(Number::Float, place)));
        wrong[at + 1] = 0;
        assert_eq!(dgn::judge(&wrong, TWO).map(|judged| judged.elements), Ok(6), "+0");
    }
}

#[test]
fn all_in_parts() {
    let file = sample("rings.dgn");
    let circle = |radius| {
        let origin = Origin { x: 100.0, y: -50.0, z: 0.0 };
        Curve::Ellipse(Ellipse { primary: radius, secondary: radius, turn: Turn::Flat(0), origin })
    };
    let of = Ellipse {
        primary: 100.5,
        secondary: 60.25,
        turn: Turn::Flat(10_800_000),
        origin: Origin { x: -0.5, y: 12.75, z: 0.0 },
    };
    let arc = Curve::Arc { start: 16_200_000, sweep: 32_400_000, of };
    let wanted = [
        CurveAt { place: 46, deleted: false, curve: circle(26.0) },
        CurveAt { place: 82, deleted: false, curve: circle(19.8) },
        CurveAt { place: 118, deleted: true, curve: circle(20.0) },
        CurveAt { place: 154, deleted: false, curve: Curve::Ellipse(of) },
        CurveAt { place: 190, deleted: false, curve: arc },
    ];
    let all = dgn::all_curves(&file, TWO).unwrap();
    assert_eq!(all, wanted);
    for found in &all {
        assert_eq!(dgn::curve(&file, TWO, found.place), Ok(found.curve));
    }
    let elements = dgn::judge(&file, TWO).unwrap().elements;
    for (room, floats_room) in (9..100).flat_map(|room| (5..30).map(move |floats| (room, floats))) {
        let (mut numbers, mut floats, mut k, mut got) = (vec![7; room], vec![7.0; floats_room], 0, Vec::new());
        while k < elements {
            let part = dgn::curves(&file, TWO, k, &mut numbers, &mut floats).unwrap();
            assert_eq!(part.len(), (all.len() - got.len()).min(room / 9).min(floats_room / 5));
            k = part.next_element;
            got.extend(part);
        }
        assert_eq!((k, &got), (elements, &all));
    }
    let room = |k: usize, room: usize, floats: usize| {
        let (mut numbers, mut floats) = (vec![7; room], vec![7.0; floats]);
        let answer = dgn::curves(&file, TWO, k, &mut numbers, &mut floats).map(|part| part.next_element);
        assert!(numbers.iter().all(|&number| number == 7) && floats.iter().all(|&float| float == 7.0), "nothing is written");
        answer
    };
    assert_eq!(room(0, 8, 5), Err(refused(Number::Room, 0)));
    assert_eq!(room(0, 9, 4), Err(refused(Number::Room, 0)));
    assert_eq!(room(elements, 0, 0), Ok(elements));
    assert_eq!(room(417, 0, 0), Ok(417));
    for len in [1, dgn::FILE_BYTES + 2] {
        assert_eq!(dgn::all_curves(&vec![255; len], TWO), Err(refused(Number::Call, 0)));
    }
}
