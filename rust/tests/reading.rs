//! Reading: the worked cell of docs/RULES.md and the samples.

mod common;

use common::{cell, fields, line, sample, TWO};
use dgn::{Bounds, Dimension, Fields, Linkage, LinkageKind, Number, Point, Refusal, Type, View};

fn refused(number: Number, place: usize) -> Refusal {
    Refusal { number, place, count: 0 }
}

#[test]
fn judged() {
    let file = cell();
    let judged = dgn::judge(&file, TWO).unwrap();
    assert_eq!((judged.elements, judged.deepest, judged.marker), (2, 1, 72));
    assert_eq!(dgn::judge(&[], TWO), Err(refused(Number::NoEnd, 0)));
    assert_eq!(dgn::judge(&file[..145], TWO), Err(refused(Number::Call, 0)));
    assert_eq!(dgn::judge(&sample("shortened.cel"), TWO), Err(refused(Number::Cut, 155)));
}

#[test]
fn found() {
    let file = cell();
    let found = dgn::find(&file, TWO, "00417").unwrap();
    assert_eq!((found.place, found.looked_at), (0, 1));
    assert_eq!(dgn::find(&file, TWO, b"417"), Err(Refusal { number: Number::NoSuch, place: 0, count: 2 }));
    assert_eq!(dgn::find(&file, TWO, "small"), Err(refused(Number::Name, 0)));
    assert_eq!(dgn::find(&sample("shortened.cel"), TWO, "417"), Err(refused(Number::Cut, 155)));
}

/// Deleted cells are passed over and counted; asked for, they are found.
#[test]
fn deleted() {
    let mut file = cell();
    file.truncate(144);
    let live = file.clone();
    file[1] |= 128;
    file.extend([255, 255]);
    let none = Err(Refusal { number: Number::NoSuch, place: 0, count: 2 });
    assert_eq!(dgn::find(&file, TWO, "00417"), none);
    let found = dgn::find_with_deleted(&file, TWO, "00417").unwrap();
    assert_eq!((found.place, found.looked_at), (0, 1));
    assert_eq!(dgn::find_with_deleted(&file, TWO, "417"), none);
    assert_eq!(dgn::find_with_deleted(&file, TWO, "small"), Err(refused(Number::Name, 0)));

    file.splice(144.., live);
    file.extend([255, 255]);
    let found = dgn::find(&file, TWO, "00417").unwrap();
    assert_eq!((found.place, found.looked_at), (72, 3));
}

#[test]
fn one_element() {
    let file = cell();
    assert_eq!(dgn::extent(&file, TWO, 0), Ok(0..72));
    assert_eq!(dgn::extent(&file, TWO, 45), Err(refused(Number::NoSuch, 0)));

    let view = dgn::view(&file, TWO, 0).unwrap();
    assert_eq!((view.place, view.kind, view.size, view.depth, view.header), (0, Type::Cell, 46, 0, None));
    assert_eq!((view.total, view.components, view.points), (Some(53), None, None));
    assert_eq!(dgn::unpack(view.name.unwrap()).unwrap(), "00417");

    let (view, wanted) = (dgn::view(&file, TWO, 46).unwrap(), fields());
    let line = View {
        place: 46,
        level: wanted.level,
        component: true,
        kind: Type::Line,
        deleted: true,
        size: 26,
        depth: 1,
        header: Some(0),
        bounds: Some(wanted.bounds),
        display: Some(wanted.display),
        points: None,
        name: None,
        total: None,
        components: None,
    };
    assert_eq!(view, line);

    assert_eq!(dgn::point(&file, TWO, 46, 0), Ok(Point { x: 1, y: -2, z: 0 }));
    assert_eq!(dgn::point(&file, TWO, 46, 1), Ok(Point { x: 65538, y: 7, z: 0 }));
    assert_eq!(dgn::point(&file, TWO, 46, 2), Err(refused(Number::NoSuch, 0)));
    assert_eq!(dgn::linkage(&file, TWO, 46, 0), Err(refused(Number::NoSuch, 0)));
    // its range is that of its two points
    let file = sample("nested.dgn");
    let bounds = dgn::view(&file, TWO, 284).unwrap().bounds.unwrap();
    let [low, high] = [0, 1].map(|k| dgn::point(&file, TWO, 284, k).unwrap());
    assert_eq!([bounds.low, bounds.high], [low, high].map(|point| [point.x, point.y, point.z]));
    // the line of samples/nested.dgn with a linkage of four words
    let Linkage { kind, place, size, .. } = dgn::linkage(&sample("nested.dgn"), TWO, 284, 0).unwrap();
    assert_eq!((kind, place, size), (LinkageKind::User, 310, 4));
}

#[test]
fn views_in_parts() {
    let file = sample("nested.dgn");
    let all: Vec<View> = dgn::all_views(&file, TWO).unwrap();
    assert_eq!(all.iter().map(|v| v.place).collect::<Vec<_>>(), [0, 26, 72, 111, 157, 183, 229, 284, 314]);
    for view in &all {
        assert_eq!(dgn::view(&file, TWO, view.place), Ok(*view));
    }
    for room in 32..300 {
        let (mut numbers, mut got) = (vec![7; room], Vec::new());
        loop {
            let part = dgn::views(&file, TWO, got.len(), &mut numbers).unwrap();
            assert_eq!(part.len(), (all.len() - got.len()).min(room / 32));
            if part.len() == 0 {
                break;
            }
            got.extend(part);
        }
        assert_eq!(got, all);
    }
    let room = |k: usize, room: usize| dgn::views(&file, TWO, k, &mut vec![7; room]).map(|part| part.len());
    assert_eq!(room(8, 31), Err(refused(Number::Room, 0)));
    assert_eq!(room(9, 31), Ok(0));
    assert_eq!(room(usize::MAX, 0), Ok(0));
    let mut numbers = vec![7; 400];
    assert_eq!(dgn::views(&file, TWO, 8, &mut numbers).unwrap().len(), 1);
    assert!(numbers[32..].iter().all(|&number| number == 7), "what stands behind the views stays");
}

#[test]
fn points_in_parts() {
    let file = sample("nested.dgn");
    let all = dgn::all_points(&file, TWO).unwrap();
    assert_eq!(all.iter().map(|d| d.place).collect::<Vec<_>>(), [0, 72, 157, 229, 284, 314]);
    for drawn in &all {
        for (k, point) in drawn.points.iter().enumerate() {
            assert_eq!(dgn::point(&file, TWO, drawn.place, k), Ok(*point));
        }
        assert_eq!(dgn::point(&file, TWO, drawn.place, drawn.points.len()), Err(refused(Number::NoSuch, 0)));
    }
    let longest = all.iter().map(|d| 2 + 2 * d.points.len()).max().unwrap();
    for room in longest..100 {
        let (mut numbers, mut k, mut places, mut points) = (vec![7; room], 0, Vec::new(), Vec::new());
        while k < 9 {
            let part = dgn::points(&file, TWO, k, &mut numbers).unwrap();
            k = part.next_element;
            for pointed in part {
                places.push(pointed.place);
                points.extend(pointed.points());
            }
        }
        assert_eq!(k, 9);
        assert_eq!(places, all.iter().map(|d| d.place).collect::<Vec<_>>());
        assert_eq!(points, all.iter().flat_map(|d| d.points.clone()).collect::<Vec<_>>());
    }
    let room = |k: usize, room: usize| dgn::points(&file, TWO, k, &mut vec![7; room]).map(|part| part.next_element);
    assert_eq!(room(0, 5), Err(refused(Number::Room, 0)));
    assert_eq!(room(9, 0), Ok(9));
    assert_eq!(room(417, 0), Ok(417));
}

#[test]
fn ranges() {
    let file = cell();
    assert_eq!(dgn::in_range(&file, TWO, 46), Ok(true));
    assert_eq!(dgn::in_range(&file, TWO, 0), Err(refused(Number::Kind, 0)));
    assert_eq!(dgn::in_range(&file, TWO, 45), Err(refused(Number::NoSuch, 0)));
    assert_eq!(dgn::in_range(&file[..144], TWO, 46), Err(refused(Number::NoEnd, 72)));
    assert_eq!(dgn::all_ranges(&file, TWO), Ok(vec![]));
    // each end one further out, which holds the points, and one further in; z is not asked
    for axis in 0..3 {
        for (low, high) in [(-1, 0), (0, 1), (1, 0), (0, -1)] {
            let mut moved = Fields { bounds: Bounds { low: [1, -2, 0], high: [65538, 7, 0] }, ..fields() };
            moved.bounds.low[axis] += low;
            moved.bounds.high[axis] += high;
            let holds = axis == 2 || low <= 0 && high >= 0;
            assert_eq!(of_line(&moved), (Ok(holds), Ok(if holds { vec![] } else { vec![46] })));
        }
    }
    // low above high, and what zero words are
    let mut turned = fields();
    (turned.bounds.low, turned.bounds.high) = (turned.bounds.high, turned.bounds.low);
    assert_eq!(of_line(&turned).0, Ok(false));
    let lowest = Bounds { low: [i32::MIN; 3], high: [i32::MIN; 3] };
    assert_eq!(of_line(&Fields { bounds: lowest, ..fields() }).0, Ok(false));
    assert_eq!(dgn::view(&cell(), TWO, 0).unwrap().bounds, Some(lowest));
}

/// The answers of the line of the worked cell, with other fields.
fn of_line(fields: &Fields) -> (Result<bool, Refusal>, Result<Vec<usize>, Refusal>) {
    let mut file = cell();
    file[92..144].copy_from_slice(&line(fields));
    assert_eq!(dgn::view(&file, TWO, 46).unwrap().bounds, Some(fields.bounds));
    (dgn::in_range(&file, TWO, 46), dgn::all_ranges(&file, TWO))
}

#[test]
fn ranges_in_parts() {
    // each line string, line, shape and curve with a range of zeros
    let mut file = sample("nested.dgn");
    let all: Vec<usize> = dgn::all_points(&file, TWO).unwrap().iter().map(|drawn| drawn.place).collect();
    assert_eq!(dgn::all_ranges(&file, TWO), Ok(vec![]));
    for place in &all {
        assert_eq!(dgn::in_range(&file, TWO, *place), Ok(true));
        file[2 * place + 4..2 * place + 28].fill(0);
    }
    assert_eq!(dgn::all_ranges(&file, TWO), Ok(all.clone()));
    for room in 1..10 {
        let (mut places, mut k, mut got) = (vec![7; room], 0, Vec::new());
        while k < 9 {
            let part = dgn::ranges(&file, TWO, k, &mut places).unwrap();
            k = part.next_element;
            assert_eq!(part.len(), room.min(all.len() - got.len()));
            got.extend(part);
        }
        assert_eq!((k, got), (9, all.clone()));
    }
    let room = |k: usize, room: usize| dgn::ranges(&file, TWO, k, &mut vec![7; room]).map(|part| part.next_element);
    assert_eq!(room(0, 0), Err(refused(Number::Room, 0)));
    assert_eq!(room(9, 0), Ok(9));
    assert_eq!(room(417, 0), Ok(417));
}

#[test]
fn all_of_any_size() {
    // raw elements of so many words, on both sides of 16 on average, and what stands behind the end marker
    for (elements, words) in [(0, 2), (1, 2), (2, 2), (1000, 2), (1000, 15), (1000, 16), (1000, 17), (7, 1000)] {
        for behind in [0, 2, 4, 1000, 10_000] {
            let mut element = vec![0; 2 * words];
            element[1] = 5;
            element[2..4].copy_from_slice(&(words as u16 - 2).to_le_bytes());
            let mut file = element.repeat(elements);
            file.extend([255, 255]);
            file.resize(file.len() + behind, 5);
            let places: Vec<usize> = dgn::all_views(&file, TWO).unwrap().iter().map(|view| view.place).collect();
            assert_eq!(places, (0..elements).map(|k| k * words).collect::<Vec<_>>());
            assert_eq!(dgn::all_points(&file, TWO), Ok(vec![]));
            assert_eq!(dgn::all_ranges(&file, TWO), Ok(vec![]));
        }
    }
    for len in [1, dgn::FILE_BYTES + 2] {
        assert_eq!(dgn::all_views(&vec![255; len], TWO), Err(refused(Number::Call, 0)));
        assert_eq!(dgn::all_points(&vec![255; len], TWO), Err(refused(Number::Call, 0)));
        assert_eq!(dgn::all_ranges(&vec![255; len], TWO), Err(refused(Number::Call, 0)));
    }
}

#[test]
fn refused_wherever_it_is_read() {
    let file = sample("shortened.cel");
    let cut = refused(Number::Cut, 155);
    let mut numbers = vec![7; 400];
    assert_eq!(dgn::views(&file, TWO, 0, &mut numbers).unwrap_err(), cut);
    assert_eq!(dgn::points(&file, TWO, 0, &mut numbers).unwrap_err(), cut);
    assert_eq!(dgn::ranges(&file, TWO, 0, &mut numbers).unwrap_err(), cut);
    assert!(numbers.iter().all(|&number| number == 7), "a refusal writes nothing");
    assert_eq!(dgn::all_views(&file, TWO).unwrap_err(), cut);
    assert_eq!(dgn::all_points(&file, TWO).unwrap_err(), cut);
    assert_eq!(dgn::all_ranges(&file, TWO).unwrap_err(), cut);
    assert_eq!(dgn::judge(&cell(), Dimension::Three), Err(refused(Number::Short, 0)));
}

#[test]
fn names() {
    let name = dgn::pack("00417").unwrap();
    assert_eq!((name.first, name.second), (49234, 51080));
    for text in ["", "A", " A", "00417", "417", "PUMP.1", "A B$9"] {
        assert_eq!(dgn::unpack(dgn::pack(text).unwrap()).unwrap(), text);
    }
    for text in ["1234567", "A ", "a", "É"] {
        assert_eq!(dgn::pack(text), Err(refused(Number::Name, 0)));
    }
    assert_eq!(dgn::unpack(dgn::Name { first: 64000, second: 0 }), Err(refused(Number::Name, 0)));
}

#[test]
fn types() {
    for number in 0..=255 {
        assert_eq!(Type::of(number).number(), number);
    }
    assert_eq!(Type::of(5), Type::Raw(5));
    assert_eq!(Type::of(12), Type::ComplexChain);
}
