//! The writer of both readers: the same answers and the same bytes, and what was written reads back as it was handed in.

use crate::library;
use crate::runs::{field_limits, field_numbers, set_field, Runs};
use reader::generate::writes::{good_write, long_line, write_call, Write};
use reader::generate::Random;
use reader::Refusal;

/// The view and the points of a written element, a marker behind it, are those that were handed in.
fn read_back(w: &Write, element: &[u8]) {
    let mut file = element.to_vec();
    // a component bit would be refused at the top
    file[0] &= 0x7f;
    file.extend([255, 255]);
    let v = library::view(&file, w.dim, 0).expect("a written element is read");
    let f = field_numbers(&w.fields);
    assert_eq!([v[0], v[2], v[3]], [f[1], f[0], f[3]], "level, type, deleted");
    assert_eq!((v[4], v[31]), (element.len() as i64 / 2, 0), "size, place");
    assert_eq!((v[8], &v[9..15]), (1, &f[4..10]), "range");
    assert_eq!((v[15], &v[16..22]), (1, &f[10..16]), "words 14 to 17");
    let dim = w.dim as usize;
    let n = w.points.len() / dim;
    assert_eq!([v[22], v[23]], if f[0] == 3 { [0, 0] } else { [1, n as i64] }, "number of points");
    for (k, point) in w.points.chunks(dim).enumerate() {
        let given = library::point(&file, w.dim, 0, k as u64).expect("a written point is there");
        assert_eq!(given[..dim], point.iter().map(|&x| i64::from(x)).collect::<Vec<_>>()[..]);
    }
    assert_eq!(library::point(&file, w.dim, 0, n as u64), Err(Refusal { number: 13, place: 0 }));
}

/// Calls in order and with faults.
pub fn calls(random: &mut Random, runs: &mut Runs, times: u64) {
    for k in 0..times {
        let w = write_call(random);
        let made = runs.write(&w);
        if let (Some(element), 0) = (made, k % 4) {
            read_back(&w, &element);
        }
        let w = good_write(random);
        assert!(runs.write(&w).is_some());
    }
}

/// "It refuses in this order: 1, 7, 8, 11, 15": the exact limits of each.
pub fn limits(random: &mut Random, runs: &mut Runs) {
    // a size of 65,535 words is the largest
    for size in [26, 27, 65_534, 65_535, 65_536, 65_537] {
        let w = long_line(size);
        assert_eq!(runs.write(&w).is_some(), size <= 65_535);
        let w = Write { room: 2 * size - 1, ..w };
        assert!(runs.write(&w).is_none());
    }
    // any buffer, and tails beyond every limit
    for room in [0, 1, 51, 52, 53, 1_048_576, 1_048_577, 1_048_578] {
        runs.write(&Write { room, fill: 9, ..long_line(26) });
    }
    for tail in [0, 1, 2, 131_019, 131_020, 1_048_576, 1_048_577, 1_048_578] {
        runs.write(&Write { tail: vec![0; tail], room: 1_048_578, ..long_line(26) });
    }
    // points from none to far too many, for each type and dimension
    for dim in [2, 3] {
        for kind in [3, 4, 6, 11, 21] {
            let mut w = Write { room: 4096, dim, ..long_line(26) };
            w.fields.kind = kind;
            for n in (0..=16).chain(dim as usize * 100..=dim as usize * 102 + 1).chain([library::MOST_COORDINATES]) {
                w.points = (0..n).map(|i| (i as i32).wrapping_mul(0x1234_5671)).collect();
                runs.write(&w);
            }
        }
    }
    // each field at its limits and past them
    for (i, value) in field_limits(11) {
        let mut w = good_write(random);
        set_field(&mut w.fields, i, value);
        runs.write(&w);
    }
    // a slice of fields of another length than 16 is a call made wrongly: 1, and the buffer stays
    let w = good_write(random);
    let mut fields = field_numbers(&w.fields).to_vec();
    fields.extend([0; 16]);
    for n in (0..16).chain(17..=32) {
        let mut buffer = vec![w.fill; w.room];
        let answer = library::write(&fields[..n], &w.points, &w.tail, w.dim, &mut buffer);
        assert_eq!(answer, Err(Refusal { number: 1, place: 0 }), "{n} fields");
        assert!(buffer.iter().all(|&b| b == w.fill));
    }
}
