//! Whole files: all views, points, texts, ellipses and arcs, ranges, and plates, in one part and in parts, against C that judges once and fills
//! in the same numbers. Every part judges the file again, so parts stand against C in one part and its judging once more for each
//! further one.

use crate::calls::{self, Put, Slices};
use crate::inputs::Input;
use crate::tables::{heading, row};
use crate::timing::{measure, Measured};
use dgn::raw;
use std::hint::black_box;

/// The numbers and floats of a part: so many views, numbers of points, texts, ellipses and arcs, places, and plates.
pub const VIEWS: [usize; 2] = [raw::VIEW_NUMBERS * 4096, 0];
pub const POINTS: [usize; 2] = [65_536, 0];
pub const TEXTS: [usize; 2] = [raw::TEXTS_NUMBERS * 4096, 0];
pub const CURVES: [usize; 2] = [raw::CURVES_NUMBERS * 4096, raw::CURVE_FLOATS * 4096];
pub const RANGES: [usize; 2] = [4096, 0];
pub const PLATES: [usize; 2] = [raw::PLATES_NUMBERS * 4096, 0];

/// The same call of the library or of C: puts what stands from element number k on into slices.
pub type Fill = fn(&[u8], u64, usize, &mut Slices) -> Put;

/// Calls until no element is left, each time from where it stopped; how many calls that took. `take` is shown each part.
pub fn in_parts(
    fill: Fill,
    input: &Input,
    elements: usize,
    slices: &mut Slices,
    mut take: impl FnMut(&[i64], &[f64]),
) -> usize {
    let (mut k, mut parts) = (0, 0);
    while k < elements {
        let (next, [n, f]) = fill(&input.file, input.kind.dim(), k, slices).expect("an accepted file");
        take(&slices.numbers[..n], &slices.floats[..f]);
        k = next;
        parts += 1;
    }
    parts
}

/// A row for each input: one part and parts of so many numbers and floats, to C.
fn table(all: &[Input], rounds: usize, ours: Fill, in_c: Fill, room: [usize; 2]) {
    for input in all {
        let (file, dim) = (&input.file[..], input.kind.dim());
        let elements = calls::judge(file, dim).expect("an accepted file").elements as usize;
        // as many as all need
        let mut length = [0; 2];
        let mut part = Slices::new(room);
        let parts = in_parts(ours, input, elements, &mut part, |numbers, floats| {
            length[0] += numbers.len();
            length[1] += floats.len();
        });
        let (mut one, mut one_in_c, mut one_and_more) = (Slices::new(length), Slices::new(length), Slices::new(length));
        let mut works: Vec<Box<dyn Measured + '_>> = vec![
            Box::new(|| assert!(ours(black_box(file), dim, 0, black_box(&mut one)).is_ok())),
            Box::new(|| assert!(in_c(black_box(file), dim, 0, black_box(&mut one_in_c)).is_ok())),
            Box::new(|| {
                black_box(in_parts(ours, black_box(input), elements, &mut part, |numbers, floats| {
                    black_box((numbers, floats));
                }));
            }),
            Box::new(|| {
                assert!(in_c(black_box(file), dim, 0, black_box(&mut one_and_more)).is_ok());
                for _ in 1..parts {
                    assert!(calls::judge_in_c(black_box(file), dim).is_ok());
                }
            }),
        ];
        let times = measure(&mut works, rounds);
        row(&[
            input.kind.name().to_string(),
            (length[0] + length[1]).to_string(),
            format!("{:.0}", times.time(0) * 1e6),
            times.ratio(0, 1).to_string(),
            parts.to_string(),
            format!("{:.0}", times.time(2) * 1e6),
            times.ratio(2, 3).to_string(),
        ]);
    }
}

fn titles(what: &str) {
    let to_parts = "to C in one part, judging once more for each further";
    heading(&[what, "numbers", "µs in one part", "to C", "parts", "µs in parts", to_parts]);
}

pub fn views(all: &[Input], rounds: usize) {
    titles("all views, 1 MiB, parts of 4,096");
    table(all, rounds, calls::views, calls::views_in_c, VIEWS);
}

pub fn points(all: &[Input], rounds: usize) {
    titles("all points, 1 MiB, parts of 65,536 numbers");
    table(all, rounds, calls::points, calls::points_in_c, POINTS);
}

pub fn texts(all: &[Input], rounds: usize) {
    titles("all texts, 1 MiB, parts of 4,096");
    table(all, rounds, calls::texts, calls::texts_in_c, TEXTS);
}

pub fn curves(all: &[Input], rounds: usize) {
    titles("all ellipses and arcs, 1 MiB, parts of 4,096");
    table(all, rounds, calls::curves, calls::curves_in_c, CURVES);
}

/// Those whose ranges are true, and the others.
pub fn ranges(ranged: &[Input], all: &[Input], rounds: usize) {
    titles("all ranges, 1 MiB, parts of 4,096 places");
    for inputs in [ranged, all] {
        table(inputs, rounds, calls::ranges, calls::ranges_in_c, RANGES);
    }
}

pub fn plates(all: &[Input], rounds: usize) {
    titles("all plates, 1 MiB, parts of 4,096");
    table(all, rounds, calls::plates, calls::plates_in_c, PLATES);
}
