//! The reading calls: judging against other judges, finding and viewing against judging, and how each grows.

use crate::calls;
use crate::inputs::{make, Input, ABSENT, KIB, KINDS, LAST};
use crate::tables::{heading, row};
use crate::timing::{measure, Measured};
use std::hint::black_box;

/// A call to be measured; its answer is kept from being left out.
fn call<'a, T: 'a>(f: impl Fn() -> T + 'a) -> Box<dyn Measured + 'a> {
    Box::new(move || {
        black_box(f());
    })
}

/// Judging against the C judge, the second reader and the hops.
pub fn judging(all: &[Input], rounds: usize) {
    heading(&["judge, 1 MiB", "µs", "to the C judge", "to the second reader", "to a hop by sizes", "by totals"]);
    for input in all {
        let (file, dim) = (&input.file[..], input.kind.dim());
        let times = measure(
            &mut [
                call(|| calls::judge(black_box(file), dim)),
                call(|| calls::judge_in_c(black_box(file), dim)),
                call(|| reader::judge(black_box(file), dim)),
                call(|| calls::by_sizes(black_box(file))),
                call(|| calls::by_totals(black_box(file))),
            ],
            rounds,
        );
        let mut cells = vec![input.kind.name().to_string(), format!("{:.0}", times.time(0) * 1e6)];
        cells.extend((1..5).map(|other| times.ratio(0, other).to_string()));
        row(&cells);
    }
}

/// Finding and viewing against judging the same file.
pub fn places(all: &[Input], rounds: usize) {
    heading(&["to judge, 1 MiB", "find, name at the end", "find, name not there", "view, first element", "view, last element"]);
    for input in all {
        let (file, dim) = (&input.file[..], input.kind.dim());
        let times = measure(
            &mut [
                call(|| calls::judge(black_box(file), dim)),
                call(|| calls::find(black_box(file), dim, LAST)),
                call(|| calls::find(black_box(file), dim, ABSENT)),
                call(|| calls::view(black_box(file), dim, 0)),
                call(|| calls::view(black_box(file), dim, input.last)),
            ],
            rounds,
        );
        let mut cells = vec![input.kind.name().to_string()];
        cells.extend((1..5).map(|which| times.ratio(which, 0).to_string()));
        row(&cells);
    }
}

const SIZES: [usize; 5] = [64, 128, 256, 512, 1024];

/// 1 MiB in files of each size, so that every column has the same number of bytes to read.
pub fn growth(rounds: usize) {
    heading(&["ps for each byte", "64 KiB", "128 KiB", "256 KiB", "512 KiB", "1024 KiB", "1024 to 64"]);
    for kind in KINDS {
        let dim = kind.dim();
        let sets: Vec<Vec<Input>> = SIZES
            .iter()
            .map(|&size| (0..1024 / size).map(|seed| make(kind, size * KIB, seed as u64)).collect())
            .collect();
        let mut all = Vec::new();
        for set in &sets {
            all.push(call(move || set.iter().filter(|i| calls::judge(&i.file, dim).is_ok()).count()));
        }
        for set in &sets {
            all.push(call(move || set.iter().filter(|i| calls::find(&i.file, dim, ABSENT).is_ok()).count()));
        }
        for set in &sets {
            all.push(call(move || set.iter().filter(|i| calls::view(&i.file, dim, i.last).is_ok()).count()));
        }
        let times = measure(&mut all, rounds);
        for (which, name) in ["judge", "find, not there", "view, last"].into_iter().enumerate() {
            let first = which * SIZES.len();
            let last = first + SIZES.len() - 1;
            let mut cells = vec![format!("{}: {name}", kind.name())];
            cells.extend((first..=last).map(|c| format!("{:.0}", times.time(c) * 1e12 / (1024 * KIB) as f64)));
            cells.push(times.ratio(last, first).to_string());
            row(&cells);
        }
    }
}
