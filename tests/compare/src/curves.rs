//! Ellipses and arcs: one at a place, and those of a file in parts, against the second reader's, floats by their bits.

use crate::library;
use crate::runs::Runs;
use reader::generate::{changes, floats, places, Random};
use reader::{EllipseAt, EllipseOrArc, Refusal};

/// The type, start and sweep, and the turn; the bits of the axes and of the origin. What there is none of is 0.
fn curve_numbers(curve: &EllipseOrArc) -> ([i64; 7], [u64; 5]) {
    let (kind, start, sweep, axes) = match curve {
        EllipseOrArc::Ellipse(axes) => (15, 0, 0, axes),
        EllipseOrArc::Arc { start, sweep, axes } => (16, *start, *sweep, axes),
    };
    let mut numbers = [kind, start.into(), sweep.into(), 0, 0, 0, 0];
    for (slot, &long) in numbers[3..].iter_mut().zip(&axes.rotation) {
        *slot = long.into();
    }
    let mut bits = [axes.primary, axes.secondary, 0, 0, 0];
    for (slot, &axis) in bits[2..].iter_mut().zip(&axes.origin) {
        *slot = axis;
    }
    (numbers, bits)
}

/// The next element number, and what slices of so many numbers and floats hold of these, in a file of so many elements.
fn fitting(
    file: &[u8],
    curves: &[EllipseAt],
    end: u64,
    rooms: (usize, usize),
) -> Result<(u64, Vec<i64>, Vec<u64>), Refusal> {
    let (mut numbers, mut floats) = (Vec::new(), Vec::new());
    for one in curves {
        if rooms.0 - numbers.len() < 9 || rooms.1 - floats.len() < 5 {
            if numbers.is_empty() {
                return Err(Refusal { number: 15, place: 0 });
            }
            return Ok((one.number, numbers, floats));
        }
        let (own, bits) = curve_numbers(&one.reading);
        numbers.extend([one.place as i64, i64::from(file[2 * one.place as usize + 1] >> 7)]);
        numbers.extend(own);
        floats.extend(bits);
    }
    Ok((end, numbers, floats))
}

impl Runs {
    /// The ellipse or the arc at a place.
    pub fn curve(&mut self, file: &[u8], dim: u64, p: u64) {
        let theirs = reader::read_ellipse(file, dim, p).map(|curve| curve_numbers(&curve));
        assert_eq!(library::curve(file, dim, p), theirs, "ellipse or arc at {p}, {dim}D, {file:02x?}");
        self.calls += 1;
    }

    /// Those from element number k on, in slices of so many numbers and floats.
    pub fn curves(&mut self, file: &[u8], dim: u64, k: u64, rooms: (usize, usize)) {
        let theirs = reader::judge(file, dim).and_then(|judged| {
            let curves = reader::ellipses_from(file, dim, k)?;
            fitting(file, &curves, k.max(judged.elements), rooms)
        });
        assert_eq!(library::curves(file, dim, k, rooms), theirs, "from {k} in {rooms:?}, {dim}D, {file:02x?}");
        self.calls += 1;
    }
}

/// Files of ellipses and arcs, some with a float that is none, as they are and with a word changed: at every place of one in
/// sixteen and at each start of the others, and in parts.
pub fn directed(random: &mut Random, runs: &mut Runs, times: u64) {
    let mut refused = 0;
    for time in 0..times {
        let dim = 2 + time % 2;
        let mut file = floats::ellipses(random, dim);
        if time % 4 == 3 {
            changes::change_word(random, &mut file);
        }
        match runs.judge(&file, dim) {
            Err(refusal) => refused += u64::from(refusal.number == 21),
            Ok(_) if time % 16 != 0 => {
                for s in places::scan(&file).0 {
                    runs.curve(&file, dim, s.place);
                }
            }
            Ok(_) => {}
        }
        if time % 16 == 0 {
            for p in places(&file) {
                runs.curve(&file, dim, p);
            }
        }
        for k in [0, random.below(8)] {
            let rooms = (random.index(60), random.index(30));
            runs.curves(&file, dim, k, rooms);
        }
        runs.curves(&file, dim, 0, (100, 60));
    }
    assert!(10 * refused > times, "{refused} of {times} refused for a float");
}
