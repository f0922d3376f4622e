//! Plates of cells: of the cell at a place, and of a file in parts, against the second reader's plates one by one.

use crate::library;
use crate::runs::Runs;
use reader::generate::{changes, large, places, Random};
use reader::judge::judge_seeing;
use reader::{pack, plate, Plate, Refusal};

/// The two words of the code, the six counts and the levels.
fn plate_numbers(plate: &Plate) -> [i64; 9] {
    let (first, second) = pack(&plate.code).expect("the code of a cell");
    let [a, b, c, d, e, f] = plate.counts.map(|count| count as i64);
    [first.into(), second.into(), a, b, c, d, e, f, plate.levels as i64]
}

/// What the second reader says of a file: how many elements it has, and of each cell its number and the 11 numbers of its plate.
pub struct Listed {
    elements: u64,
    each: Vec<(u64, [i64; 11])>,
}

impl Listed {
    pub fn of(file: &[u8], dim: u64) -> Result<Listed, Refusal> {
        let mut cells = Vec::new();
        let mut elements = 0;
        judge_seeing(file, dim, |seen| {
            if [1, 2].contains(&seen.kind) {
                cells.push((elements, seen.place));
            }
            elements += 1;
        })?;
        let numbers = |place: u64| {
            let own = plate_numbers(&plate(file, dim, place).expect("a cell"));
            let mut all = [place as i64, i64::from(file[2 * place as usize + 1] >> 7), 0, 0, 0, 0, 0, 0, 0, 0, 0];
            all[2..].copy_from_slice(&own);
            all
        };
        Ok(Listed { elements, each: cells.into_iter().map(|(number, place)| (number, numbers(place))).collect() })
    }

    /// The next element number, and the plates from element number k on that a slice of so many numbers holds whole.
    fn fitting(&self, k: u64, room: usize) -> Result<(u64, Vec<i64>), Refusal> {
        let mut left = self.each.iter().filter(|(number, _)| *number >= k);
        let numbers = left.by_ref().take(room / 11).flat_map(|(_, numbers)| numbers).copied().collect();
        match left.next() {
            Some(_) if room < 11 => Err(Refusal { number: 15, place: 0 }),
            Some(&(number, _)) => Ok((number, numbers)),
            None => Ok((k.max(self.elements), numbers)),
        }
    }
}

impl Runs {
    /// The plate of the cell at a place.
    pub fn plate(&mut self, file: &[u8], dim: u64, p: u64) {
        let theirs = plate(file, dim, p).map(|plate| plate_numbers(&plate));
        assert_eq!(library::plate(file, dim, p), theirs, "plate at {p}, {dim}D, {file:02x?}");
        self.calls += 1;
    }

    /// Those from element number k on, in a slice of so many numbers.
    pub fn plates(&mut self, listed: &Result<Listed, Refusal>, file: &[u8], dim: u64, k: u64, room: usize) {
        let theirs = listed.as_ref().map_err(Refusal::clone).and_then(|l| l.fitting(k, room));
        assert_eq!(library::plates(file, dim, k, room), theirs, "plates from {k} in {room}, {dim}D, {file:02x?}");
        self.calls += 1;
    }

    /// In every part: from every element and beyond, with room for none to all and one more.
    fn every_plate(&mut self, file: &[u8], dim: u64) {
        let listed = Listed::of(file, dim);
        let (elements, most) = listed.as_ref().map_or((1, 2), |l| (l.elements, l.each.len()));
        for k in (0..=elements + 1).chain([1 << 32, u64::MAX]) {
            for cells in 0..=most + 1 {
                for room in [11 * cells, 11 * cells + 10] {
                    self.plates(&listed, file, dim, k, room);
                }
            }
        }
    }
}

/// Files of cells, as they are and with a word changed: the plate at each start, of one file in sixteen at every place, and every part.
pub fn directed(random: &mut Random, runs: &mut Runs, times: u64) {
    let mut counted = [0; 7];
    for time in 0..times {
        let dim = 2 + time % 2;
        let mut file = reader::generate::plates(random, dim);
        if time % 4 == 3 {
            changes::change_word(random, &mut file);
        }
        if runs.judge(&file, dim).is_ok() {
            for s in places::scan(&file).0 {
                runs.plate(&file, dim, s.place);
            }
        }
        if time % 16 == 0 {
            for p in places::places(&file) {
                runs.plate(&file, dim, p);
            }
        }
        runs.every_plate(&file, dim);
        for (_, numbers) in Listed::of(&file, dim).map_or(Vec::new(), |listed| listed.each) {
            for (sum, number) in counted.iter_mut().zip(&numbers[4..]) {
                *sum += number;
            }
        }
    }
    assert!(times == 0 || counted.iter().all(|&sum| sum > 0), "counts and levels: {counted:?}");
}

/// The files of the most cells, in parts; of some cells, the plate that is given is the one at their place.
pub fn largest(random: &mut Random, runs: &mut Runs) {
    for v in [large::longest_file_of_cells(), large::largest_extent_nested(), large::most_elements()] {
        let elements = runs.judge(&v.file, v.dim).expect("an accepted file").elements;
        let (next, all) = library::plates(&v.file, v.dim, 0, library::MOST_NUMBERS).expect("room for all");
        assert_eq!(next, elements);
        let each: Vec<&[i64]> = all.chunks(11).collect();
        for _ in 0..if each.is_empty() { 0 } else { 20 } {
            let numbers = random.pick(&each);
            runs.plate(&v.file, v.dim, numbers[0] as u64);
            let own = library::plate(&v.file, v.dim, numbers[0] as u64).expect("a cell");
            assert_eq!(own, numbers[2..], "at {}", numbers[0]);
        }
        for room in [11 * 1000 + 3, all.len().max(11)] {
            let (mut numbers, mut k) = (Vec::new(), 0);
            while k < elements {
                let (next, part) = library::plates(&v.file, v.dim, k, room).expect("room for one");
                assert!(next > k);
                k = next;
                numbers.extend(part);
                runs.calls += 1;
            }
            assert!(numbers == all, "in parts of {room}");
        }
    }
}
