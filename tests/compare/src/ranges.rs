//! Whether points lie in their ranges: of the element at a place, and of a file in parts, against the second reader's answers one by
//! one.

use crate::library;
use crate::runs::Runs;
use reader::generate::{changes, large, places, Random};
use reader::judge::judge_seeing;
use reader::{points_in_range, Refusal};

/// What the second reader says of a file: how many elements it has, and the number and place of each whose points do not all lie in
/// its range.
pub struct Outside {
    elements: u64,
    each: Vec<(u64, u64)>,
}

impl Outside {
    pub fn of(file: &[u8], dim: u64) -> Result<Outside, Refusal> {
        let mut starts = Vec::new();
        judge_seeing(file, dim, |seen| starts.push(seen.place))?;
        let numbered = (0..).zip(starts.iter().copied());
        let each = numbered.filter(|&(_, place)| points_in_range(file, dim, place) == Ok(false)).collect();
        Ok(Outside { elements: starts.len() as u64, each })
    }

    /// The next element number, and the places from element number k on that a slice of so many holds.
    fn fitting(&self, k: u64, room: usize) -> Result<(u64, Vec<i64>), Refusal> {
        let mut left = self.each.iter().filter(|(number, _)| *number >= k);
        let places = left.by_ref().take(room).map(|&(_, place)| place as i64).collect();
        match left.next() {
            Some(_) if room == 0 => Err(Refusal { number: 15, place: 0 }),
            Some(&(number, _)) => Ok((number, places)),
            None => Ok((k.max(self.elements), places)),
        }
    }
}

impl Runs {
    /// The check of the element at a place.
    pub fn in_range(&mut self, file: &[u8], dim: u64, p: u64) -> Result<bool, Refusal> {
        let ours = library::in_range(file, dim, p);
        assert_eq!(ours, points_in_range(file, dim, p), "in range at {p}, {dim}D, {file:02x?}");
        self.calls += 1;
        ours
    }

    /// Those outside their ranges from element number k on, in a slice of so many places.
    pub fn ranges(&mut self, outside: &Result<Outside, Refusal>, file: &[u8], dim: u64, k: u64, room: usize) {
        let theirs = outside.as_ref().map_err(Refusal::clone).and_then(|o| o.fitting(k, room));
        assert_eq!(library::ranges(file, dim, k, room), theirs, "ranges from {k} in {room}, {dim}D, {file:02x?}");
        self.calls += 1;
    }

    /// In every part: from every element and beyond, with room for none to all and one more.
    pub fn every_range(&mut self, file: &[u8], dim: u64) {
        let outside = Outside::of(file, dim);
        let (elements, most) = outside.as_ref().map_or((1, 2), |o| (o.elements, o.each.len()));
        for k in (0..=elements + 1).chain([1 << 32, u64::MAX]) {
            for room in 0..=most + 1 {
                self.ranges(&outside, file, dim, k, room);
            }
        }
    }
}

/// Files of points with ranges around them or nearly so, as they are and with a word changed: the check at each start, of one file in
/// sixteen at every place, and every part.
pub fn directed(random: &mut Random, runs: &mut Runs, times: u64) {
    let (mut yes, mut no) = (0, 0);
    for time in 0..times {
        let dim = 2 + time % 2;
        let mut file = reader::generate::ranges(random, dim);
        if time % 4 == 3 {
            changes::change_word(random, &mut file);
        }
        if runs.judge(&file, dim).is_ok() {
            for s in places::scan(&file).0 {
                match runs.in_range(&file, dim, s.place) {
                    Ok(true) => yes += 1,
                    Ok(false) => no += 1,
                    Err(refusal) => assert_eq!(refusal, Refusal { number: 6, place: s.place }),
                }
            }
        }
        if time % 16 == 0 {
            for p in places::places(&file) {
                let _ = runs.in_range(&file, dim, p);
            }
        }
        runs.every_range(&file, dim);
    }
    assert!(yes > times / 2 && no > times / 2, "{yes} times yes and {no} times no, of {times} files");
}

/// The largest files in parts; of some elements, whether they are given is held to the check of each.
pub fn largest(random: &mut Random, runs: &mut Runs) {
    let mut files = vec![large::longest_file(), large::longest_file_of_cells(), large::most_elements()];
    files.extend([2, 3].map(|dim| large::most_points(random, dim)));
    for v in files {
        let mut starts = Vec::new();
        judge_seeing(&v.file, v.dim, |seen| starts.push(seen.place)).expect("an accepted file");
        let elements = starts.len() as u64;
        let (next, all) = library::ranges(&v.file, v.dim, 0, library::MOST_RANGES).expect("room for all");
        assert_eq!(next, elements);
        for _ in 0..60 {
            let place = random.pick(&starts);
            let outside = runs.in_range(&v.file, v.dim, place) == Ok(false);
            assert_eq!(all.binary_search(&(place as i64)).is_ok(), outside, "at {place}");
        }
        for room in [1000, all.len().max(1)] {
            let (mut places, mut k) = (Vec::new(), 0);
            while k < elements {
                let (next, part) = library::ranges(&v.file, v.dim, k, room).expect("room for one");
                assert!(next > k);
                k = next;
                places.extend(part);
                runs.calls += 1;
            }
            assert!(places == all, "in parts of {room}");
        }
        let given = dgn::all_ranges(&v.file, if v.dim == 2 { dgn::Dimension::Two } else { dgn::Dimension::Three });
        assert!(given.expect("an accepted file").into_iter().map(|place| place as i64).eq(all));
    }
}
