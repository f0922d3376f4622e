//! Whole files: the views, points and texts of all elements, in parts of any size, against those of the second reader one
//! by one.

use crate::plates::Listed;
use crate::ranges::Outside;
use crate::runs::{point_numbers, small_or_huge, text_numbers, view_numbers, Runs};
use crate::{bindings, library};
use reader::generate::{changes, large, valid, Random};
use reader::judge::judge_seeing;
use reader::Refusal;

/// What the second reader sees of an accepted file.
struct Seen<'f> {
    file: &'f [u8],
    dim: u64,
    /// The elements in file order: place, type and depth.
    elements: Vec<(u64, u64, u64)>,
}

/// All numbers of a file.
struct All {
    elements: u64,
    views: Vec<i64>,
    points: Vec<i64>,
    texts: Vec<i64>,
}

impl Seen<'_> {
    fn new(file: &[u8], dim: u64) -> Result<Seen<'_>, Refusal> {
        let mut elements = Vec::new();
        judge_seeing(file, dim, |seen| elements.push((seen.place, seen.kind, seen.depth)))?;
        Ok(Seen { file, dim, elements })
    }

    /// Those from number k on, each with its number.
    fn from(&self, k: u64) -> impl Iterator<Item = (u64, u64, u64)> + '_ {
        let skip = usize::try_from(k).unwrap_or(usize::MAX);
        self.elements.iter().enumerate().skip(skip).map(|(number, &(place, kind, _))| (number as u64, place, kind))
    }

    /// The views that a slice of so many numbers holds.
    fn views(&self, k: u64, room: usize) -> Result<Vec<i64>, Refusal> {
        let mut numbers = Vec::new();
        for (_, place, _) in self.from(k) {
            if room < 32 {
                return Err(Refusal { number: 15, place: 0 });
            }
            if room - numbers.len() < 32 {
                break;
            }
            let view = reader::view(self.file, self.dim, place).expect("an element stands there");
            numbers.extend(view_numbers(&view, place));
        }
        Ok(numbers)
    }

    /// An element's place, how many points it has, and their coordinates, as `point` gives them.
    fn drawn(&self, place: u64) -> Vec<i64> {
        let points: Vec<_> = (0..).map_while(|k| reader::point(self.file, self.dim, place, k).ok()).collect();
        let mut numbers = vec![place as i64, points.len() as i64];
        for point in points {
            numbers.extend(&point_numbers(&point)[..self.dim as usize]);
        }
        numbers
    }

    /// The next element number, and the numbers that a slice of so many holds whole, of elements from number k on: each with
    /// its number and its own numbers.
    fn fitting(
        &self,
        k: u64,
        room: usize,
        each: impl Iterator<Item = (u64, Vec<i64>)>,
    ) -> Result<(u64, Vec<i64>), Refusal> {
        let mut numbers = Vec::new();
        for (number, own) in each {
            if room - numbers.len() < own.len() {
                if numbers.is_empty() {
                    return Err(Refusal { number: 15, place: 0 });
                }
                return Ok((number, numbers));
            }
            numbers.extend(own);
        }
        Ok((k.max(self.elements.len() as u64), numbers))
    }

    fn points(&self, k: u64, room: usize) -> Result<(u64, Vec<i64>), Refusal> {
        let pointed = self.from(k).filter(|(_, _, kind)| [3, 4, 6, 11, 21].contains(kind));
        self.fitting(k, room, pointed.map(|(number, place, _)| (number, self.drawn(place))))
    }

    /// Each text gives its place, whether it is deleted, its depth and the numbers of `text`.
    fn texts(&self, k: u64, room: usize) -> Result<(u64, Vec<i64>), Refusal> {
        let texts = reader::texts_from(self.file, self.dim, k).expect("an accepted file");
        let each = texts.iter().map(|one| {
            let (place, _, depth) = self.elements[one.number as usize];
            assert_eq!(place, one.place);
            let deleted = self.file[2 * place as usize + 1] >> 7;
            let mut numbers = vec![place as i64, i64::from(deleted), depth as i64];
            numbers.extend(text_numbers(&one.text, place, self.dim));
            (one.number, numbers)
        });
        self.fitting(k, room, each)
    }

    fn all(&self) -> All {
        All {
            elements: self.elements.len() as u64,
            views: self.views(0, usize::MAX).expect("room for all"),
            points: self.points(0, usize::MAX).expect("room for all").1,
            texts: self.texts(0, usize::MAX).expect("room for all").1,
        }
    }
}

/// A call of the library that gives the next element number, and the numbers of elements from number k on.
type Fill = fn(&[u8], u64, u64, usize) -> Result<(u64, Vec<i64>), Refusal>;

/// All numbers of so many elements by a call, in parts of so many numbers, each from where the last one ended; and how many
/// calls that took.
fn in_parts(fill: Fill, file: &[u8], dim: u64, elements: u64, room: usize) -> (Vec<i64>, u64) {
    let (mut numbers, mut k, mut calls) = (Vec::new(), 0, 0);
    while k < elements {
        let (next, part) = fill(file, dim, k, room).expect("room for one");
        assert!(next > k && next <= elements);
        k = next;
        numbers.extend(part);
        calls += 1;
    }
    (numbers, calls)
}

impl Runs {
    /// The views, the points, the texts, and the ellipses and arcs from element number k on, each in a slice of so many numbers.
    pub fn part(&mut self, file: &[u8], dim: u64, k: u64, room: usize) {
        let seen = Seen::new(file, dim);
        let refused = |r: &Refusal| r.clone();
        let views = seen.as_ref().map_err(refused).and_then(|s| s.views(k, room));
        assert_eq!(library::views(file, dim, k, room), views, "views from {k} in {room}, {dim}D, {file:02x?}");
        let points = seen.as_ref().map_err(refused).and_then(|s| s.points(k, room));
        assert_eq!(library::points(file, dim, k, room), points, "points from {k} in {room}, {dim}D, {file:02x?}");
        let texts = seen.as_ref().map_err(refused).and_then(|s| s.texts(k, room));
        assert_eq!(library::texts(file, dim, k, room), texts, "texts from {k} in {room}, {dim}D, {file:02x?}");
        self.calls += 3;
        self.curves(file, dim, k, (room, (5 * room / 9 + room % 7).saturating_sub(room % 5)));
    }

    /// All views, points and texts of an accepted file in parts of so many numbers, each from where the last one ended.
    fn parts(&mut self, file: &[u8], dim: u64, all: &All, room: usize) {
        let views: Fill = |file, dim, k, room| {
            let part = library::views(file, dim, k, room)?;
            Ok((k + part.len() as u64 / 32, part))
        };
        let fills = [("views", views, &all.views), ("points", library::points, &all.points), ("texts", library::texts, &all.texts)];
        for (what, fill, wanted) in fills {
            let (numbers, calls) = in_parts(fill, file, dim, all.elements, room);
            assert!(&numbers == wanted, "{what} in parts of {room}, {dim}D, {file:02x?}");
            if what == "views" {
                assert_eq!(calls, all.elements.div_ceil(room as u64 / 32), "each part is full");
            }
            self.calls += calls;
        }
    }

    /// Every part of a small file: from every element and beyond, with room for none to all.
    fn every_part(&mut self, file: &[u8], dim: u64) {
        let Ok(seen) = Seen::new(file, dim) else {
            for room in [0, 1, 17, 18, 31, 32, 400] {
                for k in [0, 1, u64::MAX] {
                    self.part(file, dim, k, room);
                }
            }
            return;
        };
        let all = seen.all();
        for k in (0..=all.elements + 1).chain([1 << 32, 1 << 63, u64::MAX]) {
            for room in [0, 1, 5, 6, 7, 8, 17, 18, 19, 31, 32, 33, 36, 37, 63, 64, 65, 96, 200] {
                self.part(file, dim, k, room);
            }
        }
        for room in (305..=330).chain([1000, all.views.len().max(305)]) {
            self.parts(file, dim, &all, room);
        }
    }
}

/// A part of a file, from a number that is mostly an element's and with room that mostly ends among the elements.
pub fn any_part(random: &mut Random, runs: &mut Runs, file: &[u8], dim: u64) {
    let room = if random.one_in(8) { random.index(32) } else { random.index(140) };
    let k = small_or_huge(random);
    runs.part(file, dim, k, room);
    if file.len() < 10_000 {
        let outside = Outside::of(file, dim);
        runs.ranges(&outside, file, dim, k, random.index(4));
    }
    if file.len() < 2_000 {
        runs.plates(&Listed::of(file, dim), file, dim, k, room);
    }
}

/// Small files, each in every part of it.
pub fn small(random: &mut Random, runs: &mut Runs, times: u64) {
    for _ in 0..times {
        for dim in [2, 3] {
            let mut v = valid(random, dim).file;
            runs.every_part(&v, dim);
            changes::change_word(random, &mut v);
            runs.every_part(&v, dim);
        }
    }
    for file in [&[][..], &[255, 255], &[0], &[0, 0]] {
        for dim in [0, 2, 3, 4] {
            runs.every_part(file, dim);
        }
    }
}

/// Every part of a file.
pub fn every_part(runs: &mut Runs, file: &[u8], dim: u64) {
    runs.every_part(file, dim);
}

/// The largest files, in one part and in parts: the places are those of all elements, the texts all the second reader's, and
/// so are the views and points of some elements.
pub fn largest(random: &mut Random, runs: &mut Runs) {
    let mut files = vec![
        large::most_elements(),
        large::longest_file(),
        large::longest_file_of_cells(),
        large::largest_extent_nested(),
        large::largest_element(),
        large::most_linkages(),
    ];
    for dim in [2, 3] {
        files.push(large::most_points(random, dim));
        files.push(large::most_text(random, dim));
        files.push(large::most_texts(random, dim));
    }
    for v in files {
        let seen = Seen::new(&v.file, v.dim).expect("an accepted file");
        let elements = seen.elements.len() as u64;
        let room = 32 * elements as usize;
        let views = library::views(&v.file, v.dim, 0, room).expect("room for all");
        let places = views.chunks(32).map(|view| (view[31] as u64, view[2] as u64, view[5] as u64));
        assert!(places.eq(seen.elements.iter().copied()));
        let (next, points) = library::points(&v.file, v.dim, 0, library::MOST_NUMBERS).expect("room for all");
        assert_eq!(next, elements);
        let texts = library::texts(&v.file, v.dim, 0, room).expect("room for all");
        assert!(texts == seen.texts(0, room).expect("room for all"), "all texts, {}D", v.dim);
        let all = All { elements, views, points, texts: texts.1 };
        bindings::all(&v.file, v.dim, &all.views, &all.points, &all.texts);
        let last = elements - 1;
        let mut starts = vec![0, last, last + 1];
        starts.extend((0..6).map(|_| random.below(last + 1)));
        for k in starts {
            runs.part(&v.file, v.dim, k, 32 * 3 + 5);
        }
        for room in [32 * 4096, 65_536, room] {
            runs.parts(&v.file, v.dim, &all, room.max(305));
        }
    }
}
