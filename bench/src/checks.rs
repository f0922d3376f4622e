//! The answers of all on the same files, accepted and refused. The first difference ends the bench.

use crate::calls::{self, Slices};
use crate::indexes;
use crate::inputs::{Input, ABSENT, LAST};
use crate::whole::{self, Fill};
use reader::generate::{aimed, changes, large, two_faults, valid, Random, ORDER};

/// Views, points, texts, ellipses and arcs, ranges, and plates, each by the library and by C, and the numbers and floats of a part.
const FILLS: [(Fill, Fill, [usize; 2]); 6] = [
    (calls::views, calls::views_in_c, whole::VIEWS),
    (calls::points, calls::points_in_c, whole::POINTS),
    (calls::texts, calls::texts_in_c, whole::TEXTS),
    (calls::curves, calls::curves_in_c, whole::CURVES),
    (calls::ranges, calls::ranges_in_c, whole::RANGES),
    (calls::plates, calls::plates_in_c, whole::PLATES),
];

/// So many numbers and floats.
const ROOMS: [[usize; 2]; 14] = [
    [100, 100], [0, 0], [1, 0], [17, 0], [18, 0], [36, 0], [9, 5], [8, 5], [9, 4], [18, 9], [100, 14], [10, 0], [11, 0], [22, 0],
];

/// Files judged alike, and how many of them are refused.
#[derive(Default)]
pub struct Checked {
    pub files: u64,
    pub refused: u64,
}

impl Checked {
    fn judge(&mut self, file: &[u8], dim: u64, what: &str) {
        let ours = calls::judge(file, dim);
        assert_eq!(ours, reader::judge(file, dim), "second reader, {what}, {} bytes", file.len());
        assert_eq!(ours, calls::judge_in_c(file, dim), "C judge, {what}, {} bytes", file.len());
        self.files += 1;
        self.refused += u64::from(ours.is_err());
        if file.len() < 10_000 {
            for room in [0, 8, 16, 101, 400] {
                indexes::alike(file, dim, room);
            }
            for (ours, in_c, _) in FILLS {
                for (k, room) in [1, 3, 1000].map(|k| (k, ROOMS[0])).into_iter().chain(ROOMS.map(|room| (0, room))) {
                    let (mut a, mut b) = (Slices::new(room), Slices::new(room));
                    assert_eq!(ours(file, dim, k, &mut a), in_c(file, dim, k, &mut b), "from {k} in {room:?}, {what}");
                    assert!(a.same(&b), "from {k} in {room:?}, {what}");
                }
            }
        }
    }

    /// All views, points, texts, ellipses and arcs, ranges, and plates of a measured input: those of the library in one part, in parts, and
    /// of C.
    fn whole(&self, input: &Input) {
        let dim = input.kind.dim();
        let elements = calls::judge(&input.file, dim).expect("an accepted file").elements as usize;
        for (ours, in_c, room) in FILLS {
            let mut all = Slices::new([0, 0]);
            whole::in_parts(ours, input, elements, &mut Slices::new(room), |numbers, floats| {
                all.numbers.extend_from_slice(numbers);
                all.floats.extend_from_slice(floats);
            });
            let length = [all.numbers.len(), all.floats.len()];
            for fill in [ours, in_c] {
                let mut one = Slices::new(length);
                assert_eq!(fill(&input.file, dim, 0, &mut one), Ok((elements, length)));
                assert!(one.same(&all), "whole file, {}", input.kind.name());
            }
        }
    }

    /// A measured input: every call that is measured, and the file with faults at its end.
    pub fn input(&mut self, input: &Input) {
        let (file, dim) = (&input.file[..], input.kind.dim());
        let what = input.kind.name();
        self.judge(file, dim, what);
        assert!(calls::judge(file, dim).is_ok(), "{what} is accepted");
        let (mut all, mut top) = (0, 0);
        let _ = reader::judge::judge_seeing(file, dim, |seen| {
            all += 1;
            top += u64::from(seen.depth == 0);
        });
        assert_eq!((calls::by_sizes(file), calls::by_totals(file)), (all, top), "hops, {what}");
        for text in [LAST, ABSENT] {
            assert_eq!(calls::find(file, dim, text), reader::find(file, dim, text), "find, {what}");
        }
        assert_eq!(calls::find(file, dim, LAST).map(|f| f.place), Ok(input.cell));
        assert!(calls::find(file, dim, ABSENT).is_err());
        for place in [0, input.cell, input.last, input.last + 1] {
            assert_eq!(calls::extent(file, dim, place), reader::extent(file, dim, place), "extent, {what}");
            assert_eq!(calls::view(file, dim, place), reader::view(file, dim, place).map(|_| ()), "view, {what}");
        }
        self.whole(input);
        self.faults(input);
    }

    /// The same file with each word of its last cell, line and marker changed in turn, or cut off.
    fn faults(&mut self, input: &Input) {
        let dim = input.kind.dim();
        let mut file = input.file.clone();
        for at in 2 * input.cell as usize..file.len() {
            let old = file[at];
            for new in [old ^ 1, old ^ 0x48, old ^ 0x80, 255] {
                file[at] = new;
                self.judge(&file, dim, "a byte changed");
            }
            file[at] = old;
        }
        for len in 2 * input.cell as usize..file.len() {
            self.judge(&file[..len], dim, "cut off");
        }
        for dim in 0..5 {
            self.judge(&file, dim, "another dimension");
        }
    }

    /// Small files of every number and depth, the exact limits, changed words and any bytes.
    pub fn generated(&mut self, times: u64) {
        let random = &mut Random::new(417);
        for _ in 0..times {
            for dim in [2, 3] {
                for number in [1, 2].into_iter().chain(ORDER) {
                    for depth in 0..9 {
                        let a = aimed(random, dim, number, depth);
                        self.judge(&a.file, a.dim, "one fault");
                        assert_eq!(calls::judge(&a.file, a.dim), Err(a.refusal));
                    }
                }
                for depth in 0..9 {
                    let a = two_faults(random, dim, depth);
                    self.judge(&a.file, a.dim, "two faults");
                }
                let mut v = valid(random, dim).file;
                self.judge(&v, dim, "valid");
                let mut damaged = v.clone();
                changes::change_text(random, &mut damaged, dim);
                self.judge(&damaged, dim, "a text changed");
                changes::change_word(random, &mut v);
                self.judge(&v, dim, "a word changed");
                self.judge(&changes::random_bytes(random), dim, "any bytes");
                self.judge(&changes::soup(random), dim, "pieces of elements");
            }
        }
        for v in [
            large::largest_extent(),
            large::largest_extent_nested(),
            large::largest_element(),
            large::most_points(random, 2),
            large::most_points(random, 3),
            large::most_elements(),
            large::longest_file(),
            large::longest_file_of_cells(),
            large::most_linkages(),
            large::most_text(random, 2),
            large::most_text(random, 3),
            large::most_texts(random, 2),
            large::most_texts(random, 3),
        ] {
            self.judge(&v.file, v.dim, "a limit");
        }
        for file in [
            large::total_too_large(),
            large::element_too_large(65536),
            large::element_too_large(65537),
            large::oversize_file(),
            vec![],
            vec![0],
            vec![255, 255],
        ] {
            self.judge(&file, 2, "a limit");
        }
    }

    /// The real files, by both dimensions.
    pub fn real(&mut self, folder: &str) {
        let mut seen = 0;
        for entry in std::fs::read_dir(folder).expect(folder) {
            let path = entry.expect(folder).path();
            if path.extension().is_some_and(|e| e == "dgn" || e == "cel") {
                let file = std::fs::read(&path).expect("a real file");
                for dim in [2, 3] {
                    self.judge(&file, dim, "a real file");
                }
                seen += 1;
            }
        }
        assert!(seen > 0, "no real files");
    }
}
