//! Cells and indexes: both made against C that judges, walks and sorts with qsort; a name looked up against the finder; and every edit
//! with an index against the one without.

use crate::calls;
use crate::inputs::{library, ABSENT};
use crate::tables::{heading, row};
use crate::timing::{measure, Measured};
use dgn::raw;
use reader::{Call, Index, State};
use std::hint::black_box;

extern "C" {
    fn plain_index(file: *const u8, len: usize, dim: usize, index: *mut u8, room: usize, out: *mut usize) -> usize;
    fn plain_cells(file: *const u8, len: usize, dim: usize, entries: *mut u8, out: *mut usize) -> usize;
}

/// The index of a file in a buffer: its used length, or the number of the refusal.
fn build(file: &[u8], dim: u64, index: &mut [u8]) -> Result<usize, usize> {
    let mut out = [0];
    match raw::index(file, dim as usize, index, &mut out) {
        0 => Ok(out[0]),
        returned => Err(returned % 256),
    }
}

fn build_in_c(file: &[u8], dim: u64, index: &mut [u8]) -> Result<usize, usize> {
    let mut out = 0;
    match unsafe { plain_index(file.as_ptr(), file.len(), dim as usize, index.as_mut_ptr(), index.len(), &mut out) } {
        0 => Ok(out),
        number => Err(number),
    }
}

/// The cells of an accepted file, into a buffer that has room for all: how many.
fn list(file: &[u8], dim: u64, entries: &mut [u8]) -> usize {
    let mut out = [0; 4];
    assert_eq!(raw::cells(file, dim as usize, entries, &mut out), 0);
    out[0]
}

fn list_in_c(file: &[u8], dim: u64, entries: &mut [u8]) -> usize {
    assert!(entries.len() >= dgn::index_room(file.len()));
    let mut out = 0;
    assert_eq!(unsafe { plain_cells(file.as_ptr(), file.len(), dim as usize, entries.as_mut_ptr(), &mut out) }, 0);
    out
}

/// The index of any file, by the library, C and the second reader, in a buffer of so many bytes.
pub fn alike(file: &[u8], dim: u64, room: usize) {
    let (mut ours, mut in_c, mut theirs) = (vec![7; room], vec![7; room], vec![7; room]);
    let answer = build(file, dim, &mut ours);
    assert_eq!(answer, build_in_c(file, dim, &mut in_c));
    let second = reader::build_index(file, dim, &mut theirs);
    assert_eq!(answer, second.map(|used| used as usize).map_err(|refused| refused.number as usize));
    assert!(ours == in_c && ours == theirs, "an index in {room} bytes");
}

/// What is measured: its title, how many cells, how many lines in each.
const LIBRARIES: [(&str, usize, usize); 3] = [
    ("1,500 cells, 103 KiB", 1500, 0),
    ("1,500 cells of 12 lines, 1 MiB", 1500, 12),
    ("14,979 cells, 1 MiB, the most there can be", 14_979, 0),
];

/// An edit in a session, with an index or without.
struct Edit {
    start: (State, Option<Index>),
    now: (State, Option<Index>),
    call: Call,
}

impl Edit {
    fn new(state: &State, index: Option<&Index>, call: &Call) -> Edit {
        let start = (state.clone(), index.cloned());
        Edit { now: start.clone(), start, call: call.clone() }
    }

    fn restore(&mut self) {
        let ((state, index), (now, now_index)) = (&self.start, &mut self.now);
        now.file.copy_from_slice(&state.file);
        now.journal.copy_from_slice(&state.journal);
        (now.used, now.jused) = (state.used, state.jused);
        if let (Some(index), Some(now_index)) = (index, now_index) {
            now_index.buffer.copy_from_slice(&index.buffer);
            now_index.used = index.used;
        }
    }
}

impl Measured for Edit {
    fn ready(&mut self) {
        self.restore();
        self.run();
        self.restore();
    }

    fn run(&mut self) {
        let (state, index) = black_box(&mut self.now);
        match index {
            Some(index) => calls::edit_indexed(state, index, &self.call).expect("an edit that is made"),
            None => calls::edit(state, &self.call).expect("an edit that is made"),
        }
    }
}

/// The session and its index after a call, which the second reader makes alike.
fn after(start: &State, index: &Index, call: &Call) -> (State, Index) {
    let (mut ours, mut theirs) = ((start.clone(), index.clone()), (start.clone(), index.clone()));
    assert_eq!(calls::edit_indexed(&mut ours.0, &mut ours.1, call), Ok(()));
    assert_eq!(theirs.0.run_indexed(&mut theirs.1, call), Ok(()));
    assert!(ours == theirs, "the second reader's bytes");
    ours
}

/// The index and the cells, to C, and the index to the cells.
fn built(rounds: usize) {
    heading(&["built and listed", "index, µs", "to C with qsort", "cells in file order, µs", "to C", "to judge"]);
    for (title, cells, lines) in LIBRARIES {
        let file = library(cells, lines, 1);
        let room = 8 * cells + 100;
        for room in [room, 8 * cells, 8 * cells - 1, 0] {
            alike(&file, 2, room);
        }
        let mut buffers = vec![vec![0; dgn::index_room(file.len()).max(room)]; 4];
        let (a, rest) = buffers.split_at_mut(1);
        let (b, rest) = rest.split_at_mut(1);
        let (c, d) = rest.split_at_mut(1);
        assert!(list(&file, 2, &mut c[0]) == list_in_c(&file, 2, &mut d[0]) && c == d);
        let mut works: Vec<Box<dyn Measured + '_>> = vec![
            Box::new(|| assert!(build(black_box(&file), 2, black_box(&mut a[0])).is_ok())),
            Box::new(|| assert!(build_in_c(black_box(&file), 2, black_box(&mut b[0])).is_ok())),
            Box::new(|| assert_eq!(list(black_box(&file), 2, black_box(&mut c[0])), cells)),
            Box::new(|| assert_eq!(list_in_c(black_box(&file), 2, black_box(&mut d[0])), cells)),
            Box::new(|| assert!(calls::judge(black_box(&file), 2).is_ok())),
        ];
        let times = measure(&mut works, rounds);
        row(&[
            title.to_string(),
            format!("{:.0}", times.time(0) * 1e6),
            times.ratio(0, 1).to_string(),
            format!("{:.0}", times.time(2) * 1e6),
            times.ratio(2, 3).to_string(),
            times.ratio(2, 4).to_string(),
        ]);
    }
}

/// How many names are looked up in one measured run, since a single one takes less than a clock shows.
const NAMES: usize = 1000;

/// A name looked up, against the finder on the same file.
fn looked_up(rounds: usize) {
    heading(&["a name looked up", "ns", "looks at most", "µs of the finder, not there", "of that one look-up is"]);
    for (title, cells, lines) in LIBRARIES {
        let file = library(cells, lines, 1);
        let mut index = vec![0; 8 * cells];
        let used = build(&file, 2, &mut index).expect("an accepted file");
        // names of cells all over the index, and one that is not there
        let names: Vec<Vec<u8>> = index
            .chunks(8)
            .step_by(cells.div_ceil(NAMES))
            .map(|e| {
                let word = |k: usize| u16::from_le_bytes([e[k], e[k + 1]]);
                reader::unpack(word(0), word(2)).expect("a name")
            })
            .collect();
        let mut most = 0;
        for name in names.iter().map(|name| &name[..]).chain([ABSENT]) {
            let mut out = [0; 2];
            let returned = raw::look_up_with_deleted(&index, used, name, &mut out);
            let theirs = reader::look_up_with_deleted(&index, used as u64, name);
            let found = reader::find_with_deleted(&file, 2, name).map(|found| found.place);
            assert_eq!(theirs.clone().map(|found| found.place).ok(), found.ok());
            match theirs {
                Ok(found) => assert_eq!((returned, out), (0, [found.place as usize, found.looked as usize])),
                Err(refused) => assert_eq!(returned, 13 + 256 * refused.count as usize),
            }
            most = most.max(if returned == 0 { out[1] } else { returned / 256 });
        }
        let mut works: Vec<Box<dyn Measured + '_>> = vec![
            Box::new(|| {
                for k in 0..NAMES {
                    let mut out = [0; 2];
                    // not in the order of the index
                    let name = &names[k * 617 % names.len()];
                    assert_eq!(raw::look_up_with_deleted(black_box(&index), used, name, black_box(&mut out)), 0);
                }
            }),
            Box::new(|| assert!(calls::find(black_box(&file), 2, ABSENT).is_err())),
        ];
        let times = measure(&mut works, rounds);
        let one = times.time(0) / NAMES as f64;
        row(&[
            title.to_string(),
            format!("{:.0}", one * 1e9),
            most.to_string(),
            format!("{:.0}", times.time(1) * 1e6),
            format!("1/{:.0}", times.time(1) / one),
        ]);
    }
}

const EDITS: [&str; 6] =
    ["rename, last cell", "its undo", "insert a cell, front", "its undo", "mark, first cell", "its undo"];

/// Every edit with an index to the one without.
fn edited(rounds: usize) {
    let mut titles = vec!["an edit with an index, to the same without"];
    titles.extend(LIBRARIES.map(|(title, ..)| title));
    heading(&titles);
    let mut columns = Vec::new();
    for (_, cells, lines) in LIBRARIES {
        let mut file = library(cells, lines, 1);
        // one cell fewer, so that there is room for one more
        let cell = file.len() / cells / 2 * 2;
        file.drain(..cell);
        let used = file.len() as u64;
        file.resize(file.len() + cell, 0);
        let start = State { dim: 2, file, used, journal: vec![0; 4096], jused: 0 };
        let mut index = Index { buffer: vec![0; 8 * cells], used: 0 };
        index.used = build(start.used_file(), 2, &mut index.buffer).expect("room") as u64;
        let last = (used - 2 - cell as u64) / 2;
        let piece = start.file[..cell].to_vec();
        let calls = [
            Call::Rename { place: last, text: b"00417".to_vec() },
            Call::Insert { header: None, place: 0, piece },
            Call::Mark { place: 0, deleted: true },
        ];
        let mut works: Vec<Box<dyn Measured>> = Vec::new();
        for call in &calls {
            let edited = after(&start, &index, call);
            let undone = after(&edited.0, &edited.1, &Call::Undo);
            assert!(undone.0.used_file() == start.used_file() && undone.1 == index);
            for (state, index, call) in [(&start, &index, call), (&edited.0, &edited.1, &Call::Undo)] {
                works.push(Box::new(Edit::new(state, Some(index), call)));
                works.push(Box::new(Edit::new(state, None, call)));
            }
        }
        let times = measure(&mut works, rounds);
        columns.push((0..EDITS.len()).map(|k| times.ratio(2 * k, 2 * k + 1).to_string()).collect::<Vec<_>>());
    }
    for (k, name) in EDITS.iter().enumerate() {
        let mut cells = vec![name.to_string()];
        cells.extend(columns.iter().map(|column| column[k].clone()));
        row(&cells);
    }
}

/// The three tables.
pub fn tables(rounds: usize) {
    built(rounds);
    looked_up(rounds);
    edited(1 + rounds / 3);
}
