//! Edits of a file of nearly 1 MiB against judging it and moving as many bytes: a line put in and taken out at the front
//! and at the end, the last element marked, and the undo of each. A cell of 2,000 elements marked, and its undo, stand
//! against judging the file and going over the cell's extent once.

use crate::calls;
use crate::inputs::{line_for, make, make_after, Kind, KIB, KINDS};
use crate::tables::{heading, row};
use crate::timing::{measure, Measured};
use reader::generate::large;
use reader::generate::tree::lay;
use reader::{Call, State};
use std::hint::black_box;

enum Work {
    Edit(Call),
    /// Judging the used file and opening a gap of so many bytes in it.
    Plain {
        from: usize,
        gap: usize,
    },
    /// Judging the used file and going over its words up to a place, from element to element.
    Hop {
        end: usize,
    },
}

/// Some work, the session before it, and the buffers in which it is done.
struct Done {
    start: State,
    state: State,
    work: Work,
}

impl Done {
    fn new(start: &State, work: Work) -> Done {
        Done { start: start.clone(), state: start.clone(), work }
    }

    fn restore(&mut self) {
        self.state.file.copy_from_slice(&self.start.file);
        self.state.journal.copy_from_slice(&self.start.journal);
        (self.state.used, self.state.jused) = (self.start.used, self.start.jused);
    }
}

impl Measured for Done {
    /// The buffers as they were; they and the code are in the cache.
    fn ready(&mut self) {
        self.restore();
        self.run();
        self.restore();
    }

    fn run(&mut self) {
        let state = black_box(&mut self.state);
        match &self.work {
            Work::Edit(call) => calls::edit(state, call).expect("an edit that is made"),
            Work::Plain { from, gap } => {
                let used = state.used as usize;
                assert!(calls::judge(&state.file[..used], state.dim).is_ok());
                calls::move_within(&mut state.file, *from, from + gap, used - from);
            }
            Work::Hop { end } => {
                let used = state.used as usize;
                assert!(calls::judge(&state.file[..used], state.dim).is_ok());
                assert!(black_box(calls::in_extent(&state.file, 0, *end)) > 2000);
            }
        }
    }
}

/// The session after a call, which the second reader makes alike.
fn after(start: &State, call: &Call) -> State {
    let mut ours = start.clone();
    let mut theirs = start.clone();
    assert_eq!(calls::edit(&mut ours, call), Ok(()));
    assert_eq!(theirs.run(call), Ok(()));
    assert!(ours == theirs, "the second reader's bytes");
    ours
}

const ROWS: [&str; 12] = [
    "insert a line, front",
    "its undo",
    "remove it, front",
    "its undo",
    "insert a line, end",
    "its undo",
    "remove it, end",
    "its undo",
    "mark, last element",
    "its undo",
    "mark, a cell of 2,000 elements",
    "its undo",
];

/// A session on a file, with room behind it.
fn begun(mut file: Vec<u8>, dim: u64) -> State {
    let used = file.len() as u64;
    file.resize(1024 * KIB, 0);
    State { dim, file, used, journal: vec![0; 4 * KIB], jused: 0 }
}

/// The ratios of one kind of file, a cell for each row.
fn column(kind: Kind, rounds: usize) -> Vec<String> {
    let input = make(kind, 1020 * KIB, 1);
    let used = input.file.len();
    let dim = kind.dim();
    let start = begun(input.file, dim);
    let cell = lay(&[large::cell_of_many(2000)]).words;
    let many = begun(make_after(&cell, kind, 1020 * KIB, 1).file, dim);
    let piece = line_for(dim, 1);
    let gap = piece.len();
    let end = used - 2;

    let mut all: Vec<Box<dyn Measured>> = Vec::new();
    let mut pair = |start: &State, call: Call| {
        let edited = after(start, &call);
        let undone = after(&edited, &Call::Undo);
        assert!(undone.used_file() == start.used_file());
        all.push(Box::new(Done::new(start, Work::Edit(call))));
        all.push(Box::new(Done::new(&edited, Work::Edit(Call::Undo))));
        edited
    };
    for place in [0, end as u64 / 2] {
        let with = pair(&start, Call::Insert { header: None, place, piece: piece.clone() });
        pair(&State { jused: 0, ..with }, Call::Remove { place });
    }
    pair(&start, Call::Mark { place: input.last, deleted: start.file[2 * input.last as usize + 1] < 128 });
    pair(&many, Call::Mark { place: 0, deleted: true });
    all.push(Box::new(Done::new(&start, Work::Plain { from: 0, gap })));
    all.push(Box::new(Done::new(&start, Work::Plain { from: end, gap })));
    all.push(Box::new(Done::new(&many, Work::Hop { end: cell.len() })));

    let times = measure(&mut all, rounds);
    let beside = |k| match k {
        0..=3 => 12,
        4..=9 => 13,
        _ => 14,
    };
    (0..ROWS.len()).map(|k| times.ratio(k, beside(k)).to_string()).collect()
}

/// A row for each edit, a column for each kind of file.
pub fn table(rounds: usize) {
    let mut cells = vec!["to judge and a memmove, 1020 KiB"];
    cells.extend(KINDS.map(Kind::name));
    heading(&cells);
    let columns: Vec<Vec<String>> = KINDS.iter().map(|&kind| column(kind, rounds)).collect();
    for (k, name) in ROWS.iter().enumerate() {
        let mut cells = vec![name.to_string()];
        cells.extend(columns.iter().map(|c| c[k].clone()));
        row(&cells);
    }
}
