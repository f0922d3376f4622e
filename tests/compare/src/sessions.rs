//! Sessions of both readers, with an index and without: after each call the same answer, the same used lengths and the same
//! bytes in all whole buffers; the file's used words are those of the book, which is fed the calls alone, and after a call
//! that is made the index is that of the book and the one that is built afresh.

use crate::guard::Side;
use crate::library;
use crate::runs::Runs;
use reader::generate::indexes::{any_index, built};
use reader::generate::journals::undo_state;
use reader::generate::places::{scan, Start};
use reader::generate::sessions::{fresh_state, next_call, piece_for, rough_state};
use reader::generate::tree::is_header;
use reader::generate::{aimed, large, texts, Random, ORDER};
use reader::words::{bytes_of, words_of};
use reader::{Book, Call, Index, Refusal, State};

/// A session in both readers, with an index of each or without. Its book holds where the journal was empty at first.
pub struct Both {
    pub start: State,
    pub ours: State,
    pub theirs: State,
    pub index: Option<[Index; 2]>,
    book: Option<Book>,
}

/// The kind of the journal's last record, 0 where there is none.
fn last_kind(s: &State) -> usize {
    let at = (s.jused as usize).wrapping_sub(12);
    s.journal.get(at..at.wrapping_add(2)).map_or(0, |w| usize::from(u16::from_le_bytes([w[0], w[1]])))
}

impl Both {
    pub fn new(start: State) -> Both {
        let book = (start.jused == 0).then(|| Book::new(start.used_file(), start.dim));
        Both { ours: start.clone(), theirs: start.clone(), start, index: None, book }
    }

    /// The same with an index.
    pub fn indexed(start: State, index: Index) -> Both {
        let mut both = Both::new(start);
        both.lend(index);
        both
    }

    /// Another index from now on.
    pub fn lend(&mut self, index: Index) {
        self.index = Some([index.clone(), index]);
    }

    /// Makes the call in both readers.
    fn make(&mut self, call: &Call) -> [Result<(), Refusal>; 2] {
        match &mut self.index {
            None => [library::call(&mut self.ours, None, call), self.theirs.run(call)],
            Some([ours, theirs]) => {
                [library::call(&mut self.ours, Some(ours), call), self.theirs.run_indexed(theirs, call)]
            }
        }
    }

    /// Whether the index is that of the file, by the book too, with zeros to its end.
    fn in_step(&self) -> bool {
        let Some([ours, _]) = &self.index else { return true };
        let length = ours.buffer.len();
        let mut afresh = vec![0xa5; length];
        let used = library::build(self.ours.used_file(), self.ours.dim, &mut afresh);
        let book = self.book.as_ref().map(|book| book.index(length));
        used == Ok(ours.used)
            && afresh == ours.buffer
            && book.is_none_or(|index| index == Some((ours.buffer.clone(), ours.used)))
    }

    pub fn call(&mut self, runs: &mut Runs, call: &Call) -> Result<(), Refusal> {
        let kind = last_kind(&self.ours);
        let good = reader::judge(self.ours.used_file(), self.ours.dim).is_ok();
        let before = (self.ours.used, runs.record(&self.ours.journal, self.ours.jused));
        let [answer, expected] = self.make(call);
        assert_eq!(answer, expected, "{call:?} from {:?}, {:?}", self.start, self.index);
        assert!(self.ours == self.theirs, "{call:?} from {:?}", self.start);
        assert!(self.index.as_ref().is_none_or(|[ours, theirs]| ours == theirs), "{call:?} from {:?}", self.start);
        if let Some(book) = &mut self.book {
            book.feed(call, answer.is_err());
            assert_eq!(book.words(), Some(words_of(self.ours.used_file())), "{call:?} from {:?}", self.start);
        }
        assert!(answer.is_err() || self.in_step(), "{call:?} from {:?}, {:?}", self.start, self.index);
        runs.record_of(call, &answer, before, &self.ours, self.index.is_some());
        runs.calls += 1;
        runs.edits.note(self.start.dim, call, &answer, good, kind, self.index.is_some());
        answer
    }

    /// A call that must be made.
    pub fn made(&mut self, runs: &mut Runs, call: &Call) {
        assert_eq!(self.call(runs, call), Ok(()), "{call:?} from {:?}", self.start);
    }

    pub fn refused(&mut self, runs: &mut Runs, call: &Call, number: u32, place: u64) {
        assert_eq!(self.call(runs, call), Err(Refusal { number, place }), "{call:?} from {:?}", self.start);
    }

    /// As many undos as edits are listed: the original's bytes again, and nothing left to undo.
    pub fn undo_all(&mut self, runs: &mut Runs) {
        let Some(listed) = self.book.as_ref().map(Book::listed) else { return };
        for _ in 0..listed {
            self.made(runs, &Call::Undo);
        }
        assert_eq!((self.ours.used, self.ours.jused), (self.start.used, self.start.jused));
        assert!(self.ours.used_file() == self.start.used_file(), "from {:?}", self.start);
        let last = self.call(runs, &Call::Undo);
        assert!(last.is_err() && (listed == 0 || last.is_err_and(|r| (r.number, r.place) == (17, 0))));
    }

    /// One bit of the last record changed, an undo, and the bit changed back. False where the undo was made: the book
    /// does not hold any more.
    fn undo_damaged(&mut self, random: &mut Random, runs: &mut Runs) -> bool {
        let jused = self.ours.jused as usize;
        if jused < 12 || jused > self.ours.journal.len() {
            return true;
        }
        let reach = if random.one_in(4) { jused.min(64) } else { 12 };
        let at = jused - 1 - random.index(reach);
        let bit = 1 << random.below(8);
        self.ours.journal[at] ^= bit;
        self.theirs.journal[at] ^= bit;
        let book = self.book.take();
        if self.call(runs, &Call::Undo).is_ok() {
            return false;
        }
        self.ours.journal[at] ^= bit;
        self.theirs.journal[at] ^= bit;
        self.book = book;
        true
    }
}

/// A call for the file as it now is. In C the largest number is the top's, so it names no header.
pub fn any_call(random: &mut Random, s: &State) -> Call {
    match next_call(random, s.used_file(), s.dim) {
        Call::Insert { header: Some(library::TOP), place, piece } => Call::Insert { header: None, place, piece },
        call => call,
    }
}

/// A piece with a fault of that number somewhere in it.
pub fn bad_piece(random: &mut Random, dim: u64, number: u32) -> Vec<u8> {
    let depth = random.below(9);
    let a = aimed(random, dim, number, depth);
    let tops: Vec<Start> = scan(&a.file).0.into_iter().filter(|s| s.depth == 0).collect();
    let first = tops.iter().rfind(|s| s.place <= a.refusal.place).map_or(0, |s| 2 * s.place as usize);
    let last = tops.iter().map(|s| 2 * s.end as usize).find(|&end| end > first).unwrap_or(a.file.len());
    a.file[first..last.min(a.file.len())].to_vec()
}

/// The index of a file as it is built, in a buffer whose length is around the exact one.
fn around(random: &mut Random, file: &[u8], dim: u64) -> Index {
    let mut index = built(random, file, dim);
    let length = (index.used as usize + random.index(26)).saturating_sub(9);
    index.buffer.truncate(index.used as usize);
    index.buffer.resize(length, 0);
    index.used = index.used.min(length as u64 / 8 * 8);
    index
}

/// Another index for a session that has one: stale, damaged or any, or as it should be in a buffer of another length.
fn relend(random: &mut Random, both: &mut Both) {
    let (file, dim) = (both.ours.used_file().to_vec(), both.ours.dim);
    let index = match random.below(4) {
        0 => any_index(random, &file, dim),
        1 => around(random, &file, dim),
        _ => built(random, &file, dim),
    };
    both.lend(index);
}

/// A session of some calls, undone to its start; every other one with an index, which is built at first or, for one call in
/// eight, another.
fn run(random: &mut Random, runs: &mut Runs, start: State, calls: u64) {
    library::lend_at(if random.one_in(2) { Side::Before } else { Side::Behind }, random.one_in(8));
    let mut both = Both::new(start);
    let with_index = random.one_in(2);
    if with_index {
        let index = built(random, both.ours.used_file(), both.ours.dim);
        both.lend(index);
    }
    for _ in 0..calls {
        if with_index && random.one_in(8) {
            relend(random, &mut both);
        }
        let call = match random.below(12) {
            0 => {
                let (header, place, _) = piece_for(random, both.ours.used_file(), both.ours.dim);
                let number = random.pick(&ORDER);
                Call::Insert { header, place, piece: bad_piece(random, both.ours.dim, number) }
            }
            1 => {
                if !both.undo_damaged(random, runs) {
                    return;
                }
                continue;
            }
            _ => any_call(random, &both.ours),
        };
        let _ = both.call(runs, &call);
    }
    if with_index {
        // room for any state that an undo returns to
        let mut index = built(random, both.ours.used_file(), both.ours.dim);
        index.buffer.resize(both.ours.file.len(), 0);
        both.lend(index);
    }
    both.undo_all(runs);
}

/// Sessions over valid files and, one in four, over a start that is not in order or a damaged journal.
pub fn random(random: &mut Random, runs: &mut Runs, calls: u64) {
    let before = runs.calls;
    while runs.calls < before + calls {
        let (start, n) = match random.below(8) {
            0 => (rough_state(random), 4),
            1 => (undo_state(random), 4),
            _ => (fresh_state(random), 8 + random.below(40)),
        };
        run(random, runs, start, n);
    }
    library::lend_at(Side::Behind, false);
}

/// A raw element.
pub fn raw(size: usize, c: bool) -> Vec<u8> {
    bytes_of(&large::raw_of(size, c))
}

/// A state with ample room over a file to its marker.
pub fn ample(file: &[u8], dim: u64) -> State {
    let used = file.len();
    let mut bytes = file.to_vec();
    bytes.resize(used + 4000, 0xa7);
    State { dim, file: bytes, used: used as u64, journal: vec![0x5c; used + 4000], jused: 0 }
}

/// The index of a file as it is built, with room for more than any piece has.
fn with_room(file: &[u8], dim: u64) -> Index {
    let mut buffer = vec![0; file.len() + 4001];
    let used = reader::build_index(file, dim, &mut buffer).expect("an accepted file");
    Index { buffer, used }
}

/// Every edit of one element or list of a file, each undone again: each element marked, renamed and removed, a piece put
/// in at each start and at the end of each list. Where the file ends all lists that end with it are among them.
pub fn everywhere(random: &mut Random, runs: &mut Runs, start: State, with_index: bool) {
    let mut both = Both::new(start);
    let (file, dim) = (both.ours.used_file().to_vec(), both.ours.dim);
    if with_index {
        both.lend(with_room(&file, dim));
    }
    let (starts, marker) = scan(&file);
    let mut lists: Vec<(Option<u64>, u64)> = vec![(None, marker)];
    let mut edits = Vec::new();
    for s in &starts {
        edits.push(Call::Mark { place: s.place, deleted: !s.deleted });
        edits.push(Call::Mark { place: s.place, deleted: s.deleted });
        edits.push(Call::Rename { place: s.place, text: texts::text(random) });
        edits.push(Call::Rename { place: s.place, text: texts::bad_text(random) });
        edits.push(Call::Remove { place: s.place });
        edits.push(Call::Remove { place: s.place + 1 });
        lists.push((s.header, s.place));
        if is_header(s.kind) {
            lists.push((Some(s.place), s.end));
        }
    }
    for (header, place) in lists {
        // pieces for other places too: C, type and depth decide
        for _ in 0..2 {
            let (_, _, piece) = piece_for(random, &file, dim);
            edits.push(Call::Insert { header, place, piece });
        }
        edits.push(Call::Insert { header, place: place + 1, piece: raw(2, header.is_some()) });
        edits.push(Call::Insert { header, place, piece: raw(2, header.is_some()) });
    }
    for edit in &edits {
        if both.call(runs, edit).is_ok() {
            both.made(runs, &Call::Undo);
            assert!(both.ours.used_file() == file);
        }
    }
    // every element removed from the last to the first, and all put back: last components too
    for s in starts.iter().rev() {
        let _ = both.call(runs, &Call::Remove { place: s.place });
    }
    both.undo_all(runs);
}

/// Small files, every edit at every place of them, every other file with an index.
pub fn places(random: &mut Random, runs: &mut Runs, times: u64) {
    for k in 0..times {
        let s = fresh_state(random);
        let start = ample(s.used_file(), s.dim);
        everywhere(random, runs, start, k % 2 == 1);
    }
}

/// The largest files: edits at the front, in the deepest element and at the end, and their undos.
pub fn largest(runs: &mut Runs) {
    for v in [
        large::largest_extent(),
        large::largest_extent_nested(),
        large::largest_element(),
        large::most_elements(),
        large::longest_file(),
        large::longest_file_of_cells(),
        large::most_cells(400),
    ] {
        large_session(runs, &v.file, v.dim, false);
        large_session(runs, &v.file, v.dim, true);
    }
}

/// Edits of the first, the deepest and the last element of a file, undone.
pub fn large_session(runs: &mut Runs, file: &[u8], dim: u64, with_index: bool) {
    let (starts, marker) = scan(file);
    let file = &file[..2 * marker as usize + 2];
    let mut start = ample(file, dim);
    start.file.truncate(1_048_576);
    start.journal.resize(1_048_576, 0);
    // what an index takes at most, and one more entry
    let mut index = with_room(start.used_file(), dim);
    index.buffer.resize(119_840, 0);
    let mut both = if with_index { Both::indexed(start, index) } else { Both::new(start) };
    let deepest = starts.iter().max_by_key(|s| s.depth).map_or(0, |s| s.place);
    let last = starts.last().map_or(0, |s| s.place);
    for place in [0, deepest, last] {
        let _ = both.call(runs, &Call::Mark { place, deleted: true });
        let _ = both.call(runs, &Call::Rename { place, text: b"00417".to_vec() });
        let _ = both.call(runs, &Call::Insert { header: None, place, piece: raw(2, false) });
        if both.call(runs, &Call::Remove { place }).is_ok() {
            both.made(runs, &Call::Undo);
        }
    }
    let _ = both.call(runs, &Call::Remove { place: deepest });
    both.undo_all(runs);
}
