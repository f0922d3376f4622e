//! Marking an element with all of its extent, and undoing it.

mod common;
use common::*;
use reader::generate::files::finish;
use reader::generate::journals::record;
use reader::generate::large::cell_of_many;
use reader::words::{bytes_of, words_of};
use reader::*;

const TOP: u32 = u32::MAX;

fn mark(place: u64, deleted: bool) -> Call {
    Call::Mark { place, deleted }
}

fn dead(mut words: Vec<u16>) -> Vec<u16> {
    words[0] |= 1 << 15;
    words
}

/// 0 cell, 46 cell, 92 deleted line, 118 text, 148 deleted chain, 168 line,
/// 194 line at the top, 220 marker.
fn start() -> Vec<u8> {
    let inner = cell(true, &[dead(line(true)), text(true)]);
    let chain = dead(header(12, true, 20, &[line(true)]));
    file(&[cell(false, &[inner, chain]), line(false)])
}

/// The places of all elements of `start`.
const ALL: [u64; 7] = [0, 46, 92, 118, 148, 168, 194];

/// Which of them are deleted.
fn deleted(state: &State) -> Vec<u64> {
    let words = used_words(state);
    let all = ALL.into_iter();
    all.filter(|&place| words[place as usize] >> 15 == 1)
        .collect()
}

fn undo_of(file: &[u8], words: &[u16]) -> State {
    let mut state = session(file, 0, 0);
    state.journal = bytes_of(words);
    state.jused = state.journal.len() as u64;
    state
}

// "Marking a header deleted or live now sets that bit in every element of its
// extent; a component may still be marked alone."
#[test]
fn whole_extents() {
    let cases = [
        (0, true, vec![0, 46, 92, 118, 148, 168]),
        (46, true, vec![46, 92, 118, 148]),
        (92, false, vec![148]),
        (118, true, vec![92, 118, 148]),
        (148, false, vec![92]),
        (168, true, vec![92, 148, 168]),
        (194, true, vec![92, 148, 194]),
    ];
    for (place, flag, wanted) in cases {
        let mut state = session(&start(), 0, 40);
        assert_eq!(deleted(&state), [92, 148]);
        let before = used_words(&state);
        assert_eq!(state.run(&mark(place, flag)), Ok(()));
        assert_eq!(deleted(&state), wanted, "marked at {place}");
        // Nothing but those bits.
        let after = used_words(&state);
        for (at, (old, new)) in before.iter().zip(&after).enumerate() {
            let bit = if ALL.contains(&(at as u64)) {
                1 << 15
            } else {
                0
            };
            assert_eq!(old | bit, new | bit);
        }
        assert_eq!((state.used, state.jused), (442, 14));
        assert_eq!(state.run(&Call::Undo), Ok(()));
        assert_eq!(used_words(&state), before);
    }
}

// "The flag record keeps the earlier bits, sixteen a word in file order, lowest
// first, spare bits zero": of the extent, the named element first.
#[test]
fn the_record() {
    let cases: [(u64, bool, u16); 7] = [
        (0, true, 0b010100),
        (46, true, 0b010),
        (92, false, 1),
        (118, true, 0),
        (148, false, 0b01),
        (168, true, 0),
        (194, true, 0),
    ];
    for (place, flag, bits) in cases {
        let mut state = session(&start(), 0, 40);
        assert_eq!(state.run(&mark(place, flag)), Ok(()));
        let words = words_of(&state.journal[..14]);
        assert_eq!(words, record(1, TOP, place as u32, &[bits]));
        assert!(state.journal[14..].iter().all(|&byte| byte == 0xBB));
    }
    for number in [0, 1, 14, 15, 16, 30, 31, 32, 33, 200, 32_750] {
        let made = finish(&[cell_of_many(number)], 2, &[]);
        // The cell, then its elements: 0, 3, 6 and so on are deleted.
        let mut payload = vec![0; (number + 1).div_ceil(16)];
        for k in (0..number).step_by(3) {
            payload[(k + 1) / 16] |= 1 << ((k + 1) % 16);
        }
        let room = 2 * payload.len() + 12;
        let mut state = session(&made.file, 0, room);
        assert_eq!(state.run(&mark(0, true)), Ok(()));
        assert_eq!(words_of(&state.journal), record(1, TOP, 0, &payload));
        let (starts, _) = reader::generate::places::scan(state.used_file());
        assert_eq!(starts.len(), number + 1);
        assert!(starts.iter().all(|start| start.deleted));
        assert_eq!(state.run(&Call::Undo), Ok(()));
        assert_eq!(state.used_file(), made.file);
        // "16 JOURNAL: too few free journal words".
        let short = session(&made.file, 0, room - 2);
        refuse(&short, &mark(0, true), 16, 0);
    }
    // The longest payload.
    assert_eq!((32_751_usize).div_ceil(16), 2_047);
}

// "14 looks at the named element's own bit only", before 16.
#[test]
fn already() {
    let state = session(&start(), 0, 0);
    refuse(&state, &mark(0, false), 14, 0);
    refuse(&state, &mark(148, true), 14, 0);
    refuse(&state, &mark(148, false), 16, 0);
    // A deleted header with live components, marked deleted again: nothing
    // changes.
    let mixed = file(&[dead(cell(false, &[line(true)]))]);
    refuse(&session(&mixed, 0, 100), &mark(0, true), 14, 0);
    let mut state = session(&mixed, 0, 100);
    assert_eq!(state.run(&mark(0, false)), Ok(()));
    assert_eq!(words_of(&state.journal[..2]), [1]);
    for room in [0, 2, 12] {
        let state = session(&file(&[line(false)]), 0, room);
        refuse(&state, &mark(0, true), 16, 0);
    }
    let mut state = session(&file(&[line(false)]), 0, 14);
    assert_eq!(state.run(&mark(0, true)), Ok(()));
}

// "undo writes them back, mixed as they were, whatever stands there now".
#[test]
fn bits_written_back() {
    for now in 0..64u16 {
        let mut words = words_of(&start());
        for (k, &place) in ALL[..6].iter().enumerate() {
            let rest = words[place as usize] & 0x7FFF;
            words[place as usize] = rest | (now >> k & 1) << 15;
        }
        for kept in 0..64u16 {
            let mut state = undo_of(&bytes_of(&words), &record(1, TOP, 0, &[kept]));
            assert_eq!(state.run(&Call::Undo), Ok(()));
            let wanted: Vec<u64> = (0..6)
                .filter(|k| kept >> k & 1 == 1)
                .map(|k| ALL[k])
                .collect();
            assert_eq!(deleted(&state), wanted);
            assert_eq!(state.jused, 0);
        }
    }
}

// "spare bits zero (else 19)", "a flag record of the old form, or of another
// size than its extent needs, is 19".
#[test]
fn records_refused() {
    let bad = |words: &[u16]| refuse(&undo_of(&start(), words), &Call::Undo, 19, 0);
    for (place, elements) in [(0, 6), (46, 3), (92, 1), (118, 1), (148, 2), (194, 1)] {
        for bit in elements..16 {
            bad(&record(1, TOP, place, &[1 << bit]));
        }
        bad(&record(1, TOP, place, &[]));
        bad(&record(1, TOP, place, &[0, 0]));
        bad(&record(1, TOP, place, &[0; 3]));
        for header in [0, 46, 1 << 31, TOP - 1] {
            bad(&record(1, header, place, &[0]));
        }
    }
    for place in [1, 45, 220, 221, 1 << 31, TOP] {
        bad(&record(1, TOP, place, &[0]));
    }
    // Exactly as many words as the extent now needs.
    for number in [14, 15, 16, 31, 32] {
        let file = finish(&[cell_of_many(number)], 2, &[]).file;
        let needed = (number + 1).div_ceil(16);
        for words in 0..4 {
            let state = undo_of(&file, &record(1, TOP, 0, &vec![0; words]));
            if words == needed {
                assert_eq!(state.clone().run(&Call::Undo), Ok(()));
            } else {
                refuse(&state, &Call::Undo, 19, 0);
            }
        }
        if (number + 1) % 16 != 0 {
            let mut payload = vec![0; needed];
            payload[needed - 1] = 1 << 15;
            let state = undo_of(&file, &record(1, TOP, 0, &payload));
            refuse(&state, &Call::Undo, 19, 0);
        }
    }
    // A record of another extent passes where its size fits by chance.
    let nine = finish(&[cell_of_many(8)], 2, &[]).file;
    let mut state = undo_of(&nine, &record(1, TOP, 0, &[0b11111]));
    assert_eq!(state.run(&Call::Undo), Ok(()));
}

// "Demand 3 reads with this edit": the book marks the extent as the file then
// stands.
#[test]
fn the_book() {
    let mut state = session(&start(), 400, 400);
    let mut book = Book::new(&start(), 2);
    let piece = bytes_of(&text(true));
    let calls = [
        mark(46, true),
        Call::Insert {
            header: Some(46),
            place: 92,
            piece,
        },
        mark(0, true),
        mark(92, false),
        Call::Remove { place: 92 },
        mark(0, false),
        mark(148, true),
    ];
    for call in &calls {
        assert_eq!(state.run(call), Ok(()), "{call:?}");
        book.feed(call, false);
        assert_eq!(book.bytes().as_deref(), Some(state.used_file()));
    }
    assert_eq!(deleted(&state), [148, 168]);
    for _ in &calls {
        assert_eq!(state.run(&Call::Undo), Ok(()));
        book.feed(&Call::Undo, false);
        assert_eq!(book.bytes().as_deref(), Some(state.used_file()));
    }
    assert_eq!(state.used_file(), start());
    // Where there is no such element it has no words.
    book.feed(&mark(u64::MAX, true), false);
    assert_eq!(book.words(), None);
}
