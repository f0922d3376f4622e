//! Undo: what it gives back, and what it refuses in which order.

mod common;
use common::*;
use reader::generate::journals::{record, undo_state};
use reader::generate::Random;
use reader::words::bytes_of;
use reader::*;

const TOP: u32 = u32::MAX;

/// A session whose journal holds these words, with free bytes in the file.
fn with_journal(file: &[u8], room: usize, journal: &[u16]) -> State {
    let mut state = session(file, room, 0);
    state.journal = bytes_of(journal);
    state.jused = state.journal.len() as u64;
    state
}

fn refuse(state: &State, number: u32) {
    let mut after = state.clone();
    assert_eq!(after.run(&Call::Undo), refused(number, 0));
    assert_eq!(&after, state);
}

/// 0 cell, 46 chain, 66 line, 92 text, 122 line at the top, 148 marker.
fn start() -> Vec<u8> {
    let chain = header(12, true, 20, &[line(true), text(true)]);
    file(&[cell(false, &[chain]), line(false)])
}

// "17 NOTHING: undo of an empty journal", after the file's own.
#[test]
fn nothing_to_undo() {
    refuse(&session(&start(), 0, 100), 17);
    refuse(&session(&start(), 0, 0), 17);
}

// "Undo takes off the last record and reverses it: the room is used again, the
// journal's bytes stay."
#[test]
fn each_edit_undone() {
    let edits = [
        Call::Mark {
            place: 66,
            deleted: true,
        },
        Call::Rename {
            place: 0,
            text: b"$$".to_vec(),
        },
        Call::Insert {
            header: Some(46),
            place: 122,
            piece: bytes_of(&text(true)),
        },
        Call::Insert {
            header: Some(0),
            place: 122,
            piece: bytes_of(&text(true)),
        },
        Call::Insert {
            header: None,
            place: 122,
            piece: bytes_of(&text(false)),
        },
        Call::Remove { place: 92 },
        Call::Remove { place: 46 },
        Call::Remove { place: 0 },
    ];
    for edit in edits {
        let mut state = session(&start(), 100, 400);
        let before = state.clone();
        assert_eq!(state.run(&edit), Ok(()));
        assert_ne!(state.used_file(), before.used_file());
        let journal = state.journal.clone();
        assert_eq!(state.run(&Call::Undo), Ok(()));
        assert_eq!(state.used_file(), before.used_file());
        assert_eq!((state.used, state.jused), (before.used, 0));
        assert_eq!(state.journal, journal);
        if let Call::Insert { .. } = edit {
            // The words freed at the end are zero.
            let used = state.used as usize;
            assert!(state.file[used..used + 60].iter().all(|&byte| byte == 0));
            assert_eq!(state.file[used + 60..], before.file[used + 60..]);
        }
        refuse(&state, 17);
    }
}

// "Putting a removed last component back under the outer header" is an error.
#[test]
fn last_component_back() {
    let mut state = session(&start(), 0, 400);
    assert_eq!(state.run(&Call::Remove { place: 92 }), Ok(()));
    assert_eq!(view(state.used_file(), 2, 46).unwrap().count, Some(1));
    assert_eq!(state.run(&Call::Undo), Ok(()));
    assert_eq!(view(state.used_file(), 2, 92).unwrap().header, Some(46));
    assert_eq!(state.used_file(), start());
}

// "A record is ill-formed if it does not fit in the used journal, its kind is
// not 1 to 4, or its payload or header place is not its kind's."
#[test]
fn ill_formed_records() {
    let bad = |words: &[u16]| refuse(&with_journal(&start(), 400, words), 19);
    for length in 1..6 {
        bad(&record(1, TOP, 0, &[])[6 - length..]);
    }
    for kind in [0, 5, 6, 256, 65535] {
        bad(&record(kind, TOP, 0, &[]));
    }
    for header in [0, 46, 1 << 31, TOP - 1] {
        bad(&record(1, header, 66, &[0]));
        bad(&record(2, header, 0, &[1600, 0]));
    }
    bad(&record(1, TOP, 66, &[]));
    bad(&record(3, TOP, 0, &[7]));
    for payload in [&[][..], &[1600], &[1600, 0, 0]] {
        bad(&record(2, TOP, 0, payload));
    }
    // More payload than the journal holds.
    let mut words = record(2, TOP, 0, &[1600, 0]);
    words.remove(0);
    bad(&words);
    let mut words = record(4, TOP, 0, &line(false));
    words[31] = 27;
    bad(&words);
    words[31] = 65535;
    bad(&words);
}

// "not allowed exactly where that edit would be refused for another cause than
// 1, 15 or 16".
#[test]
fn reversals_not_allowed() {
    let bad = |words: &[u16]| refuse(&with_journal(&start(), 400, words), 19);
    let good = |words: &[u16]| {
        let mut state = with_journal(&start(), 400, words);
        assert_eq!(state.run(&Call::Undo), Ok(()));
        assert!(judge(state.used_file(), 2).is_ok());
        assert_eq!(state.jused, 0);
    };
    // A flag: the bit is written, whichever way it stands.
    good(&record(1, TOP, 66, &[0]));
    good(&record(1, TOP, 66, &[1]));
    for place in [1, 148, 149, 1 << 31, TOP] {
        bad(&record(1, TOP, place, &[0]));
        bad(&record(2, TOP, place, &[1600, 0]));
        bad(&record(3, TOP, place, &[]));
    }
    // A name: 18 and 12 stand in the way.
    good(&record(2, TOP, 0, &[1600, 0]));
    bad(&record(2, TOP, 66, &[1600, 0]));
    bad(&record(2, TOP, 0, &[64000, 0]));
    bad(&record(2, TOP, 0, &[0, 29]));
    // A removed extent: 13, the piece's own, words left over, 8.
    let piece = text(true);
    good(&record(4, 46, 122, &piece));
    good(&record(4, 0, 122, &piece));
    bad(&record(4, TOP, 122, &piece));
    good(&record(4, TOP, 122, &text(false)));
    bad(&record(4, 66, 92, &piece));
    bad(&record(4, 46, 67, &piece));
    bad(&record(4, 47, 66, &piece));
    bad(&record(4, TOP - 1, 122, &piece));
    bad(&record(4, TOP, 122, &[]));
    bad(&record(4, TOP, 122, &element(24, false, 2)));
    bad(&record(4, TOP, 122, &[text(false), vec![0]].concat()));
}

// "8 at the outermost enclosing header that would grow too large" as a cause
// not to allow a reversal.
#[test]
fn reversal_too_large() {
    let full = file(&[cell(false, &[element(5, true, 65_535 - 46)])]);
    let words = record(4, 0, 46, &element(5, true, 2));
    refuse(&with_journal(&full, 400, &words), 19);
    refuse(&with_journal(&full, 0, &words), 19);
}

// "or where the element that a kind 3 record places is not directly under its
// header place."
#[test]
fn placed_elsewhere() {
    let elements = [(0, TOP), (46, 0), (66, 46), (92, 46), (122, TOP)];
    for (place, above) in elements {
        for header in [TOP, TOP - 1, 0, 1, 46, 66, 122, 1 << 31] {
            let mut state = with_journal(&start(), 0, &record(3, header, place, &[]));
            if header == above {
                let used = state.used;
                assert_eq!(state.run(&Call::Undo), Ok(()));
                assert!(state.used < used && judge(state.used_file(), 2).is_ok());
            } else {
                refuse(&state, 19);
            }
        }
    }
}

// "It refuses in this order: 1, the file's own, 1 as above, 17, 19, 15."
#[test]
fn order_of_undo() {
    let words = record(4, 46, 122, &text(true));
    refuse(&with_journal(&start(), 58, &words), 15);
    assert_eq!(with_journal(&start(), 60, &words).run(&Call::Undo), Ok(()));
    let worse = record(4, 46, 123, &text(true));
    refuse(&with_journal(&start(), 58, &worse), 19);
    let mut state = with_journal(&start(), 0, &worse);
    state.dim = 4;
    refuse(&state, 1);
    for (number, place, file) in faulty() {
        let mut state = with_journal(&file, 0, &worse);
        let before = state.clone();
        assert_eq!(state.run(&Call::Undo), refused(number, place));
        assert_eq!(state, before);
    }
}

// Any journal: undo answers 17, 19 or 15, or gives a file that is in order.
#[test]
fn damaged_journals() {
    let mut random = Random::new(11);
    let mut seen = std::collections::BTreeMap::new();
    for _ in 0..30_000 {
        let mut state = undo_state(&mut random);
        let before = state.clone();
        let number = match state.run(&Call::Undo) {
            Ok(()) => {
                let judged = judge(state.used_file(), state.dim).unwrap();
                assert_eq!(judged.marker * 2 + 2, state.used);
                assert!(state.jused < before.jused);
                assert_eq!(state.journal, before.journal);
                0
            }
            Err(refusal) => {
                assert_eq!(state, before);
                refusal.number
            }
        };
        *seen.entry(number).or_insert(0) += 1;
    }
    assert_eq!(seen.keys().copied().collect::<Vec<_>>(), [0, 15, 17, 19]);
    assert!(seen.values().all(|&times| times > 100), "{seen:?}");
}
