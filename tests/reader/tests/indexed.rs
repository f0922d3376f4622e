//! Edits and undo with an index lent beside the session.

mod common;
use common::*;
use reader::generate::indexes::{indexed_session, rough_indexed_session};
use reader::generate::Random;
use reader::index::entries;
use reader::words::{bytes_of, words_of};
use reader::*;

/// 0 cell 00417, 46 cell 00417 in it, 92 line, 118 line at the top, 144
/// library cell 417, 179 marker.
fn start() -> Vec<u8> {
    file(&[
        cell(false, &[cell(true, &[line(true)])]),
        line(false),
        library_cell(&[]),
    ])
}

/// A session over a file with an index buffer of that length, all its bytes
/// the same, and nothing of it used.
fn lent(file: &[u8], room: usize, journal: usize, length: usize) -> IndexedState {
    IndexedState {
        session: session(file, room, journal),
        index: Some(Index {
            buffer: vec![0xC3; length],
            used: 0,
        }),
    }
}

/// One of each call, all of which can be made on `start`.
fn edits() -> Vec<Call> {
    vec![
        Call::Mark {
            place: 0,
            deleted: true,
        },
        Call::Rename {
            place: 144,
            text: b"$$".to_vec(),
        },
        Call::Insert {
            header: None,
            place: 118,
            piece: bytes_of(&cell(false, &[])),
        },
        Call::Insert {
            header: Some(0),
            place: 46,
            piece: bytes_of(&line(true)),
        },
        Call::Remove { place: 46 },
        Call::Remove { place: 0 },
        Call::Remove { place: 118 },
    ]
}

/// The index of a session's file, built into a buffer of that length.
fn built(session: &State, length: usize) -> Index {
    let mut buffer = vec![0xFF; length];
    let used = build_index(session.used_file(), session.dim, &mut buffer).unwrap();
    Index { buffer, used }
}

fn refuse(state: &IndexedState, call: &Call, number: u32, place: u64) {
    let mut after = state.clone();
    assert_eq!(after.run(call), refused(number, place), "{call:?}");
    assert_eq!(&after, state);
}

// "After each edit or undo the index must equal the one built afresh. A call
// that writes an index zeroes its buffer past it." Whatever was lent.
#[test]
fn built_afresh() {
    for call in edits() {
        for (length, used) in [(32, 0), (33, 32), (40, 8), (1001, 1000)] {
            let mut state = lent(&start(), 200, 400, length);
            state.index.as_mut().unwrap().used = used;
            let mut plain = state.session.clone();
            assert_eq!(plain.run(&call), Ok(()));
            assert_eq!(state.run(&call), Ok(()), "{call:?}");
            assert_eq!(state.session, plain);
            assert_eq!(state.index, Some(built(&plain, length)));
            // Undo, lent any bytes again.
            state.index.as_mut().unwrap().buffer.fill(0x5A);
            assert_eq!(plain.run(&Call::Undo), Ok(()));
            assert_eq!(state.run(&Call::Undo), Ok(()));
            assert_eq!(state.session, plain);
            assert_eq!(state.index, Some(built(&plain, length)));
        }
    }
    let mut state = lent(&start(), 200, 400, 40);
    assert_eq!(state.run(&edits()[2]), Ok(()));
    let wanted = [
        [49234, 51080, 0, 0],
        [49234, 51080, 0, 46],
        [49234, 51080, 0, 118],
        [55677, 0, 0, 190],
        [0; 4],
    ];
    let index = state.index.unwrap();
    assert_eq!(words_of(&index.buffer), wanted.concat());
    assert_eq!(index.used, 32);
}

// "too small a buffer for the final index is 15": that of the file after the
// edit.
#[test]
fn room_for_the_final_index() {
    let needs = [24, 24, 32, 24, 16, 8, 24];
    for (call, need) in edits().iter().zip(needs) {
        for length in 0..need {
            refuse(&lent(&start(), 200, 400, length), call, 15, 0);
        }
        assert_eq!(lent(&start(), 200, 400, need).run(call), Ok(()));
    }
    // The undo of a removal needs the room of what it puts back.
    for (call, need) in [(Call::Remove { place: 46 }, 24), (edits()[2].clone(), 24)] {
        for length in 0..40 {
            let mut state = lent(&start(), 200, 400, 40);
            assert_eq!(state.run(&call), Ok(()));
            let buffer = vec![9; length];
            state.index = Some(Index { buffer, used: 0 });
            if length < need {
                refuse(&state, &Call::Undo, 15, 0);
            } else {
                assert_eq!(state.run(&Call::Undo), Ok(()));
            }
        }
    }
}

// "a used index length not whole entries is 1", also beyond the buffer; before
// the file's own.
#[test]
fn used_lengths() {
    let bad = file(&[line(true)]);
    for call in edits().iter().chain([&Call::Undo]) {
        for used in [1, 2, 4, 7, 33, 41, 48, 1 << 32, u64::MAX - 7, u64::MAX] {
            for file in [&start(), &bad] {
                let mut state = lent(file, 0, 0, 40);
                state.index.as_mut().unwrap().used = used;
                refuse(&state, call, 1, 0);
            }
        }
        refuse(&lent(&bad, 0, 0, 40), call, 5, 0);
    }
}

// 1, the file's own, 13, 18, 14, 12, the piece's own, 8, then 15 (file or
// index), then 16.
#[test]
fn order_of_edits() {
    // Neither index nor journal has room.
    let state = lent(&start(), 200, 0, 7);
    for call in edits() {
        refuse(&state, &call, 15, 0);
        refuse(&lent(&start(), 200, 0, 32), &call, 16, 0);
    }
    let mark = |place, deleted| Call::Mark { place, deleted };
    let rename = |place, text: &[u8]| Call::Rename {
        place,
        text: text.to_vec(),
    };
    refuse(&state, &mark(1, true), 13, 0);
    refuse(&state, &mark(0, false), 14, 0);
    refuse(&state, &rename(1, b"A "), 13, 0);
    refuse(&state, &rename(118, b"A "), 18, 0);
    refuse(&state, &rename(0, b"A "), 12, 0);
    refuse(&state, &Call::Remove { place: 179 }, 13, 0);
    let insert = |header, place, piece: &[u16]| Call::Insert {
        header,
        place,
        piece: bytes_of(piece),
    };
    refuse(&state, &insert(None, 1, &[]), 13, 0);
    refuse(&state, &insert(None, 0, &[]), 3, 0);
    refuse(&state, &insert(None, 0, &element(3, false, 25)), 7, 0);
    let large = element(5, true, 65_480);
    refuse(&state, &insert(Some(0), 46, &large), 8, 0);
    refuse(&state, &insert(Some(46), 92, &large), 8, 0);
    for (number, place, file) in faulty() {
        for call in edits().iter().chain([&Call::Undo]) {
            refuse(&lent(&file, 0, 0, 0), call, number, place);
        }
    }
    // The marker before the last used word.
    let mut early = start();
    early.extend([255, 255]);
    for call in edits().iter().chain([&Call::Undo]) {
        refuse(&lent(&early, 0, 0, 0), call, 1, 0);
    }
}

// "It refuses in this order: 1, the file's own, 1 as above, 17, 19, 15."
#[test]
fn order_of_undo() {
    refuse(&lent(&start(), 0, 0, 0), &Call::Undo, 17, 0);
    let mut state = lent(&start(), 0, 12, 0);
    state.session.jused = 12;
    refuse(&state, &Call::Undo, 19, 0);
    let mut state = lent(&start(), 0, 400, 24);
    assert_eq!(state.run(&Call::Remove { place: 46 }), Ok(()));
    let mut short = state.clone();
    short.index = Some(Index {
        buffer: vec![0; 23],
        used: 16,
    });
    refuse(&short, &Call::Undo, 15, 0);
    let used = state.session.used as usize;
    state.session.file.truncate(used);
    refuse(&state, &Call::Undo, 15, 0);
}

// An index of no bytes is an index: of a file without cells.
#[test]
fn no_index_and_an_empty_one() {
    let lines = file(&[line(false)]);
    let mark = Call::Mark {
        place: 0,
        deleted: true,
    };
    let mut state = lent(&lines, 200, 400, 0);
    assert_eq!(state.run(&mark), Ok(()));
    let insert = Call::Insert {
        header: None,
        place: 0,
        piece: bytes_of(&cell(false, &[])),
    };
    refuse(&state, &insert, 15, 0);
    state.index = None;
    assert_eq!(state.run(&insert), Ok(()));
}

// "In demand 3 a run with an index starts with it built, and lends the same
// index buffer, as the last call left it, to every edit and undo."
#[test]
fn runs_with_an_index() {
    let mut random = Random::new(33);
    let (mut made, mut without) = (0, 0);
    let mut refusals = std::collections::BTreeMap::new();
    for _ in 0..1200 {
        let script = indexed_session(&mut random, 40);
        let mut state = script.start.clone();
        let original = state.session.used_file().to_vec();
        let mut book = Book::new(&original, state.session.dim);
        let agree = |state: &IndexedState, book: &Book| {
            assert_eq!(book.bytes().as_deref(), Some(state.session.used_file()));
            if let Some(index) = &state.index {
                let wanted = Some((index.buffer.clone(), index.used));
                assert_eq!(book.index(index.buffer.len()), wanted);
            }
        };
        without += u32::from(state.index.is_none());
        agree(&state, &book);
        for call in &script.calls {
            let before = state.clone();
            let mut plain = state.session.clone();
            let answer = state.run(call);
            book.feed(call, answer.is_err());
            match &answer {
                Ok(()) => made += 1,
                Err(refusal) => {
                    assert_eq!(state, before);
                    *refusals.entry(refusal.number).or_insert(0) += 1;
                }
            }
            // Without the index the call does the same, but for 15.
            if answer != refused(15, 0) {
                assert_eq!(plain.run(call), answer);
                assert_eq!(plain, state.session);
            }
            agree(&state, &book);
        }
        while book.listed() > 0 {
            assert_eq!(state.run(&Call::Undo), Ok(()));
            book.feed(&Call::Undo, false);
            agree(&state, &book);
        }
        assert_eq!(state.session.used_file(), original);
        assert_eq!(state.index, script.start.index);
        assert_eq!(state.run(&Call::Undo), refused(17, 0));
    }
    assert!(made > 15_000 && without > 50, "{made} {without}");
    for number in [3, 6, 7, 12, 13, 14, 15, 16, 17, 18] {
        assert!(refusals[&number] > 20, "{refusals:?}");
    }
}

// Any state and any index: a refusal changes nothing, and what is made leaves
// the index of the file.
#[test]
fn rough_runs() {
    let mut random = Random::new(34);
    let mut seen = std::collections::BTreeMap::new();
    for _ in 0..8000 {
        let script = rough_indexed_session(&mut random, 5);
        let mut state = script.start;
        for call in &script.calls {
            let before = state.clone();
            match state.run(call) {
                Ok(()) => {
                    let index = state.index.as_ref().unwrap();
                    let afresh = built(&state.session, index.buffer.len());
                    assert_eq!(index, &afresh);
                    let cells = entries(state.session.used_file(), state.session.dim);
                    assert_eq!(index.used, 8 * cells.unwrap().len() as u64);
                }
                Err(refusal) => {
                    assert_eq!(state, before);
                    *seen.entry(refusal.number).or_insert(0) += 1;
                }
            }
        }
    }
    for number in (3..=21).chain([1]) {
        assert!(seen[&number] > 50, "{seen:?}");
    }
}

// The index of the book where its words have no room, or there are none.
#[test]
fn the_book() {
    let mut book = Book::new(&start(), 2);
    assert_eq!(book.index(23), None);
    let (buffer, used) = book.index(30).unwrap();
    assert_eq!((used, buffer.len()), (24, 30));
    assert_eq!(&buffer[24..], [0; 6]);
    book.feed(&Call::Remove { place: 0 }, false);
    assert_eq!(book.index(8), Some((bytes_of(&[55677, 0, 0, 26]), 8)));
    book.feed(&Call::Remove { place: u64::MAX }, false);
    assert_eq!(book.index(800), None);
}
