//! The four edits: what they change, and what they refuse in which order.

mod common;
use common::*;
use reader::generate::{large, Random};
use reader::words::{bytes_of, words_of};
use reader::*;

/// One call of each kind, all of them possible on a file that starts with a
/// cell.
fn one_of_each() -> Vec<Call> {
    vec![
        Call::Mark {
            place: 0,
            deleted: true,
        },
        Call::Rename {
            place: 0,
            text: b"A".to_vec(),
        },
        Call::Insert {
            header: None,
            place: 0,
            piece: bytes_of(&line(false)),
        },
        Call::Remove { place: 0 },
        Call::Undo,
    ]
}

// "1 CALL: dimension not 2 or 3, odd or oversize length, ... a used length
// beyond its buffer, a used file not ending in the word 65535".
#[test]
fn session_not_in_order() {
    let good = session(&file(&[cell(false, &[])]), 200, 200);
    let mut bad: Vec<State> = Vec::new();
    let mut with = |change: &dyn Fn(&mut State)| {
        let mut state = good.clone();
        change(&mut state);
        bad.push(state);
    };
    for dim in [0, 1, 4, u64::MAX] {
        with(&|state| state.dim = dim);
    }
    with(&|state| state.file.push(0));
    with(&|state| state.journal.push(0));
    with(&|state| state.file.resize(1_048_578, 0));
    with(&|state| state.journal.resize(1_048_578, 0));
    with(&|state| state.used = state.file.len() as u64 + 2);
    with(&|state| state.used = u64::MAX);
    with(&|state| state.used = u64::MAX - 1);
    with(&|state| state.used -= 1);
    with(&|state| state.used -= 2);
    with(&|state| state.used += 2);
    with(&|state| state.used = 0);
    with(&|state| state.file.clear());
    with(&|state| state.jused = state.journal.len() as u64 + 2);
    with(&|state| state.jused = u64::MAX - 1);
    with(&|state| state.jused = 1);
    for state in &bad {
        for call in one_of_each() {
            refuse(state, &call, 1, 0);
        }
    }
    // The largest buffers are in order.
    let mut large = good.clone();
    large.file.resize(1_048_576, 0);
    large.journal.resize(1_048_576, 0);
    for call in one_of_each() {
        if call != Call::Undo {
            assert_eq!(large.clone().run(&call), Ok(()));
        }
    }
    // An odd or oversize piece.
    for length in [1, 53, 1_048_578] {
        let piece = vec![0; length];
        refuse(
            &good,
            &Call::Insert {
                header: Some(9),
                place: 9,
                piece,
            },
            1,
            0,
        );
    }
}

// "Refusals: 1, the file's own, 1 if the marker is found before the last used
// word, 13".
#[test]
fn refusals_of_the_file() {
    for (number, place, file) in faulty() {
        let state = session(&file, 200, 200);
        for call in one_of_each() {
            refuse(&state, &call, number, place);
        }
        refuse(&state, &Call::Remove { place: 9999 }, number, place);
        let mut odd = state.clone();
        odd.dim = 5;
        refuse(&odd, &Call::Undo, 1, 0);
    }
    // A second marker behind the first.
    let mut words = cell(false, &[]);
    words.extend([MARKER, 0, MARKER]);
    let state = session(&bytes_of(&words), 200, 0);
    for call in one_of_each() {
        refuse(&state, &call, 1, 0);
    }
    refuse(&state, &Call::Remove { place: 9999 }, 1, 0);
    refuse(&session(&[255, 255, 255, 255], 0, 0), &Call::Undo, 1, 0);
}

// "13 NO SUCH: place ... not there", "13 (also a named header that is none)"
// and "at a place where a direct component starts or the list ends".
#[test]
fn places_not_there() {
    let inner = cell(true, &[line(true)]);
    let state = session(
        &file(&[cell(false, &[inner, text(true)]), line(false)]),
        400,
        0,
    );
    // 0 cell, 46 cell, 92 line, 118 text, 148 line, 174 marker.
    for place in [1, 45, 47, 173, 174, 175, 1 << 32, u64::MAX] {
        refuse(
            &state,
            &Call::Mark {
                place,
                deleted: true,
            },
            13,
            0,
        );
        refuse(
            &state,
            &Call::Rename {
                place,
                text: b"bad text".to_vec(),
            },
            13,
            0,
        );
        refuse(&state, &Call::Remove { place }, 13, 0);
    }
    let insert = |header: Option<u64>, place: u64| Call::Insert {
        header,
        place,
        piece: vec![],
    };
    let good = [
        (None, 0),
        (None, 148),
        (None, 174),
        (Some(0), 46),
        (Some(0), 118),
        (Some(0), 148),
        (Some(46), 92),
        (Some(46), 118),
    ];
    let headers = [0, 1, 46, 92, 118, 148, 174, 1 << 32, u64::MAX];
    for header in headers.into_iter().map(Some).chain([None]) {
        for place in (0..180).chain([1 << 32, u64::MAX]) {
            // The empty piece is cut, which comes after 13.
            let number = if good.contains(&(header, place)) {
                3
            } else {
                13
            };
            refuse(&state, &insert(header, place), number, 0);
        }
    }
}

// "rename a type 1 or 2 cell" and "18 NOT A CELL: rename of another type".
#[test]
fn renaming() {
    let start = file(&[library_cell(&[line(true)]), cell(false, &[])]);
    let mut state = session(&start, 0, 32);
    let mut wanted = used_words(&state);
    assert_eq!(
        state.run(&Call::Rename {
            place: 0,
            text: b"00417".to_vec()
        }),
        Ok(())
    );
    wanted[16..18].copy_from_slice(&[49234, 51080]);
    assert_eq!(used_words(&state), wanted);
    assert_eq!(
        words_of(&state.journal[..16]),
        [55677, 0, 2, 0xFFFF, 0xFFFF, 0, 0, 2]
    );
    assert_eq!(
        state.run(&Call::Rename {
            place: 61,
            text: vec![]
        }),
        Ok(())
    );
    wanted[80..82].copy_from_slice(&[0, 0]);
    assert_eq!(used_words(&state), wanted);
    assert_eq!(
        words_of(&state.journal[16..]),
        [49234, 51080, 2, 0xFFFF, 0xFFFF, 0, 61, 2]
    );
    // The order: 18, then 12, then 16.
    let bad = b"a".to_vec();
    refuse(
        &state,
        &Call::Rename {
            place: 35,
            text: bad.clone(),
        },
        18,
        0,
    );
    refuse(
        &state,
        &Call::Rename {
            place: 0,
            text: bad,
        },
        12,
        0,
    );
    refuse(
        &state,
        &Call::Rename {
            place: 0,
            text: b"ABCDEFG".to_vec(),
        },
        12,
        0,
    );
    refuse(
        &state,
        &Call::Rename {
            place: 0,
            text: b"A".to_vec(),
        },
        16,
        0,
    );
    // The same name again is an edit like another.
    let mut state = session(&start, 0, 16);
    assert_eq!(
        state.run(&Call::Rename {
            place: 0,
            text: b"417".to_vec()
        }),
        Ok(())
    );
    assert_eq!(state.jused, 16);
    let short = session(&start, 0, 14);
    refuse(
        &short,
        &Call::Rename {
            place: 0,
            text: b"A".to_vec(),
        },
        16,
        0,
    );
}

// "remove an element with its extent" and "Words freed at the end become
// zero."
#[test]
fn removing() {
    let chain = header(12, true, 20, &[line(true), text(true)]);
    let start = [cell(false, &[chain, text(true)]), line(false)];
    let mut state = session(&file(&start), 8, 12 + 60);
    // 0 cell, 46 chain, 66 line, 92 text, 122 text, 152 line, 178 marker.
    let mut wanted = used_words(&state);
    let old = state.used as usize;
    wanted.drain(92..122);
    wanted[18] -= 30;
    wanted[46 + 18] -= 30;
    wanted[46 + 19] = 1;
    assert_eq!(state.run(&Call::Remove { place: 92 }), Ok(()));
    assert_eq!(used_words(&state), wanted);
    assert_eq!((state.used as usize, state.jused), (old - 60, 72));
    assert!(state.file[old - 60..old].iter().all(|&byte| byte == 0));
    assert!(state.file[old..].iter().all(|&byte| byte == 0xAA));
    assert_eq!(words_of(&state.journal[..60]), text(true));
    assert_eq!(trailer(&state), [4, 0, 46, 0, 92, 30]);
    assert!(judge(state.used_file(), 2).is_ok());
    // A whole top-level extent.
    let mut state = session(&file(&start), 0, 12 + 304);
    assert_eq!(state.run(&Call::Remove { place: 0 }), Ok(()));
    assert_eq!(used_words(&state), [line(false), vec![MARKER]].concat());
    assert_eq!(trailer(&state), [4, 0xFFFF, 0xFFFF, 0, 0, 152]);
    let short = session(&file(&start), 0, 12 + 302);
    refuse(&short, &Call::Remove { place: 0 }, 16, 0);
}

// "both buffers even, at most 1,048,576 bytes": the largest sessions.
#[test]
fn largest_sessions() {
    let made = large::longest_file_of_cells();
    let mut state = session(&made.file, 0, 1_048_576);
    assert_eq!(state.file.len(), 1_048_576);
    let original = state.file.clone();
    let raw = bytes_of(&element(5, false, 2));
    refuse(
        &state,
        &Call::Insert {
            header: None,
            place: 0,
            piece: raw,
        },
        15,
        0,
    );
    for _ in 0..7 {
        assert_eq!(state.run(&Call::Remove { place: 0 }), Ok(()));
    }
    for _ in 0..7 {
        assert_eq!(state.run(&Call::Undo), Ok(()));
    }
    assert_eq!(state.file, original);
    let mut random = Random::new(20);
    let made = large::most_elements();
    let mut state = session(&made.file, 2, 100);
    let place = random.below(262_143) * 2;
    assert_eq!(
        state.run(&Call::Mark {
            place,
            deleted: true
        }),
        Ok(())
    );
    assert_eq!(state.run(&Call::Remove { place: place ^ 2 }), Ok(()));
}
