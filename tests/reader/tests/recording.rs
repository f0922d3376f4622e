//! The last record of a journal, by itself.

mod common;
use common::*;
use reader::generate::journals::{record, undo_state};
use reader::generate::Random;
use reader::words::{bytes_of, words_of};
use reader::*;

const TOP: u32 = u32::MAX;

/// The last record of a journal that is used whole.
fn last(words: &[u16]) -> Result<Record, Refusal> {
    let journal = bytes_of(words);
    last_record(&journal, journal.len() as u64)
}

/// 0 a cell named 00417, 46 its line, 72 the marker.
fn start() -> State {
    session(&file(&[cell(false, &[line(true)])]), 200, 200)
}

// "A journal record is its payload, then six words: kind (1 flag, 2 rename, 3
// insert, 4 remove), header place as a long (-1 for the top; -1 also for kinds
// 1, 2), place as a long, payload words."
#[test]
fn the_record_of_each_edit() {
    let piece = bytes_of(&line(true));
    let under = Call::Insert {
        header: Some(0),
        place: 72,
        piece,
    };
    let top = Call::Insert {
        header: None,
        place: 72,
        piece: bytes_of(&line(false)),
    };
    let mark = Call::Mark {
        place: 46,
        deleted: true,
    };
    let rename = Call::Rename {
        place: 0,
        text: b"417".to_vec(),
    };
    let remove = Call::Remove { place: 46 };
    let examples = [
        (mark, 1, None, 46, vec![0]),
        (rename, 2, None, 0, vec![49234, 51080]),
        (under, 3, Some(0), 72, vec![]),
        (top, 3, None, 72, vec![]),
        (remove, 4, Some(0), 46, line(true)),
    ];
    for (edit, kind, header, place, payload) in examples {
        // The second record of the journal, a rename before it.
        let mut state = start();
        let same = Call::Rename {
            place: 0,
            text: b"00417".to_vec(),
        };
        for call in [&same, &edit] {
            assert_eq!(state.run(call), Ok(()));
        }
        let record = last_record(&state.journal, state.jused).unwrap();
        let wanted = Record {
            kind,
            header,
            place,
            start: 8,
            payload: payload.len() as u64,
        };
        assert_eq!(record, wanted, "{edit:?}");
        assert_eq!(record.used_before(), 16);
        let words = words_of(&state.journal[..state.jused as usize]);
        assert_eq!(words[8..8 + payload.len()], payload);
    }
}

// "17 NOTHING: undo of an empty journal" and "1 CALL: ... odd or oversize
// length, ... a used length beyond its buffer".
#[test]
fn lengths_of_a_journal() {
    let journal = bytes_of(&record(3, TOP, 7, &[]));
    assert_eq!(last_record(&[], 0), refused(17, 0));
    assert_eq!(last_record(&journal, 0), refused(17, 0));
    assert!(last_record(&journal, 12).is_ok());
    for jused in [1, 11, 13, 14, 1 << 32, u64::MAX - 1, u64::MAX] {
        assert_eq!(last_record(&journal, jused), refused(1, 0));
    }
    // The buffer is judged too, whatever of it is used.
    assert_eq!(last_record(&journal[..11], 0), refused(1, 0));
    assert_eq!(last_record(&vec![0; 1_048_578], 0), refused(1, 0));
    assert_eq!(last_record(&vec![0; 1_048_576], 0), refused(17, 0));
    // Bytes behind the used ones say nothing.
    let more = [journal, vec![0xFF; 20]].concat();
    assert_eq!(last_record(&more, 12).map(|record| record.place), Ok(7));
}

// "A record is ill-formed if it does not fit in the used journal, its kind is
// not 1 to 4, or its payload or header place is not its kind's."
#[test]
fn ill_formed() {
    let bad = |words: &[u16]| assert_eq!(last(words), refused(19, 0), "{words:?}");
    for length in 1..6 {
        bad(&record(3, TOP, 0, &[])[6 - length..]);
    }
    for kind in [0, 5, 6, 256, 257, 65535] {
        bad(&record(kind, TOP, 0, &[]));
    }
    for header in [0, 46, 1 << 31, TOP - 1] {
        bad(&record(1, header, 0, &[1]));
        bad(&record(2, header, 0, &[1600, 0]));
    }
    for payload in [&[7][..], &[1600, 0, 0]] {
        for kind in 2..4 {
            bad(&record(kind, TOP, 0, payload));
        }
    }
    // A flag record of the old form.
    bad(&record(1, TOP, 0, &[]));
    bad(&record(2, TOP, 0, &[]));
    bad(&record(3, TOP, 0, &[7, 7]));
    // More payload than the journal has.
    for (kind, payload) in [(2, 2), (4, 1), (4, 65535)] {
        let mut words = record(kind, TOP, 0, &[]);
        words[5] = payload;
        bad(&words);
    }
    let mut longest = record(4, TOP, 0, &vec![7; 65535]);
    assert_eq!(last(&longest).map(|record| record.payload), Ok(65535));
    longest.remove(0);
    bad(&longest);
}

// What depends on the file is left to undo: a place that starts nothing, bits
// for another extent, an old name that is none, a payload that is no extent.
#[test]
fn no_file_is_asked() {
    for (kind, header, payload) in [
        (1, TOP, &[0][..]),
        (1, TOP, &[65535; 40]),
        (2, TOP, &[64000, 64000]),
        (3, TOP - 1, &[]),
        (3, 1, &[]),
        (4, 9, &[]),
        (4, TOP, &[65535; 5]),
    ] {
        let words = record(kind, header, 1 << 31, payload);
        let found = last(&words).unwrap();
        assert_eq!((found.kind, found.place), (u64::from(kind), 1 << 31));
        let named = (header != TOP).then_some(u64::from(header));
        assert_eq!(found.header, named);
        let mut state = start();
        state.journal = bytes_of(&words);
        state.jused = state.journal.len() as u64;
        refuse(&state, &Call::Undo, 19, 0);
    }
}

// "Undo takes off the last record": its used length afterwards is the one
// before the record, and 17 and 19 of a journal are undo's.
#[test]
fn beside_undo() {
    let mut random = Random::new(21);
    let mut seen = [0; 4];
    for _ in 0..20_000 {
        let mut state = undo_state(&mut random);
        let last = last_record(&state.journal, state.jused);
        match (state.run(&Call::Undo), last) {
            (Ok(()), Ok(record)) => {
                assert_eq!(record.used_before(), state.jused);
                seen[0] += 1;
            }
            (Err(refusal), Err(own)) => {
                assert_eq!(refusal, own);
                seen[if own.number == 17 { 1 } else { 2 }] += 1;
            }
            (Err(refusal), Ok(record)) => {
                assert!(refusal.number == 19 || refusal.number == 15 && record.kind == 4);
                seen[3] += 1;
            }
            (Ok(()), Err(own)) => panic!("undone after {own:?}"),
        }
    }
    assert!(seen.iter().all(|&times| times > 100), "{seen:?}");
}
