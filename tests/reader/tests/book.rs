//! Sessions against the book.

mod common;
use common::*;
use reader::generate::{self, Random};
use reader::words::{bytes_of, words_of};
use reader::*;

// "The listed edits are those made and not undone; applied to the original's
// words, first to last, they give the file's used words."
#[test]
fn random_sessions() {
    let mut random = Random::new(12);
    let mut made = 0;
    let mut refusals = std::collections::BTreeMap::new();
    let calls = 40;
    for _ in 0..1500 {
        let script = generate::session(&mut random, calls);
        let mut state = script.start.clone();
        let original = state.used_file().to_vec();
        let mut book = Book::new(&original, state.dim);
        for call in &script.calls {
            let before = state.clone();
            let answer = state.run(call);
            book.feed(call, answer.is_err());
            match answer {
                Ok(()) => made += 1,
                Err(refusal) => {
                    // "A refusal changes no lent byte and no length."
                    assert_eq!(state, before);
                    *refusals.entry(refusal.number).or_insert(0) += 1;
                }
            }
            assert_eq!(
                book.words().as_deref(),
                Some(&words_of(state.used_file())[..])
            );
            let judged = judge(state.used_file(), state.dim).unwrap();
            assert_eq!(judged.marker * 2 + 2, state.used);
        }
        // Undo all gives the original back.
        while book.listed() > 0 {
            assert_eq!(state.run(&Call::Undo), Ok(()));
            book.feed(&Call::Undo, false);
            assert_eq!(book.bytes().as_deref(), Some(state.used_file()));
        }
        assert_eq!(state.used_file(), original);
        assert_eq!(state.jused, 0);
        assert_eq!(state.run(&Call::Undo), refused(17, 0));
    }
    assert!(made > 20_000, "{made} calls made");
    for number in [3, 4, 5, 6, 7, 8, 10, 12, 13, 14, 15, 16, 17, 18] {
        assert!(
            refusals.contains_key(&number),
            "no {number} in {refusals:?}"
        );
    }
}

// "8 at the outermost enclosing header that would grow too large", in sessions
// near the largest extent.
#[test]
fn sessions_near_the_limit() {
    let mut random = Random::new(17);
    let mut grown = 0;
    for spare in [0, 1, 2, 30, 60].repeat(6) {
        let start = generate::large::nearly_full_state(spare);
        let script = generate::session_from(&mut random, start, 10);
        let mut state = script.start.clone();
        let mut book = Book::new(state.used_file(), 2);
        for call in &script.calls {
            let header_above = matches!(
                call,
                Call::Insert {
                    header: Some(_),
                    ..
                }
            );
            let answer = state.run(call);
            book.feed(call, answer.is_err());
            assert_eq!(book.bytes().as_deref(), Some(state.used_file()));
            if header_above && answer.is_err_and(|refusal| refusal.number == 8) {
                grown += 1;
            }
        }
    }
    assert!(grown > 10, "{grown}");
}

// "An edit not refused is made: it joins the list's end ... An undo not refused
// strikes off the last one. A refused call changes nothing."
#[test]
fn the_list() {
    let start = file(&[cell(false, &[line(true)])]);
    let mut book = Book::new(&start, 2);
    assert_eq!((book.listed(), book.dim()), (0, 2));
    assert_eq!(book.bytes(), Some(start.clone()));
    let mark = Call::Mark {
        place: 46,
        deleted: true,
    };
    book.feed(&mark, true);
    book.feed(&Call::Undo, true);
    assert_eq!(book.listed(), 0);
    book.feed(&mark, false);
    book.feed(
        &Call::Rename {
            place: 0,
            text: b"417".to_vec(),
        },
        false,
    );
    assert_eq!(book.edits().len(), 2);
    let mut wanted = words_of(&start);
    wanted[46] |= 1 << 15;
    wanted[19..21].copy_from_slice(&[55677, 0]);
    assert_eq!(book.words(), Some(wanted.clone()));
    book.feed(&Call::Undo, false);
    wanted[19..21].copy_from_slice(&[49234, 51080]);
    assert_eq!(book.words(), Some(wanted));
    book.feed(&Call::Undo, false);
    book.feed(&Call::Undo, false);
    assert_eq!(book.bytes(), Some(start));
}

// "insert raises and remove lowers each total named above, down to the direct
// header's, by the number of those words, and its count, if any, by 1."
#[test]
fn totals_in_the_book() {
    let chain = header(12, true, 20, &[line(true)]);
    let start = file(&[cell(false, &[chain])]);
    let mut book = Book::new(&start, 2);
    book.feed(
        &Call::Insert {
            header: Some(46),
            place: 92,
            piece: bytes_of(&text(true)),
        },
        false,
    );
    let mut wanted = words_of(&start);
    wanted.splice(92..92, text(true));
    wanted[18] += 30;
    wanted[46 + 18] += 30;
    wanted[46 + 19] += 1;
    assert_eq!(book.words(), Some(wanted));
    book.feed(&Call::Remove { place: 66 }, false);
    let chain = header(12, true, 20, &[text(true)]);
    assert_eq!(book.bytes(), Some(file(&[cell(false, &[chain])])));
    book.feed(&Call::Remove { place: 46 }, false);
    assert_eq!(book.bytes(), Some(file(&[cell(false, &[])])));
    // An edit that finds nothing to work on gives no words.
    book.feed(&Call::Remove { place: u64::MAX }, false);
    assert_eq!(book.words(), None);
}
