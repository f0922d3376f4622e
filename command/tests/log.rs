//! The log's bytes: what is written is read, and nothing else.

use dgn::{Dimension, Session};
use dgn_command::disk::log::{Log, State, Step};
use dgn_command::disk::session::{edited, undone};
use std::ffi::OsString;
use std::os::unix::ffi::OsStringExt;

fn sample() -> Vec<u8> {
    std::fs::read(concat!(env!("CARGO_MANIFEST_DIR"), "/../samples/nested.dgn")).unwrap()
}

fn step(words: &[&[u8]], undone: u32) -> Step {
    let words = words.iter().map(|word| OsString::from_vec(word.to_vec())).collect();
    Step { time: 1_795_000_000, user: 1000, name: "clerk".into(), undone, words }
}

/// The log with one edit more.
fn next(log: &Log, words: &[&[u8]], call: impl FnOnce(&mut Session) -> Result<(), dgn::Refusal>) -> Log {
    let (image, journal) = edited(&log.image, &log.journal, log.dimension, call).unwrap();
    let mut next = Log { image, journal, ..log.clone() };
    next.steps.push(step(words, 0));
    next
}

#[test]
fn written_and_read() {
    let empty = Log::new(Dimension::Two, sample());
    let renamed = next(&empty, &[b"rename", b"00417", b"417"], |session| session.rename(111, "417"));
    let odd = next(&renamed, &[b"insert", b"\xff name\n", b""], |session| session.remove(314));
    for log in [&empty, &renamed, &odd] {
        let bytes = log.encode().unwrap();
        assert_eq!(bytes.len() % 512, 0);
        assert_eq!(Log::decode(&bytes).as_ref(), Ok(log));
        assert_eq!(log.original(), Some(sample()));
    }
    assert!(empty.followed_by(&renamed) && renamed.followed_by(&odd));
    assert!(!empty.followed_by(&odd) && !renamed.followed_by(&empty) && !empty.followed_by(&empty));
}

#[test]
fn bytes_behind_the_marker() {
    let file = [sample(), vec![7; 20]].concat();
    let log = Log::new(Dimension::Two, file.clone());
    let shorter = next(&log, &[b"remove"], |session| session.remove(111));
    assert!(shorter.image.len() < file.len() && shorter.image.ends_with(&[7; 20]));
    assert_eq!(undone(&shorter.image, &shorter.journal, Dimension::Two, 1), Ok((file, vec![])));
}

#[test]
fn states() {
    let mut log = Log::new(Dimension::Two, sample());
    log.steps = [0, 0, 1, 0, 2].map(|undone| step(&[b"x"], undone)).to_vec();
    let by = State::UndoneBy;
    assert_eq!(log.states(), Some(vec![by(5), by(3), State::Undo, by(5), State::Undo]));
    assert_eq!(log.standing(), 0);
    log.steps.push(step(&[b"x"], 1));
    assert_eq!(log.states(), None);
}

#[test]
fn steps_and_journal_have_to_agree() {
    let log = next(&Log::new(Dimension::Two, sample()), &[b"x"], |session| session.mark(0, true));
    for steps in [vec![], vec![step(&[b"x"], 0); 2], vec![step(&[b"x"], 1)]] {
        let wrong = Log { steps, ..log.clone() };
        assert!(Log::decode(&wrong.encode().unwrap()).is_err());
    }
}

#[test]
fn another_dimension_does_not_follow() {
    let log = Log::new(Dimension::Two, sample());
    let next = Log { dimension: Dimension::Three, ..next(&log, &[b"x"], |session| session.mark(0, true)) };
    assert!(!log.followed_by(&next));
}

#[test]
fn beginnings() {
    let bytes = Log::new(Dimension::Two, sample()).encode().unwrap();
    for length in [0, 1, 7, 8, 9, 512, bytes.len()] {
        assert!(Log::begins(&bytes[..length]));
    }
    assert!(Log::begins(&[0; 3]) && Log::begins(&[&[0; 512][..], b"behind"].concat()));
    assert!(!Log::begins(b"precious") && !Log::begins(b"DGNLOG 2") && !Log::begins(&[&[0; 511][..], b"x"].concat()));
}
