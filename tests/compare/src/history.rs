//! The last record of a journal, against the second reader and its undo.

use crate::edited::judging;
use crate::library::{self, TOP};
use crate::runs::Runs;
use reader::generate::journals::undo_state;
use reader::generate::places::scan;
use reader::generate::Random;
use reader::{last_record, Call, Record, Refusal, State};

/// A record as numbers: kind, header place, place, payload words, the used length before it.
fn record_numbers(r: &Record) -> [u64; 5] {
    [r.kind, r.header.unwrap_or(TOP), r.place, r.payload, r.used_before()]
}

/// How many elements the extent at a place has.
fn elements_of(state: &State, place: u64) -> u64 {
    let (starts, _) = scan(state.used_file());
    let end = starts.iter().find(|s| s.place == place).map_or(place, |s| s.end);
    starts.iter().filter(|s| (place..end).contains(&s.place)).count() as u64
}

impl Runs {
    pub fn record(&mut self, journal: &[u8], jused: u64) -> Result<[u64; 5], Refusal> {
        let ours = library::record(journal, jused);
        let theirs = last_record(journal, jused).map(|r| record_numbers(&r));
        assert_eq!(ours, theirs, "record of {jused} bytes of {journal:02x?}");
        self.calls += 1;
        ours
    }

    /// The last record before a call and after it: an edit that was made leaves its own behind the used bytes, an undo that
    /// was made takes off the last one, and an undo says 17 and 19 where there is none and where it is ill-formed.
    pub fn record_of(
        &mut self,
        call: &Call,
        answer: &Result<(), Refusal>,
        (used, last): (u64, Result<[u64; 5], Refusal>),
        after: &State,
        indexed: bool,
    ) {
        match (call, answer) {
            (Call::Undo, Ok(())) => {
                assert_eq!(last.map(|record| record[4]), Ok(after.jused), "the used length before the record");
            }
            (Call::Undo, Err(r)) if r.number == 17 => assert_eq!(last, Err(r.clone())),
            // only what was removed needs room in the file; the index may lack it for any
            (Call::Undo, Err(r)) if r.number == 15 => {
                assert!(last.is_ok_and(|record| record[0] == 4 || indexed), "the record of an undo without room");
            }
            (Call::Undo, Err(r)) => assert!(last.is_ok() || [1, 19].contains(&r.number) || judging(r.number as usize)),
            (_, Err(_)) => {}
            (edit, Ok(())) => {
                let record = self.record(&after.journal, after.jused).expect("an edit leaves a record");
                let (kind, header, place, payload) = match edit {
                    Call::Mark { place, .. } => (1, TOP, *place, elements_of(after, *place).div_ceil(16)),
                    Call::Rename { place, .. } => (2, TOP, *place, 2),
                    Call::Insert { header, place, .. } => (3, header.unwrap_or(TOP), *place, 0),
                    // the header of what was removed stands in the record alone
                    _ => (4, record[1], record[2], (used - after.used) / 2),
                };
                let before = after.jused - 12 - 2 * payload;
                assert_eq!(record, [kind, header, place, payload, before], "the record of {edit:?}");
                assert!(!matches!(edit, Call::Remove { place } if *place != record[2]), "the record of {edit:?}");
            }
        }
    }
}

/// Journals in order and damaged, of every used length.
pub fn journals(random: &mut Random, runs: &mut Runs, times: u64) {
    for _ in 0..times {
        let state = undo_state(random);
        let answer = runs.record(&state.journal, state.jused);
        // what undo finds ill-formed or empty is so here
        let mut undone = state.clone();
        match (undone.run(&Call::Undo), answer) {
            (Ok(()), record) => assert_eq!(record.map(|r| r[4]), Ok(undone.jused)),
            (Err(r), record) if r.number == 17 => assert_eq!(record, Err(r)),
            (Err(r), Err(ours)) => assert!([1, 17, 19].contains(&ours.number) && r.number <= 19),
            (Err(_), Ok(_)) => {}
        }
    }
    // every used length, in and out of order, of journals of a few lengths
    let bytes = random.bytes(64);
    for length in [0, 1, 2, 11, 12, 13, 63, 64] {
        for used in (0..70).chain([1_048_576, 1_048_578, 1 << 32, u64::MAX - 1, u64::MAX]) {
            let _ = runs.record(&bytes[..length], used);
        }
    }
    for length in [1_048_574, 1_048_575, 1_048_576, 1_048_577, 1_048_578] {
        let mut journal = vec![0; length];
        for used in [0, 12, length as u64, length as u64 - 1] {
            let _ = runs.record(&journal, used);
        }
        // the longest payload that a journal can name
        let end = length & !1;
        journal[end - 12..end].copy_from_slice(&[4, 0, 255, 255, 255, 255, 0, 0, 7, 0, 255, 255]);
        let _ = runs.record(&journal, end as u64);
    }
}
