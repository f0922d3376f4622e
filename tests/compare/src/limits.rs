//! Single calls of a session at their limits: records of every kind, exact room, calls made wrongly, faults of the file and
//! of a piece, headers that would grow too large.

use crate::guard::Side;
use crate::library;
use crate::runs::Runs;
use crate::sessions::{ample, any_call, bad_piece, raw, Both};
use reader::generate::journals::record;
use reader::generate::places::scan;
use reader::generate::sessions::{fresh_state, piece_for};
use reader::generate::tree::is_header;
use reader::generate::{aimed, large, Random, ORDER};
use reader::words::{bytes_of, words_of};
use reader::{Call, Index, Refusal, State};

/// A cell of 46 words and in it a raw element of 10, a raw one of 3 behind it, the marker.
fn small() -> Vec<u8> {
    let mut words = large::raw_of(46, false);
    words[0] = 2 << 8;
    words[18] = 37;
    words.extend(large::raw_of(10, true));
    words.extend(large::raw_of(3, false));
    words.push(65535);
    bytes_of(&words)
}

/// Records of every kind, with payloads, header places and places of all sorts, as the journal's last.
pub fn records(runs: &mut Runs) {
    let file = small();
    let piece = words_of(&raw(5, true));
    let top = words_of(&raw(5, false));
    let over: Vec<u16> = piece.iter().copied().chain([1, 2]).collect();
    let payloads: [&[u16]; 13] =
        [&[], &[0], &[1], &[3], &[7], &[49_234, 51_080], &[64_000, 0], &[0, 64_000], &[1, 2, 3], &piece, &top, &over, &[65_535]];
    for kind in [0, 1, 2, 3, 4, 5, 6, 256, 257, 65_535] {
        for header in [u32::MAX, u32::MAX - 1, 1 << 31, 0, 1, 46, 56, 59, 60] {
            for place in [0, 1, 46, 47, 56, 58, 59, 60, 1 << 16, 1 << 31, u32::MAX] {
                for payload in payloads {
                    for (before, counted) in [(0, 0), (0, 1), (6, 0), (1, 0), (6, 65_535)] {
                        let mut words = vec![0; before];
                        words.extend(record(kind, header, place, payload));
                        let last = words.len() - 1;
                        words[last] = words[last].wrapping_add(counted);
                        for room in [0, 12] {
                            let mut start = ample(&file, 2);
                            start.file.truncate(file.len() + room);
                            start.jused = 2 * words.len() as u64;
                            start.journal = bytes_of(&words);
                            let _ = Both::new(start).call(runs, &Call::Undo);
                        }
                    }
                }
            }
        }
    }
    // fewer words than a record has
    for n in 0..6 {
        let mut start = ample(&file, 2);
        start.jused = 2 * n;
        let _ = Both::new(start).call(runs, &Call::Undo);
    }
}

/// One call of each kind that is made on `small`, with the words of its record.
fn good_calls() -> [(Call, usize); 6] {
    [
        (Call::Mark { place: 46, deleted: true }, 7),
        (Call::Mark { place: 0, deleted: true }, 7),
        (Call::Rename { place: 0, text: b"00417".to_vec() }, 8),
        (Call::Insert { header: Some(0), place: 56, piece: raw(9, true) }, 6),
        (Call::Insert { header: None, place: 59, piece: raw(9, false) }, 6),
        (Call::Remove { place: 46 }, 16),
    ]
}

/// Exact room in both buffers: 15, then 16; and the room that is used again after an undo.
pub fn room(runs: &mut Runs) {
    let file = small();
    for (call, words) in good_calls() {
        let grows = if let Call::Insert { piece, .. } = &call { piece.len() } else { 0 };
        for spare in (0..=2 * words + 4).step_by(2) {
            for slack in (0..=grows + 4).step_by(2) {
                let mut start = ample(&file, 2);
                start.file.truncate(file.len() + slack);
                start.journal.truncate(spare);
                let mut both = Both::new(start);
                if slack < grows {
                    both.refused(runs, &call, 15, 0);
                } else if spare < 2 * words {
                    both.refused(runs, &call, 16, 0);
                } else {
                    both.made(runs, &call);
                    both.made(runs, &Call::Undo);
                    both.made(runs, &call);
                }
                both.undo_all(runs);
            }
        }
    }
    // 15 of an undo: the room was taken from the session
    for dim in [2, 3] {
        let mut file = raw(9, false);
        file.extend([255, 255]);
        let mut both = Both::new(ample(&file, dim));
        both.made(runs, &Call::Remove { place: 0 });
        for state in [&mut both.ours, &mut both.theirs, &mut both.start] {
            state.file.truncate(18);
        }
        both.refused(runs, &Call::Undo, 15, 0);
    }
}

/// Exact room in an index, before and after each call, beside too little and enough in the other two buffers: the file's 15 and the
/// index's, then 16. Whatever the buffer held, the index is built in it.
pub fn index_room(runs: &mut Runs) {
    let file = small();
    // a cell with a cell and a raw element in it: two entries more
    let mut nested = large::raw_of(46, false);
    (nested[0], nested[18]) = (2 << 8, 76);
    let mut inner = large::raw_of(46, true);
    (inner[0], inner[18]) = (2 << 8 | 1 << 7, 30);
    nested.extend(inner);
    nested.extend(large::raw_of(3, true));
    let piece = bytes_of(&nested);
    let mut calls = good_calls().to_vec();
    calls.push((Call::Insert { header: None, place: 56, piece: piece.clone() }, 6));
    calls.push((Call::Remove { place: 0 }, 62));
    for (call, words) in calls {
        let grows = if let Call::Insert { piece, .. } = &call { piece.len() } else { 0 };
        let after = match &call {
            Call::Insert { piece: more, .. } if *more == piece => 24,
            Call::Remove { place: 0 } => 0,
            _ => 8,
        };
        for length in 0..=34 {
            for spare in [0, 2 * words - 2, 2 * words, 2 * words + 12] {
                for slack in [0, grows] {
                    let mut start = ample(&file, 2);
                    start.file.truncate(file.len() + slack);
                    start.journal.truncate(spare);
                    let index = Index { buffer: vec![0x5b; length], used: length as u64 / 16 * 8 };
                    let mut both = Both::indexed(start, index);
                    if slack < grows || length < after {
                        both.refused(runs, &call, 15, 0);
                    } else if spare < 2 * words {
                        both.refused(runs, &call, 16, 0);
                    } else {
                        both.made(runs, &call);
                        // the undo needs room for the one cell again
                        if length < 8 {
                            both.refused(runs, &Call::Undo, 15, 0);
                        } else {
                            both.made(runs, &Call::Undo);
                        }
                    }
                }
            }
        }
    }
}

/// Numbers and slices that no call takes: lengths, used lengths, dimensions, the flag's number, short answer slices.
pub fn calls_made_wrongly(runs: &mut Runs) {
    let file = small();
    let mut calls: Vec<Call> = good_calls().into_iter().map(|(call, _)| call).collect();
    calls.push(Call::Undo);
    let lengths = [file.len() - 1, file.len(), file.len() + 1, 1_048_575, 1_048_576, 1_048_577, 1_048_578];
    for side in [Side::Before, Side::Behind] {
        library::lend_at(side, true);
        for call in &calls {
            for length in lengths {
                let mut start = ample(&file, 2);
                start.file.resize(length, 0);
                let _ = Both::new(start).call(runs, call);
                let mut start = ample(&file, 2);
                start.journal.resize(length, 0);
                let _ = Both::new(start).call(runs, call);
            }
            let used = file.len() as u64;
            let lengths =
                [0, 1, 2, used - 2, used - 1, used + 1, used + 2, 4118, 4120, 1 << 32, (1 << 63) + used, u64::MAX];
            for length in lengths {
                let _ = Both::new(State { used: length, ..ample(&file, 2) }).call(runs, call);
                let _ = Both::new(State { jused: length, ..ample(&file, 2) }).call(runs, call);
            }
            for dim in [0, 1, 2, 3, 4, (1 << 32) + 2, u64::MAX] {
                let _ = Both::new(ample(&file, dim)).call(runs, call);
            }
            let mut start = ample(&file, 2);
            let mut index = Index { buffer: vec![7; 20], used: 16 };
            library::short_call(&mut start, &mut index, call);
            assert_eq!((start, index), (ample(&file, 2), Index { buffer: vec![7; 20], used: 16 }));
            for length in [0, 7, 8, 9, 16, 1_048_576, 1_048_577, 1_048_578] {
                for used in [0, 1, 4, 7, 8, 9, 12, 16, 24, 1_048_576, 1_048_584, 1 << 32, (1 << 63) + 8, u64::MAX - 7, u64::MAX] {
                    let index = Index { buffer: vec![7; length], used };
                    let _ = Both::indexed(ample(&file, 2), index).call(runs, call);
                }
            }
        }
        for length in [0, 1, 2, 3, 1_048_574, 1_048_575, 1_048_576, 1_048_577, 1_048_578] {
            let mut piece = raw(3, false);
            piece.resize(length, 0);
            let mut both = Both::new(ample(&file, 2));
            let _ = both.call(runs, &Call::Insert { header: None, place: 0, piece });
        }
        for length in [0, 6, 7, 8, 1_048_577] {
            let mut both = Both::new(ample(&file, 2));
            let _ = both.call(runs, &Call::Rename { place: 0, text: vec![b'A'; length] });
        }
        for deleted in [2, 3, 255, 256, 257, 1 << 32, usize::MAX] {
            for place in [0, 46, 47] {
                let mut start = ample(&file, 2);
                let mut index = Index { buffer: vec![7; 20], used: 16 };
                let refused = Err(Refusal { number: 1, place: 0 });
                assert_eq!(library::mark_by(&mut start, &mut index, place, deleted), [refused.clone(), refused]);
                assert_eq!((start, index), (ample(&file, 2), Index { buffer: vec![7; 20], used: 16 }));
            }
        }
    }
    library::lend_at(Side::Behind, false);
}

/// The file's own refusals in a session, each before the call's own: a marker that an element covers, and aimed faults
/// with a marker behind them; then the marker before the last used word.
pub fn own(random: &mut Random, runs: &mut Runs, times: u64) {
    let calls = |random: &mut Random, runs: &mut Runs, start: &State| {
        for (call, _) in good_calls() {
            let _ = Both::new(start.clone()).call(runs, &call);
        }
        let call = any_call(random, start);
        let _ = Both::new(start.clone()).call(runs, &call);
        let _ = Both::new(start.clone()).call(runs, &Call::Undo);
    };
    for dim in [2, 3] {
        let covered = bytes_of(&[5 << 8, 1, 65_535]);
        calls(random, runs, &ample(&covered, dim));
        let early = bytes_of(&[65_535, 65_535]);
        calls(random, runs, &ample(&early, dim));
        let mut early = small();
        early.extend([255, 255]);
        calls(random, runs, &ample(&early, dim));
        for _ in 0..times {
            for number in ORDER {
                for depth in 0..9 {
                    let mut file = aimed(random, dim, number, depth).file;
                    file.extend([255, 255]);
                    calls(random, runs, &ample(&file, dim));
                }
            }
        }
    }
}

/// Pieces with a fault of each number, at the top and under a header, and words left over behind a piece.
pub fn pieces(random: &mut Random, runs: &mut Runs, times: u64) {
    for _ in 0..times {
        let s = fresh_state(random);
        let mut both = Both::new(ample(s.used_file(), s.dim));
        for number in ORDER {
            let mut piece = bad_piece(random, s.dim, number);
            let _ = both.call(runs, &Call::Insert { header: None, place: 0, piece: piece.clone() });
            let (header, place, _) = piece_for(random, both.ours.used_file(), s.dim);
            if header.is_some() {
                piece[0] |= 0x80;
            }
            let _ = both.call(runs, &Call::Insert { header, place, piece });
            let (header, place, mut good) = piece_for(random, both.ours.used_file(), s.dim);
            if both.call(runs, &Call::Insert { header, place, piece: good.clone() }).is_ok() {
                both.made(runs, &Call::Undo);
                let words = good.len() as u64 / 2;
                good.extend([255, 255]);
                both.refused(runs, &Call::Insert { header, place, piece: good }, 3, words);
            }
        }
        both.undo_all(runs);
    }
}

/// Headers that would grow too large: 8 at the outermost one, at the exact limit.
pub fn growth(runs: &mut Runs) {
    for spare in [0, 1, 2, 3, 8, 9, 10] {
        let start = large::nearly_full_state(spare);
        let (starts, _) = scan(start.used_file());
        for s in starts.iter().filter(|s| is_header(s.kind)) {
            for size in [2, 3, 9, 10] {
                let mut both = Both::new(start.clone());
                let call = Call::Insert { header: Some(s.place), place: s.end, piece: raw(size, true) };
                if size > spare {
                    both.refused(runs, &call, 8, 0);
                    runs.edits.grown += 1;
                } else {
                    both.made(runs, &call);
                }
                both.undo_all(runs);
            }
        }
    }
}
