//! Random sessions: the state at the start and a list of calls.

use super::changes;
use super::elements;
use super::faults;
use super::files::{self, dimension};
use super::journals;
use super::places::{self, scan, Start};
use super::random::Random;
use super::texts;
use super::tree::{is_header, lay};
use crate::calls::{Call, State};
use crate::words::bytes_of;

/// A start and the calls to make one after another.
#[derive(Debug, Clone)]
pub struct Session {
    pub start: State,
    pub calls: Vec<Call>,
}

/// A session of that many calls over a valid file and an empty journal. The
/// calls follow the file as this reader changes it.
pub fn session(random: &mut Random, calls: usize) -> Session {
    let start = fresh_state(random);
    session_from(random, start, calls)
}

/// A session that may start with wrong lengths, a file with a fault, or a
/// damaged journal.
pub fn rough_session(random: &mut Random, calls: usize) -> Session {
    let start = if random.one_in(2) {
        rough_state(random)
    } else {
        journals::undo_state(random)
    };
    session_from(random, start, calls)
}

/// A session from a given start.
pub fn session_from(random: &mut Random, start: State, calls: usize) -> Session {
    let mut state = start.clone();
    let mut list = Vec::with_capacity(calls);
    for _ in 0..calls {
        let call = next_call(random, state.used_file(), state.dim);
        let _ = state.run(&call);
        list.push(call);
    }
    Session { start, calls: list }
}

/// A valid file and an empty journal, with room that is ample or tight. The
/// bytes past the used lengths are any.
pub fn fresh_state(random: &mut Random) -> State {
    let dim = dimension(random);
    let mut file = files::valid_to_marker(random, dim).file;
    let used = file.len() as u64;
    let slack = match random.below(4) {
        0 => random.index(40) * 2,
        1 => random.index(200) * 2,
        _ => 4000,
    };
    file.extend(random.bytes(slack));
    let room = match random.below(4) {
        0 => random.index(40) * 2,
        1 => random.index(300) * 2,
        _ => 6000,
    };
    let journal = random.bytes(room);
    State {
        dim,
        file,
        used,
        journal,
        jused: 0,
    }
}

/// A state of which a length, the file or the dimension may be wrong.
pub fn rough_state(random: &mut Random) -> State {
    let mut state = fresh_state(random);
    match random.below(14) {
        0 => state.dim = random.pick(&[0, 1, 4, u64::MAX]),
        1 => state.file.push(0),
        2 => state.journal.push(0),
        3 => state.used = random.pick(&[0, state.used + 1, state.used - 1, u64::MAX, 1 << 32]),
        4 => state.used = state.file.len() as u64 + random.pick(&[0, 1, 2]),
        5 => state.jused = state.journal.len() as u64 + random.pick(&[1, 2, 1 << 40]),
        6 => state.jused = random.below(state.journal.len() as u64 + 1),
        7 => state.used = state.used.saturating_sub(2 * random.below(30)),
        8 => {
            // The marker stands before the last used word.
            let used = state.used as usize;
            if state.file.len() >= used + 2 {
                state.file[used..used + 2].fill(255);
                state.used += 2;
            }
        }
        9 | 10 => {
            let used = (state.used as usize).saturating_sub(2);
            changes::change_word(random, &mut state.file[..used]);
        }
        11 | 12 => {
            // A file with a fault of its own, and a marker behind it.
            let number = random.pick(&[2, 3, 4, 5, 10, 6, 7, 20, 8, 11, 21, 12, 9]);
            let depth = random.below(9);
            let mut file = faults::aimed(random, state.dim, number, depth).file;
            file.extend([255, 255]);
            state.used = file.len() as u64;
            file.extend(vec![0; 400]);
            state.file = file;
        }
        _ => {}
    }
    state
}

/// A call for the file as it now is: mostly one that can be made.
pub fn next_call(random: &mut Random, file: &[u8], dim: u64) -> Call {
    let (starts, marker) = scan(file);
    let words = (file.len() / 2) as u64;
    match random.below(10) {
        0 | 1 => {
            let place = places::place_among(random, &starts, marker, words);
            let now = starts
                .iter()
                .find(|start| start.place == place)
                .map(|start| start.deleted);
            let same = random.one_in(5);
            Call::Mark {
                place,
                deleted: now.unwrap_or(false) == same,
            }
        }
        2 | 3 => {
            let cells: Vec<u64> = starts
                .iter()
                .filter(|start| start.kind == 1 || start.kind == 2)
                .map(|start| start.place)
                .collect();
            let place = if cells.is_empty() || random.one_in(4) {
                places::place_among(random, &starts, marker, words)
            } else {
                random.pick(&cells)
            };
            Call::Rename {
                place,
                text: texts::any_text(random),
            }
        }
        4..=6 => insert_call(random, file, dim, &starts, marker),
        7 => Call::Remove {
            place: places::place_among(random, &starts, marker, words),
        },
        8 => Call::Undo,
        _ => {
            if starts.is_empty() || random.one_in(2) {
                Call::Undo
            } else {
                Call::Remove {
                    place: starts[random.index(starts.len())].place,
                }
            }
        }
    }
}

/// A header or the top, a place there, and a piece that is valid at it.
pub fn piece_for(random: &mut Random, file: &[u8], dim: u64) -> (Option<u64>, u64, Vec<u8>) {
    let (starts, marker) = scan(file);
    let (header, place) = gap(random, &starts, marker);
    let piece = good_piece(random, dim, header);
    (header.map(|header| header.place), place, piece)
}

/// A gap in the file: the header, if any, and a place where a direct component
/// starts or the list ends.
fn gap(random: &mut Random, starts: &[Start], marker: u64) -> (Option<Start>, u64) {
    let headers: Vec<Start> = starts
        .iter()
        .copied()
        .filter(|start| is_header(start.kind))
        .collect();
    let header = if headers.is_empty() || random.one_in(3) {
        None
    } else {
        Some(random.pick(&headers))
    };
    let wanted = header.map(|header| header.place);
    let list_end = header.map_or(marker, |header| header.end);
    let mut gaps: Vec<u64> = starts
        .iter()
        .filter(|start| start.header == wanted)
        .map(|start| start.place)
        .collect();
    gaps.push(list_end);
    let place = random.pick(&gaps);
    (header, place)
}

/// A piece that is valid under a header, or at the top.
fn good_piece(random: &mut Random, dim: u64, header: Option<Start>) -> Vec<u8> {
    let mut budget = 1 + random.below(4);
    let (depth, above) = match header {
        Some(header) => (header.depth + 1, Some(header.kind)),
        None => (0, None),
    };
    let node = elements::tree(random, dim, depth, above, &mut budget);
    bytes_of(&lay(&[node]).words)
}

fn insert_call(random: &mut Random, file: &[u8], dim: u64, starts: &[Start], marker: u64) -> Call {
    let (header, mut place) = gap(random, starts, marker);
    let mut piece = good_piece(random, dim, header);
    let mut named = header.map(|header| header.place);
    match random.below(13) {
        0 => place = places::place(random, file),
        1 => named = Some(places::place(random, file)),
        2 => named = None,
        3 => changes::change_word(random, &mut piece),
        10 => changes::change_text(random, &mut piece, dim),
        11 => changes::change_float(random, &mut piece, dim),
        4 => {
            let cut = 2 * (1 + random.index(3));
            piece.truncate(piece.len().saturating_sub(cut));
        }
        5 => {
            let more = 2 * (1 + random.index(3));
            piece.extend(random.bytes(more));
        }
        6 => {
            // A piece for another place.
            let (other, _) = gap(random, starts, marker);
            piece = good_piece(random, dim, other);
        }
        7 if random.one_in(4) => {
            piece.pop();
        }
        8 if random.one_in(4) => piece.clear(),
        9 if random.one_in(4) => piece = changes::soup(random),
        _ => {}
    }
    Call::Insert {
        header: named,
        place,
        piece,
    }
}
