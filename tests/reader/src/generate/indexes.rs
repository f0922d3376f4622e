//! Indexes that are built, stale or damaged, and sessions with an index.

use super::cells::{cells_to_marker, text_for};
use super::changes;
use super::places::{self, scan};
use super::random::Random;
use super::sessions::{self, fresh_state, next_call, rough_state};
use super::texts;
use crate::calls::{Call, Index, IndexedState, State};
use crate::index::{entries, Entry};
use crate::words::bytes_of;

/// The bytes of entries, in any order.
pub fn bytes_of_entries(entries: &[Entry]) -> Vec<u8> {
    let words: Vec<u16> = entries
        .iter()
        .flat_map(|entry| {
            let place = entry.place;
            [
                entry.first,
                entry.second,
                (place >> 16) as u16,
                place as u16,
            ]
        })
        .collect();
    bytes_of(&words)
}

/// A buffer that begins with these bytes and is as long, or longer: by a few
/// bytes, so that its length may be odd, or by some entries. Its rest is any.
fn lent(random: &mut Random, bytes: Vec<u8>) -> Index {
    let used = bytes.len() as u64;
    let more = match random.below(4) {
        0 => 0,
        1 => random.index(9),
        2 => 8 * random.index(5),
        _ => 400,
    };
    let mut buffer = bytes;
    buffer.extend(random.bytes(more));
    Index { buffer, used }
}

/// A buffer for an index to be built: ample, as long as is needed for so many
/// entries, or nearly.
pub fn room(random: &mut Random, entries: usize) -> Vec<u8> {
    let exact = 8 * entries;
    let length = match random.below(8) {
        0 => exact,
        1 => exact.saturating_sub(1),
        2 => exact.saturating_sub(8),
        3 => exact + 1 + random.index(8),
        4 => random.index(exact + 1),
        5 => 0,
        _ => exact + random.index(200),
    };
    random.bytes(length)
}

/// The entries of a file; none of a refused one.
fn entries_of(file: &[u8], dim: u64) -> Vec<Entry> {
    entries(file, dim).unwrap_or_default()
}

/// The index of a file as it was built.
pub fn built(random: &mut Random, file: &[u8], dim: u64) -> Index {
    let bytes = bytes_of_entries(&entries_of(file, dim));
    let mut index = lent(random, bytes);
    index.buffer[index.used as usize..].fill(0);
    index
}

/// An index for a file: built, stale, damaged, made up, or any bytes; now and
/// then with a used length that is none.
pub fn any_index(random: &mut Random, file: &[u8], dim: u64) -> Index {
    let mut index = match random.below(10) {
        0..=2 => built(random, file, dim),
        3 | 4 => stale(random, file, dim),
        5 => {
            let mut index = built(random, file, dim);
            for _ in 0..1 + random.below(3) {
                changes::change_word(random, &mut index.buffer);
            }
            index
        }
        6 => shuffled(random, file, dim),
        7 | 8 => made_up(random, file, dim),
        _ => {
            let length = random.index(20) * 8;
            let bytes = random.bytes(length);
            lent(random, bytes)
        }
    };
    match random.below(20) {
        0 => {
            index.used = index
                .used
                .wrapping_add(random.pick(&[1, 2, 4, 7, u64::MAX]))
        }
        1 => {
            let length = index.buffer.len() as u64;
            index.used = random.pick(&[length, length / 8 * 8, (length / 8 + 1) * 8]);
        }
        2 => index.used = random.pick(&[1 << 32, 1 << 40, u64::MAX - 7, u64::MAX]),
        3 => index.used = index.used.saturating_sub(8 * random.below(3)),
        _ => {}
    }
    index
}

/// The index of a file that was changed since.
fn stale(random: &mut Random, file: &[u8], dim: u64) -> Index {
    let (_, marker) = scan(file);
    let used = (marker as usize * 2 + 2).min(file.len());
    let mut other = State {
        dim,
        file: file[..used].to_vec(),
        used: used as u64,
        journal: vec![0; 4000],
        jused: 0,
    };
    other.file.resize(used + 2000, 0);
    for _ in 0..1 + random.below(3) {
        let call = call_for(random, other.used_file(), dim);
        let _ = other.run(&call);
    }
    built(random, other.used_file(), dim)
}

/// The true entries in another order, or with one left out or doubled.
fn shuffled(random: &mut Random, file: &[u8], dim: u64) -> Index {
    let mut entries = entries_of(file, dim);
    let number = entries.len();
    if number > 0 {
        let at = random.index(number);
        match random.below(5) {
            0 => entries.reverse(),
            1 => entries.swap(at, number / 2),
            2 => entries.rotate_left(at),
            3 => {
                entries.remove(at);
            }
            _ => entries.insert(at, entries[number / 2]),
        }
    }
    let bytes = bytes_of_entries(&entries);
    lent(random, bytes)
}

/// Entries of a few names, mostly in order, whose places are those of cells,
/// of other elements, or of none.
fn made_up(random: &mut Random, file: &[u8], dim: u64) -> Index {
    let known = entries_of(file, dim);
    let (starts, marker) = scan(file);
    let words = (file.len() / 2) as u64;
    let mut entries = Vec::new();
    for _ in 0..random.below(12) {
        let (first, second) = if known.is_empty() || random.one_in(6) {
            texts::name_words(random)
        } else {
            random.pick(&known).name()
        };
        let place = if known.is_empty() || random.one_in(3) {
            places::place_among(random, &starts, marker, words) as u32
        } else {
            random.pick(&known).place
        };
        entries.push(Entry {
            first,
            second,
            place,
        });
    }
    if !random.one_in(5) {
        entries.sort_by_key(Entry::name);
    }
    let bytes = bytes_of_entries(&entries);
    lent(random, bytes)
}

/// A start and the calls to make one after another, each lent the index.
#[derive(Debug, Clone)]
pub struct IndexedSession {
    pub start: IndexedState,
    pub calls: Vec<Call>,
}

/// A session of that many calls over a valid file, an empty journal and, but
/// for one time in eight, the index of the file as built.
pub fn indexed_session(random: &mut Random, calls: usize) -> IndexedSession {
    let session = state(random);
    let index = if random.one_in(8) {
        None
    } else {
        let mut index = built(random, session.used_file(), session.dim);
        if random.one_in(2) {
            // Room for a few cells more, or for many.
            let more = random.pick(&[0, 1, 8, 15, 16, 17, 40, 800]);
            index.buffer.truncate(index.used as usize);
            index.buffer.resize(index.used as usize + more, 0);
        }
        Some(index)
    };
    session_from(random, IndexedState { session, index }, calls)
}

/// A session that may start with wrong lengths, a file with a fault, a damaged
/// journal, and any index.
pub fn rough_indexed_session(random: &mut Random, calls: usize) -> IndexedSession {
    let session = match random.below(3) {
        0 => rough_state(random),
        1 => super::journals::undo_state(random),
        _ => state(random),
    };
    let index = any_index(random, session.used_file(), session.dim);
    let start = IndexedState {
        session,
        index: Some(index),
    };
    session_from(random, start, calls)
}

/// A session's state, every other one with cells that share names.
fn state(random: &mut Random) -> State {
    let mut state = fresh_state(random);
    if random.one_in(2) {
        let slack = state.file.split_off(state.used as usize);
        state.file = cells_to_marker(random, state.dim).file;
        state.used = state.file.len() as u64;
        state.file.extend(slack);
    }
    state
}

/// The calls follow the state as this reader changes it.
fn session_from(random: &mut Random, start: IndexedState, calls: usize) -> IndexedSession {
    let mut state = start.clone();
    let mut list = Vec::with_capacity(calls);
    for _ in 0..calls {
        let call = call_for(random, state.session.used_file(), state.session.dim);
        let _ = state.run(&call);
        list.push(call);
    }
    IndexedSession { start, calls: list }
}

/// A call for the file as it now is. Cells are often given each other's names.
fn call_for(random: &mut Random, file: &[u8], dim: u64) -> Call {
    let call = next_call(random, file, dim);
    match call {
        Call::Rename { place, .. } if random.one_in(2) => Call::Rename {
            place,
            text: text_for(random, file),
        },
        Call::Insert { .. } if random.one_in(3) => {
            let (header, place, piece) = sessions::piece_for(random, file, dim);
            Call::Insert {
                header,
                place,
                piece,
            }
        }
        call => call,
    }
}
