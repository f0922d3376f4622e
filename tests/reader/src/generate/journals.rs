//! Journals, well formed and damaged, for undo.

use super::changes;
use super::places::{self, scan, Start};
use super::random::Random;
use super::sessions;
use super::texts;
use crate::calls::{Call, State};
use crate::words::{bytes_of, words_of};

/// The words of a record.
pub fn record(kind: u16, header: u32, place: u32, payload: &[u16]) -> Vec<u16> {
    let mut words = payload.to_vec();
    words.extend([
        kind,
        (header >> 16) as u16,
        header as u16,
        (place >> 16) as u16,
        place as u16,
        payload.len() as u16,
    ]);
    words
}

/// A session whose journal may be damaged; the next call to make is an undo.
pub fn undo_state(random: &mut Random) -> State {
    let mut state = sessions::fresh_state(random);
    match random.below(4) {
        // True records of some edits, then damage.
        0 | 1 => {
            for _ in 0..1 + random.below(4) {
                let call = sessions::next_call(random, state.used_file(), state.dim);
                let _ = state.run(&call);
            }
            harm(random, &mut state);
        }
        // A record made up.
        2 => {
            let words = made_up(random, &state);
            let mut journal = bytes_of(&words);
            state.jused = journal.len() as u64;
            let slack = random.index(4) * 2;
            journal.extend(random.bytes(slack));
            state.journal = journal;
        }
        // Any words.
        _ => {
            let length = random.index(20) * 2;
            state.journal = random.bytes(length);
            if length >= 12 && random.one_in(2) {
                state.journal[length - 12..length - 10]
                    .copy_from_slice(&[1 + random.below(4) as u8, 0]);
                state.journal[length - 2..].copy_from_slice(&[random.below(4) as u8, 0]);
            }
            state.jused = length as u64;
        }
    }
    if random.one_in(4) {
        // No room for what an undo may put back.
        let used = state.used as usize;
        state.file.truncate(used);
    }
    state
}

/// Changes the last record, the used length, or the file under the journal.
fn harm(random: &mut Random, state: &mut State) {
    match random.below(5) {
        0 => {
            let used = state.jused as usize;
            let from = used.saturating_sub(12);
            changes::change_word(random, &mut state.journal[from..used]);
        }
        1 => {
            let used = state.jused as usize;
            changes::change_word(random, &mut state.journal[..used]);
        }
        2 => state.jused = state.jused.saturating_sub(2 * random.below(8)),
        3 => {
            // An edit that the journal does not know of.
            let call = sessions::next_call(random, state.used_file(), state.dim);
            if call != Call::Undo {
                let mut other = state.clone();
                if other.run(&call).is_ok() {
                    state.file = other.file;
                    state.used = other.used;
                }
            }
        }
        _ => {}
    }
}

/// A record aimed at a place of the file, right or nearly so.
fn made_up(random: &mut Random, state: &State) -> Vec<u16> {
    let (starts, marker) = scan(state.used_file());
    let mut place = places::place_among(random, &starts, marker, state.used / 2) as u32;
    let mut header = match random.below(6) {
        0 => random.pick(&[u32::MAX - 1, 1 << 31, 0, 1]),
        1 if !starts.is_empty() => starts[random.index(starts.len())].place as u32,
        _ => u32::MAX,
    };
    let kind = match random.below(6) {
        0 => random.pick(&[0, 5, 6, 7, 256, 65535]),
        _ => 1 + random.below(4) as u16,
    };
    let payload = match kind {
        1 => old_flags(random, &starts, u64::from(place)),
        2 => old_name(random),
        3 => {
            // Mostly the true header of what stands at the place.
            if let Some(start) = starts.iter().find(|start| start.place == u64::from(place)) {
                if !random.one_in(4) {
                    header = start.header.map_or(u32::MAX, |header| header as u32);
                }
            }
            Vec::new()
        }
        4 => {
            let (named, at, mut piece) = sessions::piece_for(random, state.used_file(), state.dim);
            // Mostly where the piece belongs.
            if !random.one_in(4) {
                header = named.map_or(u32::MAX, |named| named as u32);
                place = at as u32;
            }
            match random.below(6) {
                0 => changes::change_word(random, &mut piece),
                1 => changes::change_text(random, &mut piece, state.dim),
                2 => changes::change_float(random, &mut piece, state.dim),
                _ => {}
            }
            words_of(&piece)
        }
        _ if random.one_in(8) => random.words(2),
        _ => Vec::new(),
    };
    let mut all = if random.one_in(3) {
        record(1, u32::MAX, 0, &[1])
    } else {
        Vec::new()
    };
    all.extend(record(kind, header, place, &payload));
    if random.one_in(10) {
        // The payload counted is not the one that stands there.
        let last = all.len() - 1;
        all[last] = all[last].wrapping_add(random.pick(&[1, 100, 65535]));
    }
    all
}

/// The payload of a mark: a bit for each element of the extent at a place, or
/// nearly so.
fn old_flags(random: &mut Random, starts: &[Start], place: u64) -> Vec<u16> {
    let end = starts
        .iter()
        .find(|start| start.place == place)
        .map_or(place + 1, |start| start.end);
    let within = |start: &&Start| (place..end).contains(&start.place);
    let bits = starts.iter().filter(within).count().max(1);
    let mut payload = random.words(bits.div_ceil(16));
    if bits % 16 != 0 && !random.one_in(5) {
        // Spare bits are zero.
        let last = payload.len() - 1;
        payload[last] &= (1 << (bits % 16)) - 1;
    }
    match random.below(10) {
        0 => payload.push(0),
        1 => payload.insert(0, 0),
        2 => {
            payload.pop();
        }
        _ => {}
    }
    payload
}

/// The payload of a rename: two name words, or nearly so.
fn old_name(random: &mut Random) -> Vec<u16> {
    let (first, second) = texts::name_words(random);
    let mut pair = vec![first, second];
    match random.below(6) {
        0 => pair[random.index(2)] = texts::bad_name_word(random),
        1 => pair.push(0),
        2 => pair.truncate(1),
        _ => {}
    }
    pair
}
