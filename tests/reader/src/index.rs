//! The index of the cells of a file in a lent buffer, and looking a name up
//! in it.
//!
//! An entry is two name words and the place as a long. Entries are ordered by
//! the words, unsigned, then by the place.

use crate::find::{other, Found};
use crate::flags;
use crate::judge::judge_seeing;
use crate::layout;
use crate::names::pack;
use crate::refusal::{self, plain, FindRefusal, Refusal};
use crate::words::{long, put, word};
use std::collections::BTreeSet;

/// The bytes of an entry.
pub const ENTRY: u64 = 8;

/// One entry. Its parts stand in the order in which they are compared.
#[derive(Debug, Clone, Copy, PartialEq, Eq, PartialOrd, Ord)]
pub struct Entry {
    pub first: u16,
    pub second: u16,
    pub place: u32,
}

impl Entry {
    pub fn name(&self) -> (u16, u16) {
        (self.first, self.second)
    }
}

/// The entries of all type 1 and 2 cells of a file, deleted ones too, in the
/// order of the index.
pub fn entries(file: &[u8], dim: u64) -> Result<Vec<Entry>, Refusal> {
    let mut cells = Vec::new();
    judge_seeing(file, dim, |seen| {
        if let Some(offset) = layout::name_word(seen.kind) {
            cells.push(Entry {
                first: word(file, seen.place + offset) as u16,
                second: word(file, seen.place + offset + 1) as u16,
                place: seen.place as u32,
            });
        }
    })?;
    cells.sort();
    Ok(cells)
}

/// Whether a buffer takes that many entries.
pub(crate) fn fits(entries: &[Entry], index: &[u8]) -> bool {
    entries.len() as u64 * ENTRY <= index.len() as u64
}

/// Puts entries at the start of a buffer that takes them, and zeros behind
/// them; gives the used length in bytes.
pub(crate) fn put_entries(entries: &[Entry], index: &mut [u8]) -> u64 {
    index.fill(0);
    let mut next = 0;
    for entry in entries {
        let high = u64::from(entry.place >> 16);
        let low = u64::from(entry.place & 0xFFFF);
        for value in [u64::from(entry.first), u64::from(entry.second), high, low] {
            put(index, next, value);
            next += 1;
        }
    }
    next * 2
}

/// Builds the index of a file in a buffer of any length and zeroes the rest of
/// the buffer; gives the used length in bytes. Refuses with 1, the file's own,
/// then 15.
pub fn build_index(file: &[u8], dim: u64, index: &mut [u8]) -> Result<u64, Refusal> {
    let cells = entries(file, dim)?;
    if !fits(&cells, index) {
        return plain(refusal::ROOM);
    }
    Ok(put_entries(&cells, index))
}

/// Whether the used length is whole entries and within the buffer, which may
/// have any length.
pub(crate) fn good_index(index: &[u8], iused: u64) -> bool {
    iused % ENTRY == 0 && iused <= index.len() as u64
}

/// Entry k of an index, which may be any bytes.
pub(crate) fn entry(index: &[u8], k: u64) -> Entry {
    Entry {
        first: word(index, 4 * k) as u16,
        second: word(index, 4 * k + 1) as u16,
        place: long(index, 4 * k + 2),
    }
}

/// Where the halving rule ends among so many entries, and the count of its
/// looks, the one at that entry among them.
pub(crate) fn halve(index: &[u8], number: u64, wanted: (u16, u16)) -> (u64, u64) {
    let (mut low, mut high, mut looks) = (0, number, 0);
    while low < high {
        let middle = (low + high) / 2;
        looks += 1;
        if entry(index, middle).name() < wanted {
            low = middle + 1;
        } else {
            high = middle;
        }
    }
    if low < number {
        looks += 1;
    }
    (low, looks)
}

/// The place of the entry found and the count of looks; 13 where none was.
fn answer(place: Option<u32>, looked: u64) -> Result<Found, FindRefusal> {
    match place {
        Some(place) => Ok(Found {
            place: u64::from(place),
            looked,
        }),
        None => Err(FindRefusal {
            number: refusal::NO_SUCH,
            place: 0,
            count: looked,
        }),
    }
}

/// Looks a name up by the halving rule over any bytes; gives the place that
/// the entry holds, a deleted cell's too, and the count of looks. Refuses with
/// 1, 12, then 13 with the count of looks.
pub fn look_up_with_deleted(index: &[u8], iused: u64, text: &[u8]) -> Result<Found, FindRefusal> {
    if !good_index(index, iused) {
        return plain(refusal::CALL).map_err(other);
    }
    let wanted = pack(text).map_err(other)?;
    let number = iused / ENTRY;
    let (low, looked) = halve(index, number, wanted);
    let last = (low < number).then(|| entry(index, low));
    let place = last.filter(|last| last.name() == wanted);
    answer(place.map(|last| last.place), looked)
}

/// Looks a name up in the same way and passes over entries of that name whose
/// place starts no cell of the file, or a deleted one; each entry of that name
/// gone on to is one more look. Refuses with 1, the file's own, 12, then 13
/// with the count of looks.
pub fn look_up(
    file: &[u8],
    dim: u64,
    index: &[u8],
    iused: u64,
    text: &[u8],
) -> Result<Found, FindRefusal> {
    if !good_index(index, iused) {
        return plain(refusal::CALL).map_err(other);
    }
    let mut live = BTreeSet::new();
    judge_seeing(file, dim, |seen| {
        if layout::name_word(seen.kind).is_some() && !flags::is_deleted(file, seen.place) {
            live.insert(seen.place);
        }
    })
    .map_err(other)?;
    let wanted = pack(text).map_err(other)?;
    let number = iused / ENTRY;
    let place_if_named = |k: u64| {
        let there = (k < number).then(|| entry(index, k));
        there.filter(|e| e.name() == wanted).map(|e| e.place)
    };
    let (mut at, mut looked) = halve(index, number, wanted);
    while let Some(place) = place_if_named(at) {
        if live.contains(&u64::from(place)) {
            break;
        }
        at += 1;
        if place_if_named(at).is_some() {
            looked += 1;
        }
    }
    answer(place_if_named(at), looked)
}
