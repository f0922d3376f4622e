//! The four edits. Each gives the new used lengths of file and journal, in
//! bytes. A refusal changes no byte.

use crate::flags;
use crate::layout::{self, LIMIT};
use crate::names::pack;
use crate::record;
use crate::refusal::{self, plain, Refusal};
use crate::session::{open, SeekElement, SeekGap, Standing};
use crate::words::{count, put};

/// The named element of an open session.
fn named(
    file: &[u8],
    used: u64,
    journal: &[u8],
    jused: u64,
    dim: u64,
    place: u64,
) -> Result<Standing, Refusal> {
    let mut seek = SeekElement::new(place);
    open(file, used, journal, jused, dim, |seen| seek.see(seen))?;
    seek.found()
}

/// Answers 16 where the journal cannot take a record with that payload.
fn journal_room(journal: &[u8], jused: u64, payload: u64) -> Result<(), Refusal> {
    if record::fits(journal, jused, payload) {
        Ok(())
    } else {
        plain(refusal::JOURNAL)
    }
}

/// Marks the named element and all of its extent deleted, or live.
pub fn mark(
    file: &mut [u8],
    used: u64,
    journal: &mut [u8],
    jused: u64,
    dim: u64,
    place: u64,
    deleted: bool,
) -> Result<(u64, u64), Refusal> {
    let standing = named(file, used, journal, jused, dim, place)?;
    let place = standing.element.place;
    if flags::is_deleted(file, place) == deleted {
        return plain(refusal::ALREADY);
    }
    let earlier = flags::kept(file, &standing.extent);
    journal_room(journal, jused, count(&earlier))?;
    for &each in &standing.extent {
        flags::set(file, each, deleted);
    }
    Ok((
        used,
        record::append(journal, jused, record::FLAG, None, place, &earlier),
    ))
}

/// Renames a type 1 or 2 cell.
pub fn rename(
    file: &mut [u8],
    used: u64,
    journal: &mut [u8],
    jused: u64,
    dim: u64,
    place: u64,
    text: &[u8],
) -> Result<(u64, u64), Refusal> {
    let element = named(file, used, journal, jused, dim, place)?.element;
    let offset = match layout::name_word(element.kind) {
        Some(offset) => offset,
        None => return plain(refusal::NOT_A_CELL),
    };
    let (first, second) = pack(text)?;
    journal_room(journal, jused, 2)?;
    let at = element.place + offset;
    let from = at as usize * 2;
    let jused = record::append(
        journal,
        jused,
        record::RENAME,
        None,
        element.place,
        &file[from..from + 4],
    );
    put(file, at, u64::from(first));
    put(file, at + 1, u64::from(second));
    Ok((used, jused))
}

/// Inserts a piece under a named header, or at the top where there is none.
#[allow(clippy::too_many_arguments)]
pub fn insert(
    file: &mut [u8],
    used: u64,
    journal: &mut [u8],
    jused: u64,
    dim: u64,
    header: Option<u64>,
    place: u64,
    piece: &[u8],
) -> Result<(u64, u64), Refusal> {
    if piece.len() % 2 != 0 || piece.len() as u64 > LIMIT {
        return plain(refusal::CALL);
    }
    let mut seek = SeekGap::new(header, place);
    let judged = open(file, used, journal, jused, dim, |seen| seek.see(seen))?;
    let gap = seek.found(judged.marker)?;
    gap.judge(file, dim, piece)?;
    gap.room(file, used, piece)?;
    journal_room(journal, jused, 0)?;
    let used = gap.fill(file, used, piece);
    Ok((
        used,
        record::append(journal, jused, record::INSERT, gap.header, gap.place, &[]),
    ))
}

/// Removes an element with its extent.
pub fn remove(
    file: &mut [u8],
    used: u64,
    journal: &mut [u8],
    jused: u64,
    dim: u64,
    place: u64,
) -> Result<(u64, u64), Refusal> {
    let standing = named(file, used, journal, jused, dim, place)?;
    let element = &standing.element;
    journal_room(journal, jused, element.end - element.place)?;
    let jused = record::append(
        journal,
        jused,
        record::REMOVE,
        element.header,
        element.place,
        standing.bytes(file),
    );
    Ok((standing.cut(file, used), jused))
}
