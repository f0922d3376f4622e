//! Undo: takes off the last record and reverses it. The journal's bytes stay.

use crate::flags;
use crate::judge::judge_seeing;
use crate::layout;
use crate::names::unpack;
use crate::record::{self, last_record, Record};
use crate::refusal::{self, plain, Refusal};
use crate::session::{open, SeekElement, SeekGap, Standing};
use crate::words::{put, word};

/// Undoes the last edit; gives the new used lengths of file and journal, in
/// bytes.
pub fn undo(
    file: &mut [u8],
    used: u64,
    journal: &[u8],
    jused: u64,
    dim: u64,
) -> Result<(u64, u64), Refusal> {
    open(file, used, journal, jused, dim, |_| {})?;
    let record = last_record(journal, jused)?;
    let used = match record.kind {
        record::FLAG => unmark(file, used, dim, &record, journal)?,
        record::RENAME => rename_back(file, used, dim, &record, journal)?,
        record::INSERT => take_out(file, used, dim, &record)?,
        _ => put_back(file, used, dim, &record, journal)?,
    };
    Ok((used, record.used_before()))
}

/// The element at a record's place; 19 where there is none.
fn recorded(file: &[u8], used: u64, dim: u64, record: &Record) -> Result<Standing, Refusal> {
    let mut seek = SeekElement::new(record.place);
    judge_seeing(&file[..used as usize], dim, |seen| seek.see(seen))?;
    seek.found().or_else(|_| plain(refusal::BAD_JOURNAL))
}

/// The opposite of a mark writes the earlier bits back, whatever stands there
/// now: one for each element of the extent.
fn unmark(
    file: &mut [u8],
    used: u64,
    dim: u64,
    record: &Record,
    journal: &[u8],
) -> Result<u64, Refusal> {
    let extent = recorded(file, used, dim, record)?.extent;
    let from = record.start as usize * 2;
    let payload = &journal[from..from + record.payload as usize * 2];
    let earlier = match flags::read(payload, extent.len()) {
        Some(earlier) => earlier,
        None => return plain(refusal::BAD_JOURNAL),
    };
    for (&each, deleted) in extent.iter().zip(earlier) {
        flags::set(file, each, deleted);
    }
    Ok(used)
}

/// The opposite of a rename writes the two old words back.
fn rename_back(
    file: &mut [u8],
    used: u64,
    dim: u64,
    record: &Record,
    journal: &[u8],
) -> Result<u64, Refusal> {
    let element = recorded(file, used, dim, record)?.element;
    let first = word(journal, record.start);
    let second = word(journal, record.start + 1);
    match layout::name_word(element.kind) {
        Some(offset) if unpack(first as u16, second as u16).is_ok() => {
            put(file, element.place + offset, first);
            put(file, element.place + offset + 1, second);
            Ok(used)
        }
        _ => plain(refusal::BAD_JOURNAL),
    }
}

/// The opposite of an insert removes what stands at the place, directly under
/// the recorded header.
fn take_out(file: &mut [u8], used: u64, dim: u64, record: &Record) -> Result<u64, Refusal> {
    let standing = recorded(file, used, dim, record)?;
    if standing.element.header != record.header {
        return plain(refusal::BAD_JOURNAL);
    }
    Ok(standing.cut(file, used))
}

/// The opposite of a remove inserts the removed words again.
fn put_back(
    file: &mut [u8],
    used: u64,
    dim: u64,
    record: &Record,
    journal: &[u8],
) -> Result<u64, Refusal> {
    let from = record.start as usize * 2;
    let piece = &journal[from..from + record.payload as usize * 2];
    let mut seek = SeekGap::new(record.header, record.place);
    let judged = judge_seeing(&file[..used as usize], dim, |seen| seek.see(seen))?;
    let gap = match seek.found(judged.marker) {
        Ok(gap) => gap,
        Err(_) => return plain(refusal::BAD_JOURNAL),
    };
    if gap.judge(file, dim, piece).is_err() {
        return plain(refusal::BAD_JOURNAL);
    }
    gap.room(file, used, piece)?;
    Ok(gap.fill(file, used, piece))
}
