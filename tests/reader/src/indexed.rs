//! The edits and undo with an index lent beside: its buffer, which may have
//! any length, and its used length in bytes.
//!
//! Each gives the new used lengths of file, journal and index. Whatever the
//! buffer held, the index of the changed file stands in it and zeros behind.

use crate::edits::{insert, mark, remove, rename};
use crate::index::{entries, fits, good_index, put_entries};
use crate::layout::LARGEST;
use crate::record::TRAILER;
use crate::refusal::{self, plain, Refusal};
use crate::undo::undo;

/// The used lengths of file, journal and index.
pub type Lengths = (u64, u64, u64);

/// Bytes that take the record of any edit.
const AMPLE: usize = (LARGEST + TRAILER) as usize * 2;

/// Makes an edit on copies, then looks whether the index of the changed file
/// fits, and only then changes what was lent. A too small index is 15, before
/// the journal's 16.
fn with_index<E>(
    file: &mut [u8],
    journal: &mut [u8],
    jused: u64,
    index: &mut [u8],
    iused: u64,
    dim: u64,
    edit: E,
) -> Result<Lengths, Refusal>
where
    E: Fn(&mut [u8], &mut [u8], u64) -> Result<(u64, u64), Refusal>,
{
    if !good_index(index, iused) {
        return plain(refusal::CALL);
    }
    let mut changed = file.to_vec();
    let mut recorded = journal.to_vec();
    let (used, jused, full) = match edit(&mut changed, &mut recorded, jused) {
        Ok((used, jused)) => (used, jused, None),
        Err(full) if full.number == refusal::JOURNAL => {
            // The file as the edit would leave it, had the journal room.
            let (used, _) = edit(&mut changed, &mut vec![0; AMPLE], 0)?;
            (used, jused, Some(full))
        }
        Err(refused) => return Err(refused),
    };
    let cells = entries(&changed[..used as usize], dim)?;
    if !fits(&cells, index) {
        return plain(refusal::ROOM);
    }
    if let Some(full) = full {
        return Err(full);
    }
    file.copy_from_slice(&changed);
    journal.copy_from_slice(&recorded);
    Ok((used, jused, put_entries(&cells, index)))
}

/// Marks the named element and all of its extent deleted, or live.
#[allow(clippy::too_many_arguments)]
pub fn mark_indexed(
    file: &mut [u8],
    used: u64,
    journal: &mut [u8],
    jused: u64,
    index: &mut [u8],
    iused: u64,
    dim: u64,
    place: u64,
    deleted: bool,
) -> Result<Lengths, Refusal> {
    with_index(
        file,
        journal,
        jused,
        index,
        iused,
        dim,
        |file, journal, jused| mark(file, used, journal, jused, dim, place, deleted),
    )
}

/// Renames a type 1 or 2 cell.
#[allow(clippy::too_many_arguments)]
pub fn rename_indexed(
    file: &mut [u8],
    used: u64,
    journal: &mut [u8],
    jused: u64,
    index: &mut [u8],
    iused: u64,
    dim: u64,
    place: u64,
    text: &[u8],
) -> Result<Lengths, Refusal> {
    with_index(
        file,
        journal,
        jused,
        index,
        iused,
        dim,
        |file, journal, jused| rename(file, used, journal, jused, dim, place, text),
    )
}

/// Inserts a piece under a named header, or at the top where there is none.
#[allow(clippy::too_many_arguments)]
pub fn insert_indexed(
    file: &mut [u8],
    used: u64,
    journal: &mut [u8],
    jused: u64,
    index: &mut [u8],
    iused: u64,
    dim: u64,
    header: Option<u64>,
    place: u64,
    piece: &[u8],
) -> Result<Lengths, Refusal> {
    with_index(
        file,
        journal,
        jused,
        index,
        iused,
        dim,
        |file, journal, jused| insert(file, used, journal, jused, dim, header, place, piece),
    )
}

/// Removes an element with its extent.
#[allow(clippy::too_many_arguments)]
pub fn remove_indexed(
    file: &mut [u8],
    used: u64,
    journal: &mut [u8],
    jused: u64,
    index: &mut [u8],
    iused: u64,
    dim: u64,
    place: u64,
) -> Result<Lengths, Refusal> {
    with_index(
        file,
        journal,
        jused,
        index,
        iused,
        dim,
        |file, journal, jused| remove(file, used, journal, jused, dim, place),
    )
}

/// Undoes the last edit. The journal's bytes stay.
pub fn undo_indexed(
    file: &mut [u8],
    used: u64,
    journal: &[u8],
    jused: u64,
    index: &mut [u8],
    iused: u64,
    dim: u64,
) -> Result<Lengths, Refusal> {
    if !good_index(index, iused) {
        return plain(refusal::CALL);
    }
    let mut changed = file.to_vec();
    let (used, jused) = undo(&mut changed, used, journal, jused, dim)?;
    let cells = entries(&changed[..used as usize], dim)?;
    if !fits(&cells, index) {
        return plain(refusal::ROOM);
    }
    file.copy_from_slice(&changed);
    Ok((used, jused, put_entries(&cells, index)))
}
