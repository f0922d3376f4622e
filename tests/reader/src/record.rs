//! The journal's records: a payload, then six words.

use crate::refusal::{self, plain, Refusal};
use crate::session::good_lengths;
use crate::words::{count, long, put, word};

/// The words of a record after its payload.
pub(crate) const TRAILER: u64 = 6;

pub(crate) const FLAG: u64 = 1;
pub(crate) const RENAME: u64 = 2;
pub(crate) const INSERT: u64 = 3;
pub(crate) const REMOVE: u64 = 4;

/// The long that stands for no header: -1.
const TOP: u32 = u32::MAX;

/// A well-formed record as it stands in the journal.
#[derive(Debug, Clone, PartialEq, Eq)]
pub struct Record {
    pub kind: u64,
    /// The header place; none for the top.
    pub header: Option<u64>,
    pub place: u64,
    /// Where the payload begins in the journal, and its words.
    pub start: u64,
    pub payload: u64,
}

impl Record {
    /// The journal's used length before the record, in bytes.
    pub fn used_before(&self) -> u64 {
        self.start * 2
    }
}

/// Whether the free words of the journal take a record with that payload.
pub(crate) fn fits(journal: &[u8], jused: u64, payload: u64) -> bool {
    count(journal).saturating_sub(jused / 2) >= payload + TRAILER
}

/// Puts a record after the used words; gives the new used length in bytes.
/// The room was looked at before.
pub(crate) fn append(
    journal: &mut [u8],
    jused: u64,
    kind: u64,
    header: Option<u64>,
    place: u64,
    payload: &[u8],
) -> u64 {
    let mut next = jused / 2;
    for offset in 0..count(payload) {
        put(journal, next, word(payload, offset));
        next += 1;
    }
    let header = header.unwrap_or(u64::from(TOP));
    for value in [
        kind,
        header >> 16,
        header,
        place >> 16,
        place,
        count(payload),
    ] {
        put(journal, next, value);
        next += 1;
    }
    next * 2
}

/// The last record of a journal: 1 where the buffer or its used length is not
/// in order, 17 where the journal is empty, 19 where the record is ill-formed.
/// No file is looked at: whether it may be reversed, undo tells.
pub fn last_record(journal: &[u8], jused: u64) -> Result<Record, Refusal> {
    if !good_lengths(journal, jused) {
        return plain(refusal::CALL);
    }
    if jused == 0 {
        return plain(refusal::NOTHING);
    }
    match last(journal, jused) {
        Some(record) => Ok(record),
        None => plain(refusal::BAD_JOURNAL),
    }
}

/// The last record of the used journal; none where it is ill-formed.
fn last(journal: &[u8], jused: u64) -> Option<Record> {
    let end = jused / 2;
    let trailer = end.checked_sub(TRAILER)?;
    let kind = word(journal, trailer);
    let header = long(journal, trailer + 1);
    let place = u64::from(long(journal, trailer + 3));
    let payload = word(journal, trailer + 5);
    let start = trailer.checked_sub(payload)?;
    let header = if header == TOP {
        None
    } else {
        Some(u64::from(header))
    };
    let good = match kind {
        // A bit for the element itself at least.
        FLAG => payload >= 1 && header.is_none(),
        RENAME => payload == 2 && header.is_none(),
        INSERT => payload == 0,
        REMOVE => true,
        _ => false,
    };
    if good {
        Some(Record {
            kind,
            header,
            place,
            start,
            payload,
        })
    } else {
        None
    }
}
