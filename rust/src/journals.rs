//! The records of a journal, newest first; and a journal stored in blocks.

use crate::numbered::numbered;
use crate::raw;
use crate::refusals::{done, Number, Refusal};
use crate::{BLOCK_BYTES, BLOCK_JOURNAL};

numbered! {
    /// The kinds of edits.
    pub enum Edit {
        /// Marked deleted or live.
        Mark = 1,
        /// Renamed.
        Rename = 2,
        /// Inserted.
        Insert = 3,
        /// Removed.
        Remove = 4,
    }
}

/// A record of an edit, in the journal that it was read from.
#[derive(Clone, Copy, PartialEq, Eq, Hash, Debug)]
pub struct Record<'j> {
    /// What was done.
    pub edit: Edit,
    /// The header's place; none for the top, and for marks and renames.
    pub header: Option<usize>,
    /// The place.
    pub place: usize,
    /// Its payload, words as bytes: for a mark the deleted flags that the elements had, sixteen a word, the first in bit 0, for a
    /// rename the two old words of the name, for a remove those removed, else none.
    pub payload: &'j [u8],
    /// The journal's used length in bytes before the record. Its payload begins there.
    pub before: usize,
}

/// The last record of the journal's first `used` bytes. Refusals: 1 for the lengths, 17 where nothing is used, 19 where the
/// record is ill-formed; whether it may be reversed is not asked.
pub fn record(journal: &[u8], used: usize) -> Result<Record<'_>, Refusal> {
    let mut out = [0; 5];
    done(raw::record(journal, used, &mut out))?;
    let [kind, header, place, payload_words, before] = out;
    let edit = Edit::of(kind).expect("a record's kind");
    let header = (header != raw::TOP).then_some(header);
    Ok(Record { edit, header, place, payload: &journal[before..][..2 * payload_words], before })
}

/// The records of a journal from the last to the first. A refusal is the last item.
#[derive(Clone, Debug)]
pub struct History<'j> {
    journal: &'j [u8],
    /// None behind the first record or a refusal.
    used: Option<usize>,
}

impl<'j> History<'j> {
    /// Those of the journal's first `used` bytes.
    pub fn new(journal: &'j [u8], used: usize) -> History<'j> {
        History { journal, used: Some(used) }
    }
}

impl<'j> Iterator for History<'j> {
    type Item = Result<Record<'j>, Refusal>;

    fn next(&mut self) -> Option<Result<Record<'j>, Refusal>> {
        let answer = record(self.journal, self.used?);
        self.used = answer.as_ref().ok().map(|record| record.before);
        match answer {
            Err(Refusal { number: Number::Nothing, .. }) => None,
            answer => Some(answer),
        }
    }
}

/// The blocks of a journal's used bytes, to be kept on a disk: 512 bytes for each 508 bytes of the journal, the last ones, if fewer,
/// counted whole; each block has a check. Refusal: 1 where the journal is odd or more than [`FILE_BYTES`](crate::FILE_BYTES). Records
/// are not looked at.
pub fn blocks_of_journal(journal: &[u8]) -> Result<Vec<u8>, Refusal> {
    moved(raw::journal_to_blocks, journal, journal.len().div_ceil(BLOCK_JOURNAL) * BLOCK_BYTES)
}

/// The journal that blocks hold. Refusals: 1 where they are odd or more than [`STORED_BYTES`](crate::STORED_BYTES), 22 with the
/// number of the first bad block, from 0. One changed word in a block, an end inside a block and anything behind a block that is part
/// full are always seen. Full blocks that are missing, in another order, replaced by other good ones, or doubled where the journal does
/// not become too long are not, nor are blocks missing at the end; two changed words of a block may not be.
pub fn journal_of_blocks(blocks: &[u8]) -> Result<Vec<u8>, Refusal> {
    moved(raw::journal_from_blocks, blocks, blocks.len() / BLOCK_BYTES * BLOCK_JOURNAL)
}

/// What one of the two writes of these bytes, which is no more than `most`.
fn moved(by: fn(&[u8], &mut [u8], &mut [usize]) -> usize, bytes: &[u8], most: usize) -> Result<Vec<u8>, Refusal> {
    // more bytes than are allowed are refused before there is need of room
    let mut written = vec![0; most.min(crate::STORED_BYTES)];
    let mut out = [0];
    done(by(bytes, &mut written, &mut out))?;
    written.truncate(out[0]);
    Ok(written)
}
