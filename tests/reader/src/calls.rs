//! The five calls of a session as plain data, a session's two buffers, and the
//! index that may be lent beside them.

use crate::edits::{insert, mark, remove, rename};
use crate::indexed::{insert_indexed, mark_indexed, remove_indexed, rename_indexed, undo_indexed};
use crate::refusal::Refusal;
use crate::undo::undo;

/// One call, without the buffers that it may change.
#[derive(Debug, Clone, PartialEq, Eq)]
pub enum Call {
    Mark {
        place: u64,
        deleted: bool,
    },
    Rename {
        place: u64,
        text: Vec<u8>,
    },
    Insert {
        header: Option<u64>,
        place: u64,
        piece: Vec<u8>,
    },
    Remove {
        place: u64,
    },
    Undo,
}

/// A file buffer and a journal buffer with their used lengths, in bytes.
#[derive(Debug, Clone, PartialEq, Eq)]
pub struct State {
    pub dim: u64,
    pub file: Vec<u8>,
    pub used: u64,
    pub journal: Vec<u8>,
    pub jused: u64,
}

impl State {
    /// Makes one call and takes over the new used lengths.
    pub fn run(&mut self, call: &Call) -> Result<(), Refusal> {
        let (used, jused, dim) = (self.used, self.jused, self.dim);
        let file = &mut self.file[..];
        let journal = &mut self.journal[..];
        let (used, jused) = match call {
            Call::Mark { place, deleted } => {
                mark(file, used, journal, jused, dim, *place, *deleted)?
            }
            Call::Rename { place, text } => rename(file, used, journal, jused, dim, *place, text)?,
            Call::Insert {
                header,
                place,
                piece,
            } => insert(file, used, journal, jused, dim, *header, *place, piece)?,
            Call::Remove { place } => remove(file, used, journal, jused, dim, *place)?,
            Call::Undo => undo(file, used, journal, jused, dim)?,
        };
        self.used = used;
        self.jused = jused;
        Ok(())
    }

    /// The used bytes of the file; empty where the used length is beyond it.
    pub fn used_file(&self) -> &[u8] {
        usize::try_from(self.used)
            .ok()
            .and_then(|used| self.file.get(..used))
            .unwrap_or(&[])
    }
}

/// An index buffer with its used length, in bytes.
#[derive(Debug, Clone, PartialEq, Eq)]
pub struct Index {
    pub buffer: Vec<u8>,
    pub used: u64,
}

/// A session and the index that every call is lent, if there is one.
#[derive(Debug, Clone, PartialEq, Eq)]
pub struct IndexedState {
    pub session: State,
    pub index: Option<Index>,
}

impl IndexedState {
    /// Makes one call and takes over the new used lengths.
    pub fn run(&mut self, call: &Call) -> Result<(), Refusal> {
        match &mut self.index {
            Some(lent) => self.session.run_indexed(lent, call),
            None => self.session.run(call),
        }
    }
}

impl State {
    /// Makes one call with an index lent and takes over the new used lengths.
    pub fn run_indexed(&mut self, lent: &mut Index, call: &Call) -> Result<(), Refusal> {
        let (used, jused, iused, dim) = (self.used, self.jused, lent.used, self.dim);
        let file = &mut self.file[..];
        let journal = &mut self.journal[..];
        let index = &mut lent.buffer[..];
        let (used, jused, iused) = match call {
            Call::Mark { place, deleted } => mark_indexed(
                file, used, journal, jused, index, iused, dim, *place, *deleted,
            )?,
            Call::Rename { place, text } => {
                rename_indexed(file, used, journal, jused, index, iused, dim, *place, text)?
            }
            Call::Insert {
                header,
                place,
                piece,
            } => insert_indexed(
                file, used, journal, jused, index, iused, dim, *header, *place, piece,
            )?,
            Call::Remove { place } => {
                remove_indexed(file, used, journal, jused, index, iused, dim, *place)?
            }
            Call::Undo => undo_indexed(file, used, journal, jused, index, iused, dim)?,
        };
        self.used = used;
        self.jused = jused;
        lent.used = iused;
        Ok(())
    }
}
