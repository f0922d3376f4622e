//! A session: a file's buffer and a journal's, edited in place.

use crate::elements::Dimension;
use crate::indexes::Index;
use crate::journals::History;
use crate::raw;
use crate::reading::judge;
use crate::refusals::{done, Number, Refusal};

/// A file's buffer and a journal's with their used lengths. The buffers are owned (`Vec<u8>`) or borrowed (`&mut [u8]`);
/// what is free behind the used bytes is the room for inserting and for records. Buffers and used lengths are even, a
/// buffer has at most 1,048,576 bytes.
///
/// Each edit writes a record behind the journal's used bytes. A call that is refused leaves both buffers and both lengths.
/// After any calls, as many undos as there are records give back the file's bytes at the start.
///
/// Nothing ties a journal to its file: keep the two together. A journal that fits another file by chance is obeyed.
///
/// A session may have an index of the file's cells, which [`index_with`](Session::index_with) builds at its start. Every edit and undo
/// that is made then leaves in its buffer the index of the file as it now is; one after which that would not fit is refused with 15.
///
/// ```
/// use dgn::{Dimension, Session};
///
/// let mut file = std::fs::read(concat!(env!("CARGO_MANIFEST_DIR"), "/../samples/nested.dgn"))?;
/// let read = file.len();
/// file.resize(read + 1024, 0); // room to grow
/// let mut session = Session::open(file, read, vec![0; 4096], Dimension::Two)?;
/// let original = session.file().to_vec();
/// session.rename(26, "PUMP.2")?;
/// session.remove(111)?;
/// while session.undo().is_ok() {}
/// assert_eq!(session.file(), original);
/// # Ok::<(), Box<dyn std::error::Error>>(())
/// ```
#[derive(Clone, Debug)]
pub struct Session<F = Vec<u8>, J = Vec<u8>, I = Vec<u8>> {
    file: F,
    used: usize,
    journal: J,
    journal_used: usize,
    index: Option<Index<I>>,
    dimension: Dimension,
}

/// The buffers and used lengths that a call is lent, with the dimension.
struct Lent<'s> {
    file: &'s mut [u8],
    used: usize,
    journal: &'s mut [u8],
    journal_used: usize,
    dimension: usize,
}

/// Those of an index.
struct LentIndex<'s> {
    bytes: &'s mut [u8],
    used: usize,
}

impl<F, J> Session<F, J>
where
    F: AsRef<[u8]> + AsMut<[u8]>,
    J: AsRef<[u8]> + AsMut<[u8]>,
{
    /// A new session on the first `read` bytes of a buffer, those that were read: judges them, and takes them as used
    /// through their end marker and the journal as empty. Refusals: 1 (also a buffer that is odd or too long, and more bytes
    /// than the buffer has), the file's own.
    pub fn open(file: F, read: usize, journal: J, dimension: Dimension) -> Result<Session<F, J>, Refusal> {
        let fits = |len: usize| len % 2 == 0 && len <= crate::FILE_BYTES;
        let (size, journal_size) = (file.as_ref().len(), journal.as_ref().len());
        if !fits(size) || !fits(journal_size) || size < read {
            return Err(Refusal { number: Number::Call, place: 0, count: 0 });
        }
        let used = 2 * judge(&file.as_ref()[..read], dimension)?.marker + 2;
        Ok(Session::resume(file, used, journal, 0, dimension))
    }

    /// A session that was left, by its buffers and their used lengths as [`used`](Session::used) and
    /// [`journal_used`](Session::journal_used) gave them. The next call judges them.
    pub fn resume(file: F, used: usize, journal: J, journal_used: usize, dimension: Dimension) -> Session<F, J> {
        Session { file, used, journal, journal_used, index: None, dimension }
    }
}

impl<F, J, I> Session<F, J, I>
where
    F: AsRef<[u8]> + AsMut<[u8]>,
    J: AsRef<[u8]> + AsMut<[u8]>,
    I: AsRef<[u8]> + AsMut<[u8]>,
{
    /// The same session with another index, or with none: as one that was left had it, or any bytes, which the next call that is made
    /// replaces.
    pub fn with_index<K>(self, index: Option<Index<K>>) -> Session<F, J, K> {
        let Session { file, used, journal, journal_used, dimension, .. } = self;
        Session { file, used, journal, journal_used, index, dimension }
    }

    /// Builds the index of the file in a buffer, and keeps it from now on. Refusals: 1, the file's own, 15; then the session
    /// stays as it was. [`index_room`](crate::index_room) of the file's buffer is enough for any edit.
    pub fn index_with(&mut self, buffer: I) -> Result<(), Refusal> {
        self.index = Some(Index::build(self.file(), self.dimension, buffer)?);
        Ok(())
    }

    /// The index, where the session has one.
    pub fn index(&self) -> Option<&Index<I>> {
        self.index.as_ref()
    }

    /// Both buffers again. An index goes; [`take_index`](Session::take_index) gives it before.
    pub fn into_buffers(self) -> (F, J) {
        (self.file, self.journal)
    }

    /// The index, which the session then has no more.
    pub fn take_index(&mut self) -> Option<Index<I>> {
        self.index.take()
    }

    /// The file through its end marker; nothing where the used length is beyond the buffer.
    pub fn file(&self) -> &[u8] {
        self.file.as_ref().get(..self.used).unwrap_or(&[])
    }

    /// The used bytes of the journal; nothing where the used length is beyond the buffer.
    pub fn journal(&self) -> &[u8] {
        self.journal.as_ref().get(..self.journal_used).unwrap_or(&[])
    }

    /// The file's used length in bytes.
    pub fn used(&self) -> usize {
        self.used
    }

    /// The journal's used length in bytes.
    pub fn journal_used(&self) -> usize {
        self.journal_used
    }

    /// The dimension of the file.
    pub fn dimension(&self) -> Dimension {
        self.dimension
    }

    /// The records of the edits that are not undone, newest first.
    pub fn history(&self) -> History<'_> {
        History::new(self.journal.as_ref(), self.journal_used)
    }

    /// Makes a call of the library, the one with an index where the session has one, and takes over the used lengths.
    fn call(
        &mut self,
        plain: impl FnOnce(Lent, &mut [usize]) -> usize,
        indexed: impl FnOnce(Lent, LentIndex, &mut [usize]) -> usize,
    ) -> Result<(), Refusal> {
        let (file, journal) = (self.file.as_mut(), self.journal.as_mut());
        let (used, journal_used, dimension) = (self.used, self.journal_used, self.dimension as usize);
        let lent = Lent { file, used, journal, journal_used, dimension };
        match &mut self.index {
            None => {
                let mut out = [0; 2];
                done(plain(lent, &mut out))?;
                [self.used, self.journal_used] = out;
            }
            Some(index) => {
                let (bytes, index_used) = index.lent();
                let mut out = [0; 3];
                done(indexed(lent, LentIndex { bytes, used: *index_used }, &mut out))?;
                [self.used, self.journal_used, *index_used] = out;
            }
        }
        Ok(())
    }

    /// Marks the element at `place` with all beneath it deleted or live, as one step: one undo brings back what was deleted and what
    /// was live. Refusals: 1, the file's own, 13, 14 where the element itself is already so, 15 by an index, 16.
    pub fn mark(&mut self, place: usize, deleted: bool) -> Result<(), Refusal> {
        let d = deleted.into();
        self.call(
            |s, out| raw::mark(s.file, s.used, s.journal, s.journal_used, s.dimension, place, d, out),
            |s, i, out| {
                let (journal, jused) = (s.journal, s.journal_used);
                raw::mark_indexed(s.file, s.used, journal, jused, i.bytes, i.used, s.dimension, place, d, out)
            },
        )
    }

    /// Renames the type 1 or 2 cell at `place`. Refusals: 1, the file's own, 13, 18, 12, 15 by an index, 16.
    pub fn rename(&mut self, place: usize, text: impl AsRef<[u8]>) -> Result<(), Refusal> {
        let text = text.as_ref();
        self.call(
            |s, out| raw::rename(s.file, s.used, s.journal, s.journal_used, s.dimension, place, text, out),
            |s, i, out| {
                let (journal, jused) = (s.journal, s.journal_used);
                raw::rename_indexed(s.file, s.used, journal, jused, i.bytes, i.used, s.dimension, place, text, out)
            },
        )
    }

    /// Inserts a piece, one element with all beneath it, under the header at `header` or at the top, at a place where a
    /// direct component starts or the list ends. Refusals: 1, the file's own, 13, the piece's own with a place within the
    /// piece, 8, 15, 16.
    pub fn insert(&mut self, header: Option<usize>, place: usize, piece: &[u8]) -> Result<(), Refusal> {
        // the largest number is the top's, and no header stands at the one below it either
        let h = header.map_or(raw::TOP, |header| header.min(raw::TOP - 1));
        self.call(
            |s, out| raw::insert(s.file, s.used, s.journal, s.journal_used, s.dimension, h, place, piece, out),
            |s, i, out| {
                let (journal, jused) = (s.journal, s.journal_used);
                raw::insert_indexed(s.file, s.used, journal, jused, i.bytes, i.used, s.dimension, h, place, piece, out)
            },
        )
    }

    /// Removes the element at `place` with all beneath it. Refusals: 1, the file's own, 13, 15 by an index, 16.
    pub fn remove(&mut self, place: usize) -> Result<(), Refusal> {
        self.call(
            |s, out| raw::remove(s.file, s.used, s.journal, s.journal_used, s.dimension, place, out),
            |s, i, out| {
                let (journal, jused) = (s.journal, s.journal_used);
                raw::remove_indexed(s.file, s.used, journal, jused, i.bytes, i.used, s.dimension, place, out)
            },
        )
    }

    /// Undoes the last edit not undone. Refusals: 1, the file's own, 17, 19, 15.
    pub fn undo(&mut self) -> Result<(), Refusal> {
        self.call(
            |s, out| raw::undo(s.file, s.used, s.journal, s.journal_used, s.dimension, out),
            |s, i, out| {
                let (journal, jused) = (s.journal, s.journal_used);
                raw::undo_indexed(s.file, s.used, journal, jused, i.bytes, i.used, s.dimension, out)
            },
        )
    }
}
