//! The cells of a file; and an index: the same by their names, in a buffer beside it.

use crate::elements::Dimension;
use crate::names::Name;
use crate::raw;
use crate::reading::Judged;
use crate::refusals::{done, refused_by, Refusal};
use crate::FILE_BYTES;
use std::slice::ChunksExact;

/// The bytes of an entry: a cell's name and place.
pub const ENTRY_BYTES: usize = 8;

/// So many bytes are enough for the entries of a file of so many bytes: no cell has fewer than 35 words.
pub const fn index_room(file_bytes: usize) -> usize {
    let bytes = if file_bytes < FILE_BYTES { file_bytes } else { FILE_BYTES };
    bytes / 70 * ENTRY_BYTES
}

/// A cell by its name and place. The order is that of an index: by the two words of the name, then by place.
#[derive(Clone, Copy, PartialEq, Eq, PartialOrd, Ord, Hash, Debug)]
pub struct Entry {
    /// Its name.
    pub name: Name,
    /// Where it starts.
    pub place: usize,
}

/// Entries, one after another.
#[derive(Clone, Debug)]
pub struct Entries<'b>(ChunksExact<'b, u8>);

impl<'b> Entries<'b> {
    /// Those that stand in bytes; what is left at the end and is no whole entry is passed over.
    pub fn of(bytes: &'b [u8]) -> Entries<'b> {
        Entries(bytes.chunks_exact(ENTRY_BYTES))
    }
}

impl Iterator for Entries<'_> {
    type Item = Entry;

    #[inline]
    fn next(&mut self) -> Option<Entry> {
        let entry: [u8; ENTRY_BYTES] = self.0.next()?.try_into().expect("eight bytes");
        // four words, low byte first; the place is a long, high word first
        let [first, second, high, low] = [0, 16, 32, 48].map(|bits| (u64::from_le_bytes(entry) >> bits) as u16);
        Some(Entry { name: Name { first, second }, place: usize::from(high) << 16 | usize::from(low) })
    }

    #[inline]
    fn size_hint(&self) -> (usize, Option<usize>) {
        self.0.size_hint()
    }
}

impl ExactSizeIterator for Entries<'_> {}

/// What an accepted file holds, and its cells.
#[derive(Clone, Copy, Debug)]
pub struct Cells<'b> {
    /// What judging it gives.
    pub judged: Judged,
    /// How many cells it has: more than there are entries where the buffer does not hold all.
    pub count: usize,
    entries: &'b [u8],
}

impl<'b> Cells<'b> {
    /// The first of them, as many as the buffer holds whole, in file order.
    pub fn entries(&self) -> Entries<'b> {
        Entries::of(self.entries)
    }
}

/// The cells of a file, types 1 and 2, at all depths and deleted ones too, in file order. Their entries are put at the front of a
/// buffer, as many as it holds whole; [`index_room`] is enough for all. The file is judged once, and one walk goes over the sizes of its
/// elements. Refusals: 1, the file's own.
pub fn cells<'b>(file: &[u8], dimension: Dimension, buffer: &'b mut [u8]) -> Result<Cells<'b>, Refusal> {
    let mut out = [0; 4];
    done(raw::cells(file, dimension as usize, buffer, &mut out))?;
    let [count, elements, deepest, marker] = out;
    let entries = &buffer[..ENTRY_BYTES * count.min(buffer.len() / ENTRY_BYTES)];
    Ok(Cells { judged: Judged { elements, deepest, marker }, count, entries })
}

/// All cells of a file, in file order: one pass. Refusals: 1, the file's own.
pub fn all_cells(file: &[u8], dimension: Dimension) -> Result<Vec<Entry>, Refusal> {
    let mut buffer = vec![0; index_room(file.len())];
    Ok(cells(file, dimension, &mut buffer)?.entries().collect())
}

/// A cell that was looked up.
#[derive(Clone, Copy, PartialEq, Eq, Hash, Debug)]
pub struct LookedUp {
    /// Where it starts.
    pub place: usize,
    /// How many looks at entries were made.
    pub looks: usize,
}

/// An index: the first `used` bytes of a buffer, which is owned (`Vec<u8>`) or borrowed (`&mut [u8]`) and may have any length.
///
/// It has an entry for each type 1 or 2 cell of a file, at all depths and deleted ones too, ordered by the two words of the
/// name, then by place. A part is found in it in some fifteen looks.
///
/// ```
/// use dgn::{Dimension, Index};
///
/// let file = std::fs::read(concat!(env!("CARGO_MANIFEST_DIR"), "/../samples/seals.cel"))?;
/// let index = Index::of(&file, Dimension::Two)?;
/// assert_eq!(index.used(), 32); // four cells
/// let part = index.look_up(&file, Dimension::Two, "417")?;
/// assert_eq!((part.place, part.looks), (181, 3));
/// # Ok::<(), Box<dyn std::error::Error>>(())
/// ```
#[derive(Clone, PartialEq, Eq, Debug)]
pub struct Index<B = Vec<u8>> {
    buffer: B,
    used: usize,
}

impl Index {
    /// The index of a file, in a buffer of just its length. Refusals: 1, the file's own.
    pub fn of(file: &[u8], dimension: Dimension) -> Result<Index, Refusal> {
        let mut index = Index::build(file, dimension, vec![0; index_room(file.len())])?;
        index.buffer.truncate(index.used);
        Ok(index)
    }
}

impl<B: AsRef<[u8]> + AsMut<[u8]>> Index<B> {
    /// The index of a file, at the front of a buffer whose other bytes become 0. Refusals: 1, the file's own, 15 where the buffer
    /// is too short; [`index_room`] is enough.
    pub fn build(file: &[u8], dimension: Dimension, mut buffer: B) -> Result<Index<B>, Refusal> {
        let mut out = [0];
        done(raw::index(file, dimension as usize, buffer.as_mut(), &mut out))?;
        Ok(Index { buffer, used: out[0] })
    }
}

impl<B: AsMut<[u8]>> Index<B> {
    /// The buffer and the used length for a call that writes both.
    pub(crate) fn lent(&mut self) -> (&mut [u8], &mut usize) {
        (self.buffer.as_mut(), &mut self.used)
    }
}

impl<B: AsRef<[u8]>> Index<B> {
    /// An index that was kept, by its buffer and its used length. Any bytes are taken; the look-ups judge the length.
    pub fn resume(buffer: B, used: usize) -> Index<B> {
        Index { buffer, used }
    }

    /// The buffer again.
    pub fn into_buffer(self) -> B {
        self.buffer
    }

    /// Its used length in bytes.
    pub fn used(&self) -> usize {
        self.used
    }

    /// Its used bytes; nothing where the used length is beyond the buffer.
    pub fn bytes(&self) -> &[u8] {
        self.buffer.as_ref().get(..self.used).unwrap_or(&[])
    }

    /// Its whole entries, in their order.
    pub fn entries(&self) -> Entries<'_> {
        Entries::of(self.bytes())
    }

    /// The first live cell with the name, by the file that it is the index of: the place that [`find`](crate::find) gives. Entries
    /// of the name whose place starts a deleted cell of the file, or no cell, are passed over, so an index that is not the
    /// file's leads to a live cell of it or to 13. Refusals: 1 (also a used length that is not a multiple of 8, or beyond the
    /// buffer), the file's own, 12 for the text, 13 with the number of looks as its count, 524,288 where there were more.
    pub fn look_up(&self, file: &[u8], dimension: Dimension, text: impl AsRef<[u8]>) -> Result<LookedUp, Refusal> {
        let (index, text) = (self.buffer.as_ref(), text.as_ref());
        looked_up(|out| raw::look_up(file, dimension as usize, index, self.used, text, out))
    }

    /// The lowest place of a cell with the name, be it live or deleted; no file is read. Over the index of a file it is the place
    /// that [`find_with_deleted`](crate::find_with_deleted) gives; over any other bytes it is what stands where the search by
    /// halving ends. Refusals: 1 (the used length is not a multiple of 8, or beyond the buffer), 12 for the text, 13 with the
    /// number of looks as its count.
    pub fn look_up_with_deleted(&self, text: impl AsRef<[u8]>) -> Result<LookedUp, Refusal> {
        looked_up(|out| raw::look_up_with_deleted(self.buffer.as_ref(), self.used, text.as_ref(), out))
    }
}

/// What a look-up gives.
fn looked_up(call: impl FnOnce(&mut [usize]) -> usize) -> Result<LookedUp, Refusal> {
    let mut out = [0; 2];
    refused_by(call(&mut out), Refusal::of_find)?;
    Ok(LookedUp { place: out[0], looks: out[1] })
}
