//! The book of a session: the original's used words and the edits made and
//! not undone. It is fed the calls alone and shares nothing with the calls
//! but the reading of words.

use crate::calls::Call;
use crate::words::{bytes_of, words_of};

/// The letters of a name, each at its code. No letter has code 29.
const LETTERS: &[u8; 40] = b" ABCDEFGHIJKLMNOPQRSTUVWXYZ$.\x000123456789";

#[derive(Debug, Clone)]
pub struct Book {
    original: Vec<u16>,
    dim: u64,
    edits: Vec<Call>,
}

impl Book {
    /// A book over the used bytes of the original, with no edit listed.
    pub fn new(used: &[u8], dim: u64) -> Book {
        Book {
            original: words_of(used),
            dim,
            edits: Vec::new(),
        }
    }

    /// Takes in one call: an edit not refused joins the list's end, an undo
    /// not refused strikes off the last one.
    pub fn feed(&mut self, call: &Call, refused: bool) {
        if refused {
            return;
        }
        match call {
            Call::Undo => {
                self.edits.pop();
            }
            edit => self.edits.push(edit.clone()),
        }
    }

    /// How many edits are listed.
    pub fn listed(&self) -> usize {
        self.edits.len()
    }

    /// The listed edits, first to last.
    pub fn edits(&self) -> &[Call] {
        &self.edits
    }

    pub fn dim(&self) -> u64 {
        self.dim
    }

    /// The words that the file must now hold: the listed edits applied to the
    /// original's words. None where a listed edit has nothing to work on.
    pub fn words(&self) -> Option<Vec<u16>> {
        let mut words = self.original.clone();
        for edit in &self.edits {
            apply(&mut words, edit)?;
        }
        Some(words)
    }

    /// The same as bytes.
    pub fn bytes(&self) -> Option<Vec<u8>> {
        self.words().map(|words| bytes_of(&words))
    }

    /// What a run's index buffer of that length must now hold, and its used
    /// length in bytes: the cells of those words in order, then zeros. None
    /// where they do not fit.
    pub fn index(&self, length: usize) -> Option<(Vec<u8>, u64)> {
        let mut cells = cells(&self.words()?)?;
        cells.sort_unstable();
        let mut buffer = bytes_of(&cells.concat());
        let used = buffer.len();
        if used > length {
            return None;
        }
        buffer.resize(length, 0);
        Some((buffer, used as u64))
    }
}

/// The four words of an entry for each cell: its name and its place.
fn cells(words: &[u16]) -> Option<Vec<[u16; 4]>> {
    let mut cells = Vec::new();
    let mut place = 0;
    // An element begins where the one before it ends, a component too.
    while *words.get(place)? != 65535 {
        let name = match kind(words, place)? {
            1 => Some(16),
            2 => Some(19),
            _ => None,
        };
        if let Some(offset) = name {
            let name = words.get(place + offset..place + offset + 2)?;
            let (high, low) = (place / 65536, place % 65536);
            cells.push([name[0], name[1], high as u16, low as u16]);
        }
        place += usize::from(*words.get(place + 1)?) + 2;
    }
    Some(cells)
}

fn apply(words: &mut Vec<u16>, edit: &Call) -> Option<()> {
    match edit {
        Call::Mark { place, deleted } => {
            // Each element of the extent begins where the one before it ends.
            let mut next = index(*place)?;
            let end = next.checked_add(span(words, next)?)?;
            while next < end {
                let size = usize::from(*words.get(next.checked_add(1)?)?) + 2;
                let word = words.get_mut(next)?;
                *word = if *deleted {
                    *word | 0x8000
                } else {
                    *word & 0x7FFF
                };
                next += size;
            }
        }
        Call::Rename { place, text } => {
            let cell = index(*place)?;
            let name = match kind(words, cell)? {
                1 => cell.checked_add(16)?,
                2 => cell.checked_add(19)?,
                _ => return None,
            };
            let pair = words.get_mut(name..name.checked_add(2)?)?;
            pair.copy_from_slice(&name_words(text)?);
        }
        Call::Insert {
            header,
            place,
            piece,
        } => {
            let place = index(*place)?;
            let piece = words_of(piece);
            let path = match header {
                None => Vec::new(),
                Some(header) => {
                    let header = index(*header)?;
                    let mut path = headers_above(words, header)?;
                    path.push(header);
                    path
                }
            };
            if place > words.len() || path.last().is_some_and(|&header| header >= place) {
                return None;
            }
            correct(words, &path, i64::try_from(piece.len()).ok()?, 1)?;
            words.splice(place..place, piece);
        }
        Call::Remove { place } => {
            let place = index(*place)?;
            let path = headers_above(words, place)?;
            let end = place.checked_add(span(words, place)?)?;
            if end > words.len() {
                return None;
            }
            correct(words, &path, -i64::try_from(end - place).ok()?, -1)?;
            words.drain(place..end);
        }
        Call::Undo => {}
    }
    Some(())
}

fn index(place: u64) -> Option<usize> {
    usize::try_from(place).ok()
}

/// The type of the element at a place.
fn kind(words: &[u16], place: usize) -> Option<u16> {
    Some(words.get(place)? / 256 % 128)
}

fn holds_others(kind: u16) -> bool {
    [1, 2, 7, 12, 14, 18, 19].contains(&kind)
}

/// The words of an extent.
fn span(words: &[u16], place: usize) -> Option<usize> {
    let rest = words.get(place..)?;
    if holds_others(kind(words, place)?) {
        Some(usize::from(*rest.get(18)?) + 19)
    } else {
        Some(usize::from(*rest.get(1)?) + 2)
    }
}

/// The places of all headers above the element that starts at a place,
/// outermost first.
fn headers_above(words: &[u16], wanted: usize) -> Option<Vec<usize>> {
    let mut path = Vec::new();
    let mut place = 0;
    while place < wanted {
        let end = place + span(words, place)?;
        if end <= wanted {
            // The wanted element is in a later extent.
            place = end;
        } else {
            // It is inside this one, behind the header's own words.
            if !holds_others(kind(words, place)?) {
                return None;
            }
            path.push(place);
            place += usize::from(*words.get(place + 1)?) + 2;
        }
    }
    if place == wanted {
        Some(path)
    } else {
        None
    }
}

/// Adds to the total of each header on the path, and to the count of the last
/// one if it has a count.
fn correct(words: &mut [u16], path: &[usize], total: i64, count: i64) -> Option<()> {
    for &header in path {
        add(words, header + 18, total)?;
    }
    if let Some(&direct) = path.last() {
        if [7, 12, 14, 18, 19].contains(&kind(words, direct)?) {
            add(words, direct + 19, count)?;
        }
    }
    Some(())
}

fn add(words: &mut [u16], place: usize, amount: i64) -> Option<()> {
    let word = words.get_mut(place)?;
    *word = u16::try_from(i64::from(*word) + amount).ok()?;
    Some(())
}

/// The two words of a name.
fn name_words(text: &[u8]) -> Option<[u16; 2]> {
    if text.len() > 6 {
        return None;
    }
    let mut pair = [0u16; 2];
    for position in 0..6 {
        let letter = text.get(position).copied().unwrap_or(b' ');
        let code = LETTERS
            .iter()
            .position(|&known| known == letter && known != 0)?;
        let word = &mut pair[position / 3];
        *word = word
            .checked_mul(40)?
            .checked_add(u16::try_from(code).ok()?)?;
    }
    Some(pair)
}
