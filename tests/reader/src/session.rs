//! What the editing calls share: looking at the session, finding the element
//! or the gap that a call names, and moving words.

use crate::judge::{judge_piece, judge_seeing, Judged, Seen};
use crate::layout::{self, COUNT_WORD, LARGEST, LIMIT, MARKER, TOTAL_WORD};
use crate::refusal::{self, at, plain, Refusal};
use crate::words::{count, put, word};

/// A buffer's length and its used length, in bytes.
pub(crate) fn good_lengths(buffer: &[u8], used: u64) -> bool {
    let length = buffer.len() as u64;
    length % 2 == 0 && length <= LIMIT && used % 2 == 0 && used <= length
}

/// Answers 1, then the file's own refusals, then 1 where the marker is found
/// before the last used word. Shows each element of the used file.
pub(crate) fn open<F: FnMut(&Seen)>(
    file: &[u8],
    used: u64,
    journal: &[u8],
    jused: u64,
    dim: u64,
    see: F,
) -> Result<Judged, Refusal> {
    if !layout::good_dimension(dim)
        || !good_lengths(file, used)
        || !good_lengths(journal, jused)
        || used == 0
        || word(file, used / 2 - 1) != MARKER
    {
        return plain(refusal::CALL);
    }
    let judged = judge_seeing(&file[..used as usize], dim, see)?;
    if judged.marker != used / 2 - 1 {
        return plain(refusal::CALL);
    }
    Ok(judged)
}

/// The headers around each element as judging goes down the file.
struct Trail {
    places: [u64; layout::DEEPEST as usize + 1],
}

impl Trail {
    fn new() -> Trail {
        Trail {
            places: [0; layout::DEEPEST as usize + 1],
        }
    }

    /// The headers above an element just met, outermost first.
    fn pass(&mut self, seen: &Seen) -> &[u64] {
        let depth = seen.depth as usize;
        self.places[depth] = seen.place;
        &self.places[..depth]
    }
}

/// An element, the headers above it, outermost first, and the places of all
/// elements of its extent in file order, itself first.
pub(crate) struct Standing {
    pub element: Seen,
    pub headers: Vec<u64>,
    pub extent: Vec<u64>,
}

/// Looks for the element that starts at a place.
pub(crate) struct SeekElement {
    place: u64,
    trail: Trail,
    found: Option<Standing>,
}

impl SeekElement {
    pub fn new(place: u64) -> SeekElement {
        SeekElement {
            place,
            trail: Trail::new(),
            found: None,
        }
    }

    pub fn see(&mut self, seen: &Seen) {
        let above = self.trail.pass(seen);
        if seen.place == self.place {
            self.found = Some(Standing {
                element: seen.clone(),
                headers: above.to_vec(),
                extent: Vec::new(),
            });
        }
        if let Some(found) = &mut self.found {
            if seen.place < found.element.end {
                found.extent.push(seen.place);
            }
        }
    }

    pub fn found(self) -> Result<Standing, Refusal> {
        match self.found {
            Some(standing) => Ok(standing),
            None => plain(refusal::NO_SUCH),
        }
    }
}

/// A gap for a piece: the headers around it, the direct one last, and what
/// the piece has above it.
pub(crate) struct Gap {
    pub header: Option<u64>,
    pub place: u64,
    headers: Vec<u64>,
    above: Option<u64>,
}

/// Looks for the gap at a place under a named header or at the top.
pub(crate) struct SeekGap {
    header: Option<u64>,
    place: u64,
    trail: Trail,
    /// The named header and those above it.
    named: Option<(Seen, Vec<u64>)>,
    starts: bool,
}

impl SeekGap {
    pub fn new(header: Option<u64>, place: u64) -> SeekGap {
        SeekGap {
            header,
            place,
            trail: Trail::new(),
            named: None,
            starts: false,
        }
    }

    pub fn see(&mut self, seen: &Seen) {
        let above = self.trail.pass(seen);
        if Some(seen.place) == self.header && layout::is_header(seen.kind) {
            self.named = Some((seen.clone(), above.to_vec()));
        }
        if seen.place == self.place && seen.header == self.header {
            self.starts = true;
        }
    }

    /// The gap, where a direct component starts or the list ends.
    pub fn found(self, marker: u64) -> Result<Gap, Refusal> {
        let (list_end, headers, above) = match (self.header, self.named) {
            (None, _) => (marker, Vec::new(), None),
            (Some(place), Some((named, mut headers))) => {
                headers.push(place);
                (named.end, headers, Some(named.kind))
            }
            (Some(_), None) => return plain(refusal::NO_SUCH),
        };
        if !self.starts && self.place != list_end {
            return plain(refusal::NO_SUCH);
        }
        Ok(Gap {
            header: self.header,
            place: self.place,
            headers,
            above,
        })
    }
}

impl Gap {
    /// The piece's own refusals, then 8 at the outermost enclosing header
    /// that would grow too large.
    pub fn judge(&self, file: &[u8], dim: u64, piece: &[u8]) -> Result<(), Refusal> {
        judge_piece(piece, dim, self.headers.len() as u64, self.above)?;
        for &header in &self.headers {
            if 19 + word(file, header + TOTAL_WORD) + count(piece) > LARGEST {
                return at(refusal::TOTAL, header);
            }
        }
        Ok(())
    }

    /// Answers 15 where the file buffer cannot take the piece.
    pub fn room(&self, file: &[u8], used: u64, piece: &[u8]) -> Result<(), Refusal> {
        if used + piece.len() as u64 > file.len() as u64 {
            return plain(refusal::ROOM);
        }
        Ok(())
    }

    /// Puts the piece in and moves the rest; gives the new used length. All
    /// causes to refuse were looked at before.
    pub fn fill(&self, file: &mut [u8], used: u64, piece: &[u8]) -> u64 {
        let from = self.place as usize * 2;
        file.copy_within(from..used as usize, from + piece.len());
        file[from..from + piece.len()].copy_from_slice(piece);
        for &header in &self.headers {
            let total = word(file, header + TOTAL_WORD) + count(piece);
            put(file, header + TOTAL_WORD, total);
        }
        if let (Some(kind), Some(&header)) = (self.above, self.headers.last()) {
            if layout::has_count(kind) {
                let number = word(file, header + COUNT_WORD) + 1;
                put(file, header + COUNT_WORD, number);
            }
        }
        used + piece.len() as u64
    }
}

impl Standing {
    /// The extent's words as bytes of the file.
    pub fn bytes<'a>(&self, file: &'a [u8]) -> &'a [u8] {
        &file[self.element.place as usize * 2..self.element.end as usize * 2]
    }

    /// Takes the extent out, moves the rest and clears the words freed at the
    /// end; gives the new used length.
    pub fn cut(&self, file: &mut [u8], used: u64) -> u64 {
        let from = self.element.place as usize * 2;
        let to = self.element.end as usize * 2;
        let freed = to - from;
        let used = used as usize;
        file.copy_within(to..used, from);
        file[used - freed..used].fill(0);
        let lost = (freed / 2) as u64;
        for &header in &self.headers {
            let total = word(file, header + TOTAL_WORD) - lost;
            put(file, header + TOTAL_WORD, total);
        }
        if let Some(&header) = self.headers.last() {
            let kind = word(file, header) >> 8 & 127;
            if layout::has_count(kind) {
                let number = word(file, header + COUNT_WORD) - 1;
                put(file, header + COUNT_WORD, number);
            }
        }
        (used - freed) as u64
    }
}
