//! The part in which a file that is refused is at fault.
//!
//! The library says of a refused file the number and the place and nothing else. So the elements before the place are made
//! a whole file: from the place on lines, as the library writes them, fill the extents that are open there, and behind these
//! stands the end marker. The library reads the cells of that file.

use crate::parts::{self, Part};
use dgn::{Dimension, Fields, Number, Refusal, Type, END_MARKER};

/// More words than an extent can have.
const EXTENT: usize = 1 << 16;

/// How many words back an element is looked for at which the filling can begin.
const BACK: usize = 1 << 14;

/// The innermost cell around a fault, or else the last before it.
#[derive(Clone, PartialEq, Eq, Debug)]
pub struct Near {
    /// Its name.
    pub code: String,
    /// Where it starts.
    pub place: usize,
    /// Whether the fault is in its extent.
    pub inside: bool,
}

impl Near {
    /// "in" or "after".
    pub fn relation(&self) -> &'static str {
        if self.inside {
            "in"
        } else {
            "after"
        }
    }

    fn of(part: &Part, inside: bool) -> Near {
        Near { code: part.code.clone(), place: part.place, inside }
    }
}

/// Where a fault is.
#[derive(Clone, PartialEq, Eq, Debug, Default)]
pub struct Fault {
    /// Whether the element at fault stands, or should stand, beneath another.
    pub beneath: bool,
    /// The innermost accepted cell around it, or else the last before it; none where there is no cell before it.
    pub near: Option<Near>,
}

/// Where the fault of a refused file is.
pub fn of(bytes: &[u8], dimension: Dimension, refusal: Refusal) -> Fault {
    let (place, head) = match bytes.get(..2 * refusal.place) {
        Some(head) if refusal.number != Number::Call => (refusal.place, head),
        _ => return Fault::default(),
    };
    let mut head = [head, &END_MARKER].concat();
    // where the place is beneath a header, the outermost one reaches past the marker and is refused
    let top = dgn::judge(&head, dimension).map_or_else(|refused| refused.place, |judged| judged.marker);
    let beneath = top < place;
    if beneath {
        if let Some(near) = within(&head[2 * top..2 * place], dimension) {
            return Fault { beneath, near: Some(Near { place: top + near.place, ..near }) };
        }
    }
    head.truncate(2 * top);
    head.extend(END_MARKER);
    Fault { beneath, near: parts::all(&head, dimension, top).last().map(|last| Near::of(last, false)) }
}

/// The cell near a fault at the end of the words, which begin with a header whose extent does not end there.
fn within(words: &[u8], dimension: Dimension) -> Option<Near> {
    let mut filled = Filled::of(words, dimension)?;
    let (mut at, mut tried) = (words.len() / 2, 0);
    let marker = loop {
        let closed = if filled.begins(at) { filled.close(at) } else { Closed::Not };
        (at, tried) = match closed {
            Closed::Marker(marker) => break marker,
            Closed::Counts(header) => (header, tried),
            Closed::Not => (at - 1, tried + 1),
        };
        if at == 0 || tried > BACK {
            return None;
        }
    };
    let cells = parts::all(&filled.bytes[..2 * marker + 2], dimension, marker);
    let before: Vec<Part> = cells.into_iter().filter(|cell| cell.place < at).collect();
    let around = parts::around(&before, at).map(|cell| Near::of(cell, true));
    around.or_else(|| before.last().map(|last| Near::of(last, false)))
}

/// What came of filling the open extents.
enum Closed {
    /// The end marker stands behind them.
    Marker(usize),
    /// The header at this place counts its components, and these are others now: it is to be filled itself.
    Counts(usize),
    /// No line fits.
    Not,
}

/// The words before a fault with room for the longest extent, and how they are filled.
struct Filled<'w> {
    words: &'w [u8],
    bytes: Vec<u8>,
    dimension: Dimension,
    /// The words of the shortest line.
    shortest: usize,
}

impl Filled<'_> {
    fn of(words: &[u8], dimension: Dimension) -> Option<Filled<'_>> {
        let mut filled = Filled { words, bytes: vec![0; 2 * EXTENT + 256], dimension, shortest: 0 };
        filled.shortest = filled.line(0, 0)?;
        filled.reset(words.len() / 2);
        Some(filled)
    }

    /// Writes a line, a component, with `more` words behind its fixed part; gives its words.
    fn line(&mut self, at: usize, more: usize) -> Option<usize> {
        let fields = Fields { component: true, ..Fields::new(Type::Line) };
        let points = [0; 6];
        let tail = vec![0; 2 * more];
        let room = self.bytes.get_mut(2 * at..)?;
        dgn::write(&fields, &points[..2 * self.dimension as usize], &tail, self.dimension, room).ok()
    }

    /// The words up to `at` again, zeros behind them.
    fn reset(&mut self, at: usize) {
        self.bytes.fill(0);
        self.bytes[..2 * at].copy_from_slice(&self.words[..2 * at]);
    }

    /// Puts an end marker; the place of the fault that the library then finds, or none where it accepts.
    fn marked(&mut self, at: usize) -> Option<usize> {
        let old = [self.bytes[2 * at], self.bytes[2 * at + 1]];
        self.bytes[2 * at..2 * at + 2].copy_from_slice(&END_MARKER);
        let fault = dgn::judge(&self.bytes, self.dimension).err().map(|refusal| refusal.place);
        if fault.is_some() {
            self.bytes[2 * at..2 * at + 2].copy_from_slice(&old);
        }
        fault
    }

    /// Whether an element begins at the word: beneath a header an end marker is refused where it stands.
    fn begins(&mut self, at: usize) -> bool {
        self.marked(at) == Some(at)
    }

    /// Fills all extents that are open at the word. Where that does not succeed, the words are as they were.
    fn close(&mut self, begin: usize) -> Closed {
        self.reset(begin);
        let mut at = begin;
        // eight headers and the top
        for _ in 0..9 {
            match self.marked(at) {
                None => return Closed::Marker(at),
                Some(header) if header < begin => {
                    self.reset(self.words.len() / 2);
                    return Closed::Counts(header);
                }
                Some(_) => {}
            }
            let Some(line) = self.longest(at).and_then(|more| self.line(at, more)) else { break };
            at += line;
        }
        self.reset(self.words.len() / 2);
        Closed::Not
    }

    /// By how many words the longest line that fits the innermost extent is longer than the shortest; none where that does not fit.
    fn longest(&mut self, at: usize) -> Option<usize> {
        let (mut least, mut above) = (0, (self.bytes.len() / 2 - 1).checked_sub(at + self.shortest)?);
        if !self.fits(at, least) {
            return None;
        }
        while above - least > 1 {
            let middle = (least + above) / 2;
            *(if self.fits(at, middle) { &mut least } else { &mut above }) = middle;
        }
        self.bytes[2 * at..].fill(0);
        Some(least)
    }

    /// Whether a line with `more` words is accepted where it stands.
    fn fits(&mut self, at: usize, more: usize) -> bool {
        self.bytes[2 * at..].fill(0);
        self.line(at, more).is_some()
            && dgn::judge(&self.bytes, self.dimension).map_or_else(|refusal| refusal.place != at, |_| true)
    }
}
