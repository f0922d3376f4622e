//! Refusals: the number, its name and its sentence.

use crate::numbered::numbered;
use std::ffi::{c_char, CStr};
use std::fmt;

extern "C" {
    fn dgn_refusal_name(number: usize) -> *const c_char;
    fn dgn_refusal_text(number: usize) -> *const c_char;
}

numbered! {
    /// The number of a refusal. Judging a file can answer those to [`Number::Name`], [`Number::Field`] and [`Number::Float`];
    /// the others are about a call.
    pub enum Number {
        /// A length, a field out of its range, a used file without its end.
        Call = 1,
        /// No word left where the end marker or an element is due.
        NoEnd = 2,
        /// An element or piece is cut off, or words are left over after a piece.
        Cut = 3,
        /// Bit 6 of an element's first word is set.
        Reserved = 4,
        /// The component bit is wrong.
        Place = 5,
        /// The type may not stand there, is not read, or is none that the call is for.
        Kind = 6,
        /// An element is below its fixed part, or its number of points is out of range.
        Short = 7,
        /// An extent or a size is wrong or above 65,535 words.
        Total = 8,
        /// A header's count differs from its components.
        Count = 9,
        /// Nesting above depth 8.
        Deep = 10,
        /// An attribute part is wrong.
        Linkage = 11,
        /// A stored name or a text is wrong.
        Name = 12,
        /// Place, point, linkage, field or name not there.
        NoSuch = 13,
        /// The deleted flag is already as wanted.
        Already = 14,
        /// An output or file buffer is too small.
        Room = 15,
        /// Too few free journal words.
        Journal = 16,
        /// Undo of an empty journal.
        Nothing = 17,
        /// Rename or plate of another type.
        NotACell = 18,
        /// The last record is ill-formed or its reversal is not allowed.
        BadJournal = 19,
        /// An enter-data field of a text is wrong.
        Field = 20,
        /// A float of an ellipse or an arc is no number.
        Float = 21,
        /// A block of a stored journal is wrong.
        Block = 22,
    }
}

/// The string of a function of the library, which never goes away.
fn said(by: unsafe extern "C" fn(usize) -> *const c_char, number: Number) -> &'static str {
    let text = unsafe { CStr::from_ptr(by(number as usize)) };
    text.to_str().expect("the library's texts are ASCII")
}

impl Number {
    /// Its name, as README.md has it.
    pub fn name(self) -> &'static str {
        said(dgn_refusal_name, self)
    }

    /// One sentence that says what it means.
    pub fn text(self) -> &'static str {
        said(dgn_refusal_text, self)
    }
}

/// Why a call was not made. Nothing that it was lent has changed.
#[derive(Clone, Copy, PartialEq, Eq, Hash, Debug)]
pub struct Refusal {
    /// Which one.
    pub number: Number,
    /// The word where the element at fault begins; of [`Number::Block`] the number of the block; 0 where the refusal names none.
    pub place: usize,
    /// Where there is no such name: of [`find`](crate::find) and [`find_with_deleted`](crate::find_with_deleted) the count of all
    /// elements, of [`Index::look_up`](crate::Index::look_up) and
    /// [`Index::look_up_with_deleted`](crate::Index::look_up_with_deleted) that of its looks; else 0.
    pub count: usize,
}

impl Refusal {
    /// What a function of [`raw`](crate::raw) other than `find`, `look_up` and the two with deleted cells returned; none for 0, and for
    /// what none returns.
    pub fn of(returned: usize) -> Option<Refusal> {
        let number = Number::of(returned % 256)?;
        Some(Refusal { number, place: returned / 256, count: 0 })
    }

    /// The same for those four, whose 13 has the count in its place's stead.
    pub fn of_find(returned: usize) -> Option<Refusal> {
        let refusal = Refusal::of(returned)?;
        Some(match refusal.number {
            Number::NoSuch => Refusal { place: 0, count: refusal.place, ..refusal },
            _ => refusal,
        })
    }
}

/// Nothing where the call is done, else the refusal.
pub(crate) fn done(returned: usize) -> Result<(), Refusal> {
    refused_by(returned, Refusal::of)
}

/// The same, taken apart by one of the two above.
pub(crate) fn refused_by(returned: usize, of: fn(usize) -> Option<Refusal>) -> Result<(), Refusal> {
    match returned {
        0 => Ok(()),
        _ => Err(of(returned).expect("a refusal's number")),
    }
}

impl fmt::Display for Refusal {
    fn fmt(&self, f: &mut fmt::Formatter) -> fmt::Result {
        let Refusal { number, place, .. } = *self;
        write!(f, "{} {} at {place}: {}", number as u8, number.name(), number.text())
    }
}

impl std::error::Error for Refusal {}
