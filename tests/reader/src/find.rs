//! Finding a cell by its name.

use crate::flags;
use crate::judge::judge_seeing;
use crate::layout;
use crate::names::pack;
use crate::refusal::{self, FindRefusal, Refusal};
use crate::words::word;

/// The cell found: its place, and how many elements were looked at, itself
/// counted.
#[derive(Debug, Clone, PartialEq, Eq)]
pub struct Found {
    pub place: u64,
    pub looked: u64,
}

/// A refusal without a count.
pub(crate) fn other(refused: Refusal) -> FindRefusal {
    FindRefusal {
        number: refused.number,
        place: refused.place,
        count: 0,
    }
}

/// The first type 1 or 2 with that name that is not deleted, in file order.
/// Deleted elements are counted.
pub fn find(file: &[u8], dim: u64, text: &[u8]) -> Result<Found, FindRefusal> {
    search(file, dim, text, |place| !flags::is_deleted(file, place))
}

/// The first type 1 or 2 with that name, in file order, deleted ones too.
pub fn find_with_deleted(file: &[u8], dim: u64, text: &[u8]) -> Result<Found, FindRefusal> {
    search(file, dim, text, |_| true)
}

/// The first cell with that name which may be taken.
fn search<F>(file: &[u8], dim: u64, text: &[u8], may_take: F) -> Result<Found, FindRefusal>
where
    F: Fn(u64) -> bool,
{
    let wanted = pack(text);
    let mut looked = 0;
    let mut found = None;
    let judged = judge_seeing(file, dim, |seen| {
        looked += 1;
        if let (None, Some(offset), Ok(name)) = (&found, layout::name_word(seen.kind), &wanted) {
            let at = seen.place + offset;
            let same = (word(file, at) as u16, word(file, at + 1) as u16) == *name;
            if same && may_take(seen.place) {
                found = Some(Found {
                    place: seen.place,
                    looked,
                });
            }
        }
    })
    .map_err(other)?;
    wanted.map_err(other)?;
    found.ok_or(FindRefusal {
        number: refusal::NO_SUCH,
        place: 0,
        count: judged.elements,
    })
}
