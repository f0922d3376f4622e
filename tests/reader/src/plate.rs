//! Catalogue plates: of each cell its code, its direct components by kind and
//! the number of its levels; and what the program `platelist` prints.

use crate::celllist::{refused, MOST};
use crate::flags;
use crate::judge::{judge_seeing, Seen};
use crate::layout;
use crate::names::unpack;
use crate::refusal::{self, plain, Refusal};
use crate::words::word;
use std::collections::BTreeMap;

/// The four words of a cell's level mask.
const MASK: [u64; 4] = [22, 23, 24, 25];

/// The plate of a cell.
#[derive(Debug, Clone, PartialEq, Eq)]
pub struct Plate {
    /// The direct components that are not deleted: lines; types 4, 6, 11, 21;
    /// 17; 15 and 16; headers; others.
    pub counts: [u64; 6],
    /// The number of one bits in the mask.
    pub levels: u64,
    /// The cell's name.
    pub code: Vec<u8>,
}

/// Which of the six counts a type belongs to.
fn slot(kind: u64) -> usize {
    match kind {
        3 => 0,
        4 | 6 | 11 | 21 => 1,
        17 => 2,
        15 | 16 => 3,
        _ if layout::is_header(kind) => 4,
        _ => 5,
    }
}

/// All elements of a file, and the six counts of each header that has a
/// component which is not deleted.
type Counted = (Vec<Seen>, BTreeMap<u64, [u64; 6]>);

fn counted(file: &[u8], dim: u64) -> Result<Counted, Refusal> {
    let mut all = Vec::new();
    let mut counts: BTreeMap<u64, [u64; 6]> = BTreeMap::new();
    judge_seeing(file, dim, |seen| {
        all.push(seen.clone());
        if let (Some(header), false) = (seen.header, flags::is_deleted(file, seen.place)) {
            counts.entry(header).or_default()[slot(seen.kind)] += 1;
        }
    })?;
    Ok((all, counts))
}

/// The plate of an element, if it is a cell.
fn plate_of(file: &[u8], element: &Seen, counts: &BTreeMap<u64, [u64; 6]>) -> Option<Plate> {
    let own = |offset: u64| word(file, element.place + offset);
    let name = layout::name_word(element.kind)?;
    let code = unpack(own(name) as u16, own(name + 1) as u16).unwrap_or_default();
    Some(Plate {
        counts: counts.get(&element.place).copied().unwrap_or_default(),
        levels: MASK.map(|at| u64::from(own(at).count_ones())).iter().sum(),
        code,
    })
}

/// The plate of the cell at a place, a deleted one too. Refuses with 1, the
/// file's own, 13, then 18 at another type.
pub fn plate(file: &[u8], dim: u64, place: u64) -> Result<Plate, Refusal> {
    let (all, counts) = counted(file, dim)?;
    match all.iter().find(|seen| seen.place == place) {
        None => plain(refusal::NO_SUCH),
        Some(seen) => match plate_of(file, seen, &counts) {
            Some(plate) => Ok(plate),
            None => plain(refusal::NOT_A_CELL),
        },
    }
}

/// One line for each cell of a file that is not deleted, in file order: place,
/// the six counts, levels and code. An empty code prints nothing, nor the
/// space before it.
pub fn plate_lines(file: &[u8], dim: u64) -> Result<Vec<u8>, Refusal> {
    let (all, counts) = counted(file, dim)?;
    let mut out = Vec::new();
    for seen in all {
        let Some(plate) = plate_of(file, &seen, &counts) else {
            continue;
        };
        if flags::is_deleted(file, seen.place) {
            continue;
        }
        let mut numbers = vec![seen.place];
        numbers.extend(plate.counts);
        numbers.push(plate.levels);
        let texts: Vec<String> = numbers.iter().map(u64::to_string).collect();
        out.extend_from_slice(texts.join(" ").as_bytes());
        if !plate.code.is_empty() {
            out.push(b' ');
            out.extend_from_slice(&plate.code);
        }
        out.push(b'\n');
    }
    Ok(out)
}

/// The whole output of `platelist` for a 2D file on standard input, with the
/// limit and the refusals of `celllist`.
pub fn platelist(input: &[u8]) -> Vec<u8> {
    if input.len() > MOST {
        return refused(&Refusal {
            number: refusal::CALL,
            place: 0,
        });
    }
    plate_lines(input, 2).unwrap_or_else(|refusal| refused(&refusal))
}
