//! Viewing one element: its fields, its points and its extent.

use crate::judge::{judge_seeing, Seen};
use crate::layout;
use crate::range;
use crate::refusal::{self, plain, Refusal};
use crate::words::{long, word};

/// Words 14 to 17 of known types other than 1.
#[derive(Debug, Clone, PartialEq, Eq)]
pub struct Display {
    pub graphic_group: u64,
    pub attribute_index: u64,
    pub properties: u64,
    pub style: u64,
    pub weight: u64,
    pub colour: u64,
}

/// What an element says of itself, and where it stands.
#[derive(Debug, Clone, PartialEq, Eq)]
pub struct View {
    pub level: u64,
    /// Bit 7, also in type 9, where it is not judged.
    pub c: bool,
    /// The type.
    pub kind: u64,
    pub deleted: bool,
    /// The element's own words, without its components.
    pub size: u64,
    pub depth: u64,
    /// The direct header's place.
    pub header: Option<u64>,
    /// Low x y z, high x y z; none in an element of fewer than 14 words.
    pub range: Option<[i32; 6]>,
    pub display: Option<Display>,
    /// The number of points of types 4, 6, 11 and 21.
    pub n: Option<u64>,
    /// The name words of types 1 and 2.
    pub name: Option<(u16, u16)>,
    /// The total of a header.
    pub total: Option<u64>,
    /// The count of direct components of types 7, 12, 14, 18 and 19.
    pub count: Option<u64>,
}

/// The element that starts at a place of an accepted file.
pub(crate) fn element_at(file: &[u8], dim: u64, place: u64) -> Result<Seen, Refusal> {
    let mut found = None;
    judge_seeing(file, dim, |seen| {
        if seen.place == place {
            found = Some(seen.clone());
        }
    })?;
    match found {
        Some(seen) => Ok(seen),
        None => plain(refusal::NO_SUCH),
    }
}

/// The fields of the element at a place.
pub fn view(file: &[u8], dim: u64, place: u64) -> Result<View, Refusal> {
    let element = element_at(file, dim, place)?;
    let start = element.place;
    let kind = element.kind;
    let own = |offset: u64| word(file, start + offset);
    let first = own(0);

    let range = if element.size < 14 {
        None
    } else {
        Some(range::range(file, start))
    };
    let display = if layout::has_display(kind) {
        let symbology = own(17);
        Some(Display {
            graphic_group: own(14),
            attribute_index: own(15),
            properties: own(16),
            style: symbology & 7,
            weight: symbology >> 3 & 31,
            colour: symbology >> 8,
        })
    } else {
        None
    };
    let only_if = |wanted: bool, offset: u64| if wanted { Some(own(offset)) } else { None };
    Ok(View {
        level: first & 63,
        c: first >> 7 & 1 == 1,
        kind,
        deleted: first >> 15 == 1,
        size: element.size,
        depth: element.depth,
        header: element.header,
        range,
        display,
        n: only_if(layout::has_points_counted(kind), 18),
        name: layout::name_word(kind).map(|o| (own(o) as u16, own(o + 1) as u16)),
        total: only_if(layout::is_header(kind), layout::TOTAL_WORD),
        count: only_if(layout::has_count(kind), layout::COUNT_WORD),
    })
}

/// Point k, counted from 0, of the element at a place.
pub fn point(file: &[u8], dim: u64, place: u64, k: u64) -> Result<Vec<i32>, Refusal> {
    let element = element_at(file, dim, place)?;
    let offset = match layout::point_word(element.kind) {
        Some(offset) => offset,
        None => return plain(refusal::NO_SUCH),
    };
    let number = if element.kind == 3 {
        2
    } else {
        word(file, element.place + 18)
    };
    if k >= number {
        return plain(refusal::NO_SUCH);
    }
    let start = element.place + offset + k * dim * 2;
    Ok((0..dim)
        .map(|axis| long(file, start + axis * 2) as i32)
        .collect())
}

/// The first word and the end word of the extent of the element at a place.
pub fn extent(file: &[u8], dim: u64, place: u64) -> Result<(u64, u64), Refusal> {
    let element = element_at(file, dim, place)?;
    Ok((element.place, element.end))
}
