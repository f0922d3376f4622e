//! Writing an element from its fields.

use crate::elements::{Bounds, Dimension, DisplayHeader, Type};
use crate::raw;
use crate::refusals::{done, Refusal};

/// The header fields of an element to write. Size and number of points follow from the rest.
#[derive(Clone, Copy, PartialEq, Eq, Hash, Debug)]
pub struct Fields {
    /// 3, 4, 6 or 11; 17 for [`write_text`](crate::write_text).
    pub kind: Type,
    /// 0 to 63.
    pub level: u8,
    /// The component bit C: set for an element under a header.
    pub component: bool,
    /// Marked deleted.
    pub deleted: bool,
    /// Its range.
    pub bounds: Bounds,
    /// Words 14 to 17.
    pub display: DisplayHeader,
}

impl Fields {
    /// All zero but the type.
    pub fn new(kind: Type) -> Fields {
        let (bounds, display) = (Bounds::default(), DisplayHeader::default());
        Fields { kind, level: 0, component: false, deleted: false, bounds, display }
    }

    pub(crate) fn numbers(&self) -> [i64; raw::WRITE_FIELDS] {
        let Fields { kind, level, component, deleted, bounds, display } = *self;
        let [low, high] = [bounds.low, bounds.high].map(|corner| corner.map(i64::from));
        [
            kind.number().into(),
            level.into(),
            component.into(),
            deleted.into(),
            low[0],
            low[1],
            low[2],
            high[0],
            high[1],
            high[2],
            display.graphic_group.into(),
            display.attribute_index.into(),
            display.properties.into(),
            display.style.into(),
            display.weight.into(),
            display.colour.into(),
        ]
    }
}

/// Writes an element of type 3, 4, 6 or 11 to the front of `buffer`; gives how many words. `points` are all coordinates,
/// one point after another, `tail` all words after the fixed part, as bytes. Refusals, in this order: 1, 7, 8, 11, 15.
pub fn write(
    fields: &Fields,
    points: &[i32],
    tail: &[u8],
    dimension: Dimension,
    buffer: &mut [u8],
) -> Result<usize, Refusal> {
    let mut out = [0];
    done(raw::write(&fields.numbers(), points, tail, dimension as usize, buffer, &mut out))?;
    Ok(out[0])
}
