//! The numbers that a call can answer, and the place beside them.

/// A refusal: its number, and the place of the element at fault; beside 22 the
/// number of the block at fault.
#[derive(Debug, Clone, PartialEq, Eq)]
pub struct Refusal {
    pub number: u32,
    pub place: u64,
}

/// A refusal of the finder or of a look-up. Beside 13 stands the count of all
/// elements, or that of the looks; beside every other number it is 0.
#[derive(Debug, Clone, PartialEq, Eq)]
pub struct FindRefusal {
    pub number: u32,
    pub place: u64,
    pub count: u64,
}

pub const CALL: u32 = 1;
pub const NO_END: u32 = 2;
pub const CUT: u32 = 3;
pub const RESERVED: u32 = 4;
pub const PLACE: u32 = 5;
pub const KIND: u32 = 6;
pub const SHORT: u32 = 7;
pub const TOTAL: u32 = 8;
pub const COUNT: u32 = 9;
pub const DEEP: u32 = 10;
pub const LINKAGE: u32 = 11;
pub const NAME: u32 = 12;
pub const NO_SUCH: u32 = 13;
pub const ALREADY: u32 = 14;
pub const ROOM: u32 = 15;
pub const JOURNAL: u32 = 16;
pub const NOTHING: u32 = 17;
pub const NOT_A_CELL: u32 = 18;
pub const BAD_JOURNAL: u32 = 19;
pub const FIELD: u32 = 20;
pub const FLOAT: u32 = 21;
pub const BLOCK: u32 = 22;

/// A refusal at a place.
pub(crate) fn at<T>(number: u32, place: u64) -> Result<T, Refusal> {
    Err(Refusal { number, place })
}

/// A refusal that names no element: its place is 0.
pub(crate) fn plain<T>(number: u32) -> Result<T, Refusal> {
    at(number, 0)
}
