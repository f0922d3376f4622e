//! Reads, writes and edits Intergraph design files and cell libraries (DGN version 7) with the proved library of this
//! repository. include/dgn.h says more of each function; here lengths are those of slices, and answers are structs.
//!
//! A file is a slice of an even number of bytes, at most [`FILE_BYTES`]. A place is the index of a 16-bit word, from 0.
//! Every file is allowed, and no caller has to check one first. Each call judges the whole file, one pass over its
//! bytes, so a whole file is read by [`views`], [`points`], [`texts`], [`curves`], [`ranges`] and [`plates`] and not by a call for each
//! element. There is no state: any thread may call.
//!
//! A call that is refused answers a [`Refusal`] and changes no byte of what it was lent.
//!
//! ```
//! use dgn::Dimension;
//!
//! let file = std::fs::read(concat!(env!("CARGO_MANIFEST_DIR"), "/../samples/nested.dgn"))?;
//! let part = dgn::find(&file, Dimension::Two, "00417")?;
//! assert_eq!(dgn::extent(&file, Dimension::Two, part.place)?, 111..284);
//!
//! // all cells with their names, and all points, in one pass each
//! for cell in dgn::all_cells(&file, Dimension::Two)? {
//!     println!("{} {}", cell.place, dgn::unpack(cell.name)?);
//! }
//! for drawn in dgn::all_points(&file, Dimension::Two)? {
//!     println!("{}: {:?}", drawn.place, drawn.points);
//! }
//!
//! // all words of a drawing
//! let file = std::fs::read(concat!(env!("CARGO_MANIFEST_DIR"), "/../samples/plate.dgn"))?;
//! for found in dgn::all_texts(&file, Dimension::Two)? {
//!     println!("{} {}", found.place, file[found.text.characters].escape_ascii());
//! }
//! # Ok::<(), Box<dyn std::error::Error>>(())
//! ```

#![deny(missing_docs)]

#[cfg(not(target_pointer_width = "64"))]
compile_error!("the library's numbers have 64 bits");

mod curves;
mod elements;
mod indexes;
mod journals;
mod names;
mod numbered;
mod plates;
pub mod raw;
mod reading;
mod refusals;
mod sessions;
#[cfg(target_os = "linux")]
pub mod system;
mod texts;
mod whole;
mod writing;

pub use curves::{all_curves, curve, curves, Curve, CurveAt, Curves, Ellipse, Origin};
pub use elements::{Bounds, Dimension, DisplayHeader, Linkage, LinkageKind, Point, Turn, Type, View};
pub use indexes::{all_cells, cells, index_room, Cells, Entries, Entry, Index, LookedUp, ENTRY_BYTES};
pub use journals::{blocks_of_journal, journal_of_blocks, record, Edit, History, Record};
pub use names::{pack, unpack, Name};
pub use plates::{all_plates, plate, plates, Plate, PlateAt, Plates};
pub use reading::{extent, find, find_with_deleted, in_range, judge, linkage, point, view, Found, Judged};
pub use refusals::{Number, Refusal};
pub use sessions::Session;
pub use texts::{
    all_texts, characters, field, text, texts, write_text, Field, Text, TextAt, TextFields, Texts,
};
pub use whole::{all_points, all_ranges, all_views, points, ranges, views, Drawn, Pointed, Points, Ranges, Views};
pub use writing::{write, Fields};

/// The most bytes of a file, of a session's buffer and of a piece to insert.
pub const FILE_BYTES: usize = 1_048_576;

/// The bytes of a block of a stored journal.
pub const BLOCK_BYTES: usize = 512;

/// The bytes of the journal that a full block holds.
pub const BLOCK_JOURNAL: usize = 508;

/// The most bytes of a stored journal.
pub const STORED_BYTES: usize = 1_057_280;

/// The end marker, as it stands in a file.
pub const END_MARKER: [u8; 2] = [0xff, 0xff];
