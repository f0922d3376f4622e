//! A second reader of ISFF design files and cell libraries.
//!
//! Every function takes any bytes, lengths and numbers, and answers with a
//! result or with a refusal. A place is a word index from 0.

#![forbid(unsafe_code)]

pub mod blocks;
pub mod book;
pub mod calls;
pub mod celllist;
pub mod edits;
pub mod ellipse;
pub mod find;
mod flags;
pub mod float;
pub mod generate;
pub mod index;
pub mod indexed;
pub mod judge;
pub mod layout;
pub mod linkage;
pub mod names;
pub mod plate;
pub mod range;
pub mod record;
pub mod refusal;
pub mod session;
pub mod text;
pub mod textlist;
pub mod undo;
pub mod view;
pub mod words;
pub mod write;
pub mod write_text;

pub use blocks::{from_blocks, to_blocks};
pub use book::Book;
pub use calls::{Call, Index, IndexedState, State};
pub use celllist::celllist;
pub use edits::{insert, mark, remove, rename};
pub use ellipse::{ellipses_from, read_ellipse, Axes, EllipseAt, EllipseOrArc};
pub use find::{find, find_with_deleted, Found};
pub use float::float_bits;
pub use index::{build_index, look_up, look_up_with_deleted, Entry};
pub use indexed::{insert_indexed, mark_indexed, remove_indexed, rename_indexed, undo_indexed};
pub use judge::{judge, Judged};
pub use linkage::{linkage, Linkage, LinkageKind};
pub use names::{pack, unpack};
pub use plate::{plate, plate_lines, platelist, Plate};
pub use range::points_in_range;
pub use record::{last_record, Record};
pub use refusal::{FindRefusal, Refusal};
pub use text::{read_text, text_characters, text_field, texts_from, Field, Text, TextAt};
pub use textlist::{text_lines, textlist};
pub use undo::undo;
pub use view::{extent, point, view, Display, View};
pub use write::{write, Fields};
pub use write_text::{write_text, TextFields};
