//! Inputs for comparing two readers, made from a seed.
//!
//! The same seed always gives the same inputs. Files are small unless a
//! function of `large` is asked.

pub mod blocks;
pub mod cells;
pub mod changes;
pub mod elements;
pub mod faults;
pub mod files;
pub mod floats;
pub mod indexes;
pub mod journals;
pub mod large;
pub mod moves;
pub mod places;
pub mod plates;
pub mod random;
pub mod ranges;
pub mod sessions;
mod targets;
pub mod text;
pub mod text_writes;
pub mod texts;
pub mod tree;
pub mod writes;

pub use faults::{aimed, two_faults, Aimed, ORDER};
pub use files::{valid, Valid};
pub use floats::ellipses;
pub use indexes::{any_index, indexed_session, rough_indexed_session, IndexedSession};
pub use journals::undo_state;
pub use places::{place, places};
pub use plates::plates;
pub use random::Random;
pub use ranges::ranges;
pub use sessions::{next_call, rough_session, rough_state, session, session_from, Session};
