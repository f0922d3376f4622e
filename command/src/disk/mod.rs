//! A file with its history on disk: the log beside the file, and the protocol by which a step reaches the disk.
//! docs/COMMAND.md has the form of the log, the order of the calls, and every state that a cut can leave.

pub mod log;
pub mod place;
pub mod recovery;
pub mod session;
pub mod step;
