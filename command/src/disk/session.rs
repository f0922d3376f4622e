//! The library's edits on a file as it stands on disk, with the bytes behind its end marker.

use dgn::{Dimension, Refusal, Session, FILE_BYTES};

/// A file and its journal.
pub type Pair = (Vec<u8>, Vec<u8>);

/// Makes calls of a session on a file and its journal; gives both as they are then. The bytes behind the end marker stay
/// behind it. The buffers have always the same lengths, so that every edit that was made can be undone: together with the
/// bytes behind the marker the file never has more than 1,048,576.
pub fn edited(
    file: &[u8],
    journal: &[u8],
    dimension: Dimension,
    calls: impl FnOnce(&mut Session) -> Result<(), Refusal>,
) -> Result<Pair, Refusal> {
    let used = 2 * dgn::judge(file, dimension)?.marker + 2;
    let (front, behind) = file.split_at(used);
    let filled = |bytes: &[u8], room: usize| {
        let mut buffer = vec![0; room];
        buffer[..bytes.len()].copy_from_slice(bytes);
        buffer
    };
    let buffers = (filled(front, FILE_BYTES - behind.len()), filled(journal, FILE_BYTES));
    let mut session = Session::resume(buffers.0, used, buffers.1, journal.len(), dimension);
    calls(&mut session)?;
    Ok(([session.file(), behind].concat(), session.journal().to_vec()))
}

/// The last edits undone, as many as are asked for.
pub fn undone(file: &[u8], journal: &[u8], dimension: Dimension, count: usize) -> Result<Pair, Refusal> {
    edited(file, journal, dimension, |session| (0..count).try_for_each(|_| session.undo()))
}
