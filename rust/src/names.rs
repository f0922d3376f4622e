//! Names: two words of three letters each.

use crate::raw;
use crate::refusals::{done, Refusal};

/// A name as it is stored.
#[derive(Clone, Copy, PartialEq, Eq, PartialOrd, Ord, Hash, Debug, Default)]
pub struct Name {
    /// The first three letters.
    pub first: u16,
    /// The last three.
    pub second: u16,
}

/// The name of a text: 0 to 6 of space, A-Z, `$`, `.` and 0-9, no space at the end. Refusal: 12.
pub fn pack(text: impl AsRef<[u8]>) -> Result<Name, Refusal> {
    let mut out = [0; 2];
    done(raw::pack(text.as_ref(), &mut out))?;
    Ok(Name { first: out[0] as u16, second: out[1] as u16 })
}

/// The text of a name. Refusal: 12; not for the name of a view.
pub fn unpack(name: Name) -> Result<String, Refusal> {
    let mut text = [0; 7];
    done(raw::unpack(name.first.into(), name.second.into(), &mut text))?;
    Ok(text.into_iter().take_while(|&letter| letter != 0).map(char::from).collect())
}
