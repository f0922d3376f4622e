//! The lines of a text listing: one for each text, in file order.

use crate::celllist::{refused, state, MOST};
use crate::judge::judge_seeing;
use crate::refusal::{self, Refusal};
use crate::text::{characters_in, KIND};

/// The characters as a line shows them: a backslash doubled, a byte outside 32
/// to 126 as backslash, x and two hexadecimal digits.
fn shown(characters: &[u8]) -> String {
    characters
        .iter()
        .map(|&byte| match byte {
            b'\\' => "\\\\".to_string(),
            32..=126 => char::from(byte).to_string(),
            _ => format!("\\x{byte:02x}"),
        })
        .collect()
}

/// The lines of all texts of a file: place, depth, state and the characters.
/// Where there are none, the space before them is left out too.
pub fn text_lines(file: &[u8], dim: u64) -> Result<Vec<u8>, Refusal> {
    let mut out = String::new();
    judge_seeing(file, dim, |seen| {
        if seen.kind != KIND {
            return;
        }
        let state = state(file, seen.place);
        out.push_str(&format!("{} {} {state}", seen.place, seen.depth));
        let characters = characters_in(file, dim, seen.place);
        if !characters.is_empty() {
            out.push(' ');
            out.push_str(&shown(characters));
        }
        out.push('\n');
    })?;
    Ok(out.into_bytes())
}

/// The whole output for a file on standard input, with the limit and the
/// refusals of `celllist`.
pub fn textlist(input: &[u8], dim: u64) -> Vec<u8> {
    if input.len() > MOST {
        return refused(&Refusal {
            number: refusal::CALL,
            place: 0,
        });
    }
    text_lines(input, dim).unwrap_or_else(|refusal| refused(&refusal))
}
