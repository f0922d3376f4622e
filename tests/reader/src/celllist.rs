//! What the program `celllist` prints.

use crate::judge::judge_seeing;
use crate::layout;
use crate::names::unpack;
use crate::refusal::{self, Refusal};
use crate::words::word;

/// The most bytes that the program reads.
pub(crate) const MOST: usize = 65_536;

/// The whole output for a 2D file on standard input.
pub fn celllist(input: &[u8]) -> Vec<u8> {
    if input.len() > MOST {
        return refused(&Refusal {
            number: refusal::CALL,
            place: 0,
        });
    }
    let mut out = b"PLACE DEPTH TYPE WORDS STATE NAME\n".to_vec();
    let judged = judge_seeing(input, 2, |seen| {
        let line = format!(
            "{} {} {} {} {}",
            seen.place,
            seen.depth,
            seen.kind,
            seen.size,
            state(input, seen.place)
        );
        out.extend_from_slice(line.as_bytes());
        if let Some(offset) = layout::name_word(seen.kind) {
            let at = seen.place + offset;
            let name = unpack(word(input, at) as u16, word(input, at + 1) as u16);
            let name = name.unwrap_or_default();
            // An empty name prints nothing, nor the space before it.
            if !name.is_empty() {
                out.push(b' ');
                out.extend_from_slice(&name);
            }
        }
        out.push(b'\n');
    });
    match judged {
        Ok(judged) => {
            out.extend_from_slice(format!("END {}\n", judged.marker).as_bytes());
            out
        }
        Err(refusal) => refused(&refusal),
    }
}

/// The state of the element at a place.
pub(crate) fn state(file: &[u8], place: u64) -> &'static str {
    if word(file, place) >> 15 == 1 {
        "dead"
    } else {
        "live"
    }
}

/// What is printed of a refused file.
pub(crate) fn refused(refusal: &Refusal) -> Vec<u8> {
    format!("REFUSED {} {}\n", refusal.number, refusal.place).into_bytes()
}
