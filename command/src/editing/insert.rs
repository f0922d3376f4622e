//! `insert`: a piece put into the file.

use crate::arguments::{decimal, Arguments};
use crate::disk::place::Stop as Halt;
use crate::editing::{self, Edit, Target, ALLOW_DOUBLE, DRY_RUN, NEW_HISTORY, WAIT};
use crate::files::Buffer;
use crate::help::{Choice, Subcommand};
use crate::output::{self, Output, Stop};
use crate::parts::{self, Which};
use std::ffi::OsStr;

/// The subcommand.
pub const SUBCOMMAND: Subcommand = Subcommand {
    name: "insert",
    usages: &["FILE PIECE [--under CODE|PLACE|top] [--at PLACE|end]"],
    about: "put a piece into the file",
    text: "\
PIECE is a file with the words of one element and all beneath it, without an end marker, as extract writes it. It is put under a \
part or at the top of the file, before the component that begins at a place or at the end. A piece that stood in a part can stand \
in a part alone, and one from the top at the top alone. A piece with a code that FILE has already is refused with its places, and so \
is one in which a code stands twice.

With --tsv: file, 2D or 3D, number of the step, made or would be made, words of the command.",
    choices: &[
        Choice { long: "under", short: None, value: Some("CODE|PLACE|top"), text: "The part to put it into; top without this option." },
        Choice { long: "at", short: None, value: Some("PLACE|end"), text: "The component to put it before; end without this option." },
        ALLOW_DOUBLE,
        DRY_RUN,
        NEW_HISTORY,
        WAIT,
    ],
    words: (2, 2),
    instead: None,
    run,
};

/// Reads a file beside the one that is edited.
pub(super) fn read(name: &OsStr, output: &mut Output) -> Option<Vec<u8>> {
    let mut buffer = Buffer::default();
    match buffer.read(name) {
        Ok(()) => Some(buffer.into_bytes()),
        Err(why) => {
            output.message(format_args!("{} cannot be read: {why}; nothing is changed", output::name(name)));
            output.unread();
            None
        }
    }
}

/// The header and the place that are asked for.
fn gap(target: &Target, under: &Option<Which>, at: Option<usize>) -> Result<(Option<usize>, usize), Halt> {
    let header = under.as_ref().map(|which| target.one(which)).transpose()?;
    let end = || match header {
        None => Ok(target.marker),
        Some(header) => dgn::extent(target.bytes, target.dimension, header).map(|extent| extent.end),
    };
    let place = match at {
        Some(place) => place,
        None => end().map_err(|refusal| Halt::Refused(format!("refused: {refusal}")))?,
    };
    Ok((header, place))
}

fn run(arguments: &Arguments, output: &mut Output) -> Result<(), Stop> {
    let [_, piece] = &arguments.words[..] else { return Err(Stop::usage("two words")) };
    let (under, at) =
        (arguments.value("under").unwrap_or("top".as_ref()), arguments.value("at").unwrap_or("end".as_ref()));
    let header = if under == "top" { None } else { Some(parts::which(under)?) };
    let digits = at.to_str().map_or(at, |text| OsStr::new(text.strip_prefix('@').unwrap_or(text)));
    let place = match (at == "end", decimal(digits)) {
        (true, _) => None,
        (false, Some(place)) => Some(place),
        _ => return Err(Stop::Usage(format!("--at: {} is no place: the number of a word, or end", output::name(at)))),
    };
    let Some(bytes) = read(piece, output) else { return Ok(()) };
    let words = editing::words("insert", &[piece, "--under".as_ref(), under, "--at".as_ref(), at]);
    editing::edit(arguments, output, words, |target, _| {
        let (header, place) = gap(target, &header, place)?;
        let around = header.map_or("at the top".into(), |header| format!("under {}", target.named(header)));
        let about = format!("piece of {} inserted at @{place}, {around}", output::count(bytes.len() / 2, "word"));
        Ok(Edit::new(about, move |session| session.insert(header, place, &bytes)).adding())
    })
}
