//! `add`: a part copied from another library.

use crate::arguments::Arguments;
use crate::disk::place::Stop as Halt;
use crate::editing::{self, insert, Edit, Target, ALLOW_DOUBLE, DRY_RUN, NEW_HISTORY, WAIT};
use crate::files;
use crate::help::{Choice, Subcommand};
use crate::output::{self, Output, Stop};
use crate::parts::{self, Which};
use std::ffi::OsStr;

/// The subcommand.
pub const SUBCOMMAND: Subcommand = Subcommand {
    name: "add",
    usages: &["FILE --from OTHER CODE|PLACE"],
    about: "copy a part from another library",
    text: "\
The part is copied from OTHER, with all beneath it, to the end of FILE; OTHER stays as it is and is read with FILE's dimension. A \
part with a code that FILE has already, its own or of a part in it, is refused with the places. A part that stands in another cannot be \
added alone.

With --tsv: file, 2D or 3D, number of the step, made or would be made, words of the command.",
    choices: &[
        Choice { long: "from", short: None, value: Some("OTHER"), text: "The library to copy from." },
        ALLOW_DOUBLE,
        DRY_RUN,
        NEW_HISTORY,
        WAIT,
    ],
    words: (2, 2),
    instead: None,
    run,
};

/// The words of the part in the other library, and what they are.
fn part(
    target: &Target,
    name: &OsStr,
    bytes: &[u8],
    which: &Which,
    output: &mut Output,
) -> Result<(Vec<u8>, String), Halt> {
    let from = output::name(name);
    let dimension = target.dimension;
    let judged = dgn::judge(bytes, dimension);
    let judged = judged.map_err(|refusal| {
        let (taken, numbers) = (files::shown(dimension), editing::numbers(refusal));
        Halt::Refused(format!(
            "{from}: refused as {taken}, which the file to be edited is ({numbers}); dgn check says more"
        ))
    })?;
    let other = Target { bytes, dimension, marker: judged.marker };
    let place =
        parts::one(bytes, dimension, judged.marker, which).map_err(|why| Halt::Refused(format!("{from}: {why}")))?;
    let extent = dgn::extent(bytes, dimension, place).map_err(|refusal| Halt::Refused(format!("{from}: {refusal}")))?;
    let view = parts::walk(bytes, dimension).find(|view| view.place == place);
    if let Some(header) = view.as_ref().and_then(|view| view.header) {
        return Err(Halt::Refused(format!(
            "{from}: {} stands in {} and cannot be added alone: add that one, or extract it and insert it --under a part",
            other.named(place),
            other.named(header)
        )));
    }
    if view.is_some_and(|view| view.deleted) {
        output.warning(format_args!("{from}: the part is marked deleted, and is so in the copy"));
    }
    let piece = bytes[2 * extent.start..2 * extent.end].to_vec();
    Ok((piece, other.named(place)))
}

fn run(arguments: &Arguments, output: &mut Output) -> Result<(), Stop> {
    let [_, named] = &arguments.words[..] else { return Err(Stop::usage("two words")) };
    let Some(from) = arguments.value("from") else { return Err(Stop::of(&SUBCOMMAND, "--from OTHER is missing")) };
    let which = parts::which(named)?;
    let Some(bytes) = insert::read(from, output) else { return Ok(()) };
    let words = editing::words("add", &["--from".as_ref(), from, named]);
    editing::edit(arguments, output, words, |target, output| {
        let (piece, about) = part(target, from, &bytes, &which, output)?;
        let marker = target.marker;
        let about = format!("{about} of {} added at @{marker}", output::name(from));
        Ok(Edit::new(about, move |session| session.insert(None, marker, &piece)).adding())
    })
}
