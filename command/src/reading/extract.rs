//! `extract`: the bytes of an element with all under it.

use crate::arguments::Arguments;
use crate::files::{self, File};
use crate::help::{Choice, Subcommand};
use crate::output::{self, Output, Stop};
use crate::parts;
use dgn::END_MARKER;
use std::ffi::OsStr;
use std::fs::{self, OpenOptions};
use std::io::{self, Write};

/// The subcommand.
pub const SUBCOMMAND: Subcommand = Subcommand {
    name: "extract",
    usages: &["FILE CODE|PLACE -o OUT"],
    about: "write an element with all under it to a new file",
    text: "\
Writes the bytes of the element's extent, as they are: a piece, which insert takes. With --file an end marker follows, and what is \
written is a file; that can be had of an element at the top alone, since one that stands under another is marked so.

OUT may not be there already, and has no name that a log has.

With --tsv: file, 2D or 3D, place, words, OUT.",
    choices: &[
        Choice { long: "out", short: Some('o'), value: Some("OUT"), text: "Where to write." },
        Choice { long: "file", short: None, value: None, text: "Write a file with an end marker." },
    ],
    words: (2, 2),
    instead: None,
    run,
};

fn run(arguments: &Arguments, output: &mut Output) -> Result<(), Stop> {
    let Some(out) = arguments.value("out") else {
        return Err(Stop::of(&SUBCOMMAND, "-o OUT is missing"));
    };
    files::free_of_logs(out)?;
    let which = parts::which(&arguments.words[1])?;
    let Some(file) = File::open(&arguments.words[0], arguments, output) else { return Ok(()) };
    let Some(place) = file.one(&which, output) else { return Ok(()) };
    let extent = dgn::extent(&file.bytes, file.dimension, place).expect("an element of a file that was accepted");
    let mut bytes = file.bytes[2 * extent.start..2 * extent.end].to_vec();
    let shown = files::shown(file.dimension);
    if arguments.has("file") {
        bytes.extend(END_MARKER);
        if dgn::judge(&bytes, file.dimension).is_err() {
            output.message(format_args!(
                "{}: {shown}: @{place} stands under another element and is no file alone; without --file it is a piece",
                output::name(file.name)
            ));
            output.refused();
            return Ok(());
        }
    }
    if let Err(why) = write(out, &bytes) {
        output.message(format_args!("{} cannot be written: {}", output::name(out), output::reason(&why)));
        output.unread();
        return Ok(());
    }
    if output.tsv {
        return output.row(&[&output::column(file.name), &shown, &place, &extent.len(), &output::column(out)]);
    }
    if !output.quiet {
        let what = if arguments.has("file") { "a file" } else { "a piece" };
        let words = output::count(extent.len(), "word");
        output.line(format_args!(
            "{}: {shown}, {what}, {words} from @{place} of {}",
            output::name(out),
            output::name(file.name)
        ))?;
    }
    Ok(())
}

/// Writes a new file, to the disk; where that fails none is left.
fn write(out: &OsStr, bytes: &[u8]) -> io::Result<()> {
    let mut file = OpenOptions::new().write(true).create_new(true).open(out)?;
    let written = file.write_all(bytes).and_then(|()| file.sync_all());
    if written.is_err() {
        let _ = fs::remove_file(out);
    }
    written
}
