//! `original`: the file as it was before the first step, or as the last step left it.

use crate::arguments::Arguments;
use crate::disk::place::{system, Stop as Halt};
use crate::disk::recovery::Alone;
use crate::editing::{open_log, WAIT};
use crate::files;
use crate::help::{Choice, Subcommand};
use crate::output::{self, Output, Stop};
use std::ffi::OsStr;
use std::fs::{self, OpenOptions};
use std::io::Write;

/// The subcommand.
pub const SUBCOMMAND: Subcommand = Subcommand {
    name: "original",
    usages: &["FILE -o OUT [--last] [--anyway]"],
    about: "write the file as before the first step, or after the last",
    text: "\
OUT gets the bytes that FILE had before the first step of its history; with --last those that the last step left. Only the log is \
read, so FILE may be gone. Where FILE is another than the last step left, the log may be that of another file, and nothing is written \
without --anyway. FILE and its history stay as they are. OUT may not be there already, and has no name that a log has.

With --tsv: file, 2D or 3D, bytes, OUT.",
    choices: &[
        Choice { long: "out", short: Some('o'), value: Some("OUT"), text: "The file to write." },
        Choice { long: "last", short: None, value: None, text: "Write the file as the last step left it." },
        Choice { long: "anyway", short: None, value: None, text: "Write it also where FILE is another than the log's." },
        WAIT,
    ],
    words: (1, 1),
    instead: None,
    run,
};

fn run(arguments: &Arguments, output: &mut Output) -> Result<(), Stop> {
    let Some(out) = arguments.value("out") else { return Err(Stop::of(&SUBCOMMAND, "-o OUT is missing")) };
    files::free_of_logs(out)?;
    match try_original(arguments, output, out) {
        Ok(line) => output.line(line),
        Err(stop) => stop.tell(output),
    }
}

fn try_original(arguments: &Arguments, output: &mut Output, out: &OsStr) -> Result<String, Halt> {
    // the folder of the file becomes the process's own
    let whole = std::path::absolute(out).map_err(system("name", out))?;
    let place = open_log(arguments, output)?;
    let Alone { log, changed, is_there } = place.log_alone(output)?;
    let name = place.shown(&place.file);
    let Some(log) = log else {
        return Err(Halt::Refused(format!("{name} has no history: no step was made yet")));
    };
    if let Some(changed) = changed {
        if is_there && !arguments.has("anyway") {
            return Err(Halt::Refused(format!(
                "{changed}. {} may be the log of another file: history shows its steps, --anyway writes what it holds",
                place.shown(&place.log)
            )));
        }
        output.warning(changed);
    }
    let last = arguments.has("last");
    let held = if last { Some(log.image.clone()) } else { log.original() };
    let Some(original) = held else {
        return Err(Halt::Refused(format!("{} does not lead back to the first step", place.shown(&place.log))));
    };
    let mut file = OpenOptions::new().write(true).create_new(true).open(&whole).map_err(system("create", out))?;
    if let Err(why) = file.write_all(&original).and_then(|()| file.sync_all()) {
        // what is left of it is no file that anybody should find
        let _ = fs::remove_file(&whole);
        return Err(system("write", out)(why));
    }
    let dimension = files::shown(log.dimension);
    Ok(match output.tsv {
        true => format!(
            "{}\t{dimension}\t{}\t{}",
            output::column(&place.path(&place.file)),
            original.len(),
            output::column(out)
        ),
        false => {
            let bytes = output::count(original.len(), "byte");
            let when = if last { "after the last" } else { "before the first" };
            format!("{name}: {dimension}: {bytes} as {when} step written to {}", output::name(out))
        }
    })
}
