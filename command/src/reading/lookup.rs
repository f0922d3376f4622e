//! `lookup`: parts by an index.

use super::index::ENDING;
use crate::arguments::Arguments;
use crate::files::{Buffer, File};
use crate::help::{Choice, Subcommand};
use crate::output::{self, Output, Stop};
use crate::parts;
use dgn::{Index, LookedUp, Number, Refusal, FILE_BYTES};
use std::ffi::OsStr;
use std::fs;
use std::os::unix::ffi::OsStrExt;

/// The subcommand.
pub const SUBCOMMAND: Subcommand = Subcommand {
    name: "lookup",
    usages: &["INDEX CODE .."],
    about: "look parts up in an index",
    text: "\
INDEX is a file that index wrote. A line for each code: the first place of a live part with it, in the file that the index is of, and \
how many looks at entries it took, found or not. That file is read to pass over deleted parts: it stands beside the index, under the \
same name without .dgnidx, or is named by --file. With --all it is not read, and deleted parts are found too. Where it stands beside \
the index and was written later, a warning says so. Zeros and spaces before a code count. The status is 1 where a code is not there.

Any file of whole entries is taken for an index: of another file the places mean nothing with --all, and without it those that \
start no live cell are passed over.

With --tsv: index, code, place (empty where the code is not there), looks.",
    choices: &[
        Choice { long: "all", short: Some('a'), value: None, text: "Find deleted parts too; the file is not read." },
        Choice { long: "file", short: Some('f'), value: Some("FILE"), text: "The file that the index is of." },
    ],
    words: (2, usize::MAX),
    instead: None,
    run,
};

fn run(arguments: &Arguments, output: &mut Output) -> Result<(), Stop> {
    let (name, codes) = arguments.words.split_first().expect("two words or more");
    let codes: Vec<String> = codes.iter().map(|code| parts::code_of(code)).collect::<Result<_, _>>()?;
    let of = match (arguments.has("all"), arguments.value("file").or(beside(name))) {
        (true, _) => None,
        (false, Some(file)) => Some(file),
        (false, None) => {
            return Err(Stop::of(&SUBCOMMAND, "--file names the file of the index; --all does without it"))
        }
    };
    let mut buffer = Buffer::default();
    if let Err(why) = buffer.read(name) {
        output.message(format_args!("{} cannot be read: {why}", output::name(name)));
        output.unread();
        return Ok(());
    }
    let bytes = buffer.bytes();
    if bytes.len() > dgn::index_room(FILE_BYTES) {
        let most = output::grouped(dgn::index_room(FILE_BYTES));
        refuse(name, &format!("it has more than {most} bytes, which no index of a file has"), output);
        return Ok(());
    }
    if let Some(file) = written_later(name) {
        let file = output::name(file);
        output.warning(format_args!("{file} was written after its index; dgn index {file} writes that anew"));
    }
    let file = match of.map(|of| File::open(of, arguments, output)) {
        Some(None) => return Ok(()),
        Some(file) => file,
        None => None,
    };
    let index = Index::resume(bytes, bytes.len());
    let look_up = |code: &str| -> Result<LookedUp, Refusal> {
        match &file {
            Some(file) => index.look_up(&file.bytes, file.dimension, code),
            None => index.look_up_with_deleted(code),
        }
    };
    for code in &codes {
        match look_up(code) {
            Ok(found) => line(name, code, Ok(found.place), found.looks, output)?,
            Err(refusal) if refusal.number == Number::NoSuch => {
                output.refused();
                let dead = file.is_some() && index.look_up_with_deleted(code).is_ok();
                let none = if dead { "is not live (--all finds it)" } else { "is not there" };
                line(name, code, Err(none), refusal.count, output)?;
            }
            Err(_) => {
                let bytes = output::count(bytes.len(), "byte");
                refuse(name, &format!("{bytes} are no whole entries of 8, as an index has them (1 CALL)"), output);
                break;
            }
        }
    }
    Ok(())
}

/// Prints where a part is, or that it is not.
fn line(name: &OsStr, code: &str, place: Result<usize, &str>, looks: usize, output: &mut Output) -> Result<(), Stop> {
    if output.tsv {
        let place = place.map_or(String::new(), |place| place.to_string());
        return output.row(&[&output::column(name), &code, &place, &looks]);
    }
    let place = place.map_or_else(str::to_string, |place| format!("at @{place}"));
    let (name, code, looks) = (output::name(name), parts::shown(code), output::count(looks, "look"));
    output.line(format_args!("{name}: {code} {place}, {looks}"))
}

/// That a file is no index.
fn refuse(name: &OsStr, why: &str, output: &mut Output) {
    output.message(format_args!("{}: refused: {why}; dgn index writes one", output::name(name)));
    output.refused();
}

/// The file beside an index, by its name.
fn beside(name: &OsStr) -> Option<&OsStr> {
    name.as_bytes().strip_suffix(ENDING.as_bytes()).map(OsStr::from_bytes)
}

/// The file beside an index where it was written later.
fn written_later(name: &OsStr) -> Option<&OsStr> {
    let file = beside(name)?;
    let time = |name: &OsStr| fs::metadata(name).and_then(|metadata| metadata.modified()).ok();
    (time(file)? > time(name)?).then_some(file)
}
