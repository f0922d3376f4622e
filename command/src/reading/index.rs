//! `index`: the cells of a file by their codes, in a file beside it.

use crate::arguments::Arguments;
use crate::files::{self, File};
use crate::help::{Choice, Subcommand};
use crate::output::{self, Output, Stop};
use dgn::Index;
use std::ffi::{OsStr, OsString};
use std::fs::{self, OpenOptions};
use std::io::{self, Write};
use std::os::unix::ffi::OsStrExt;
use std::os::unix::fs::MetadataExt;

/// The subcommand.
pub const SUBCOMMAND: Subcommand = Subcommand {
    name: "index",
    usages: &["FILE ..", "FILE -o OUT"],
    about: "write an index of a file's parts beside it",
    text: "\
An index lists the parts of a file by their codes, deleted ones too, so that lookup finds one in some fifteen looks, without the \
file. It is written to FILE.dgnidx, or to OUT, whose name has to end so too. What stands under that name is replaced, as a whole or \
not at all. An index is of the file as it was: after an edit it is to be written anew.

An entry has 8 bytes: the two words of the code as they are stored, then the place, high word first. Entries are in the order of \
these numbers, so letters stand before digits.

With --tsv: file, 2D or 3D, entries, OUT.",
    choices: &[Choice { long: "out", short: Some('o'), value: Some("OUT"), text: "Where to write." }],
    words: (1, usize::MAX),
    instead: None,
    run,
};

/// How the name of an index ends.
pub const ENDING: &str = ".dgnidx";

fn run(arguments: &Arguments, output: &mut Output) -> Result<(), Stop> {
    let out = arguments.value("out");
    if out.is_some() && arguments.words.len() > 1 {
        return Err(Stop::of(&SUBCOMMAND, "-o OUT is for one file"));
    }
    if let Some(out) = out.filter(|out| !out.as_bytes().ends_with(ENDING.as_bytes())) {
        return Err(Stop::Usage(format!("{}: the name of an index ends in {ENDING}", output::name(out))));
    }
    for name in &arguments.words {
        let out = out.map_or_else(|| [name, OsStr::new(ENDING)].into_iter().collect::<OsString>(), OsString::from);
        files::free_of_logs(&out)?;
        if let Some(file) = File::open(name, arguments, output) {
            index(&file, &out, output)?;
        }
    }
    Ok(())
}

/// Writes the index of a file.
fn index(file: &File, out: &OsStr, output: &mut Output) -> Result<(), Stop> {
    let index = Index::of(&file.bytes, file.dimension).expect("a file that was accepted");
    if let Err(why) = may_replace(file.name, out).and_then(|()| replace(out, index.bytes())) {
        output.message(format_args!("{} cannot be written: {}", output::name(out), output::reason(&why)));
        output.unread();
        return Ok(());
    }
    let (name, dimension, entries) = (file.name, files::shown(file.dimension), index.entries().len());
    if output.tsv {
        return output.row(&[&output::column(name), &dimension, &entries, &output::column(out)]);
    }
    if !output.quiet {
        let entries = output::count(entries, "part");
        output.line(format_args!(
            "{}: {dimension}, an index of {entries} of {}",
            output::name(out),
            output::name(name)
        ))?;
    }
    Ok(())
}

/// Whether a name is free or that of a file, and not of the one that is indexed.
fn may_replace(name: &OsStr, out: &OsStr) -> io::Result<()> {
    let there = match fs::symlink_metadata(out) {
        Ok(there) => there,
        Err(why) if why.kind() == io::ErrorKind::NotFound => return Ok(()),
        Err(why) => return Err(why),
    };
    let own = fs::metadata(name)?;
    match there.is_file() {
        false => Err(io::Error::other("what stands there is no file")),
        true if (there.dev(), there.ino()) == (own.dev(), own.ino()) => {
            Err(io::Error::other("it is the file that is to be indexed"))
        }
        true => Ok(()),
    }
}

/// Writes a file under another name, to the disk, and gives it its own; where that fails, what stood there stays.
fn replace(out: &OsStr, bytes: &[u8]) -> io::Result<()> {
    let new: OsString = [out, OsStr::new(&format!(".{}.new", std::process::id()))].into_iter().collect();
    let mut file = OpenOptions::new().write(true).create_new(true).open(&new)?;
    let written = file.write_all(bytes).and_then(|()| file.sync_all()).and_then(|()| fs::rename(&new, out));
    if written.is_err() {
        // the first failure is told
        let _ = fs::remove_file(&new);
    }
    written
}
