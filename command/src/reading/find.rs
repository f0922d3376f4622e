//! `find`: the cells of a code.

use super::names::{self, Named};
use crate::arguments::Arguments;
use crate::files::{self, File};
use crate::help::{Choice, Subcommand};
use crate::output::{self, Output, Stop};
use crate::parts::{self, Part};
use dgn::Dimension;

/// The subcommand.
pub const SUBCOMMAND: Subcommand = Subcommand {
    name: "find",
    usages: &["CODE FILE|FOLDER .."],
    about: "find every part of a code",
    text: "\
A line for each live cell that has the code: where it stands, in which part, and how many elements are under it. Deleted cells are \
passed over, by their own mark, and the last line says how many have the code; --all shows them and says of each that it is deleted. \
Zeros and spaces before a code count. Where a file has parts whose codes differ from it only in these, they are named as not the same. \
Of a folder the files are taken as by check. The status is 1 where no cell that is shown has the code.

With --tsv: file, 2D or 3D, same or other, code, place, depth, live or deleted, elements, code and place of the part around it.",
    choices: &[
        parts::ALL,
        Choice { long: "every", short: Some('e'), value: None, text: "Look in every file of a folder, whatever its name." },
    ],
    words: (2, usize::MAX),
    instead: None,
    run,
};

fn run(arguments: &Arguments, output: &mut Output) -> Result<(), Stop> {
    let code = parts::code_of(&arguments.words[0])?;
    let (mut cells, mut passed, mut files, mut solid, mut with, mut not) = (0, 0, 0, 0, 0, 0);
    for named in names::each(&arguments.words[1..], arguments.has("every")) {
        let name = match named {
            Named::File(path) => path.into_os_string(),
            Named::Folder(path, why) => {
                output.message(format_args!("{} cannot be read: {}", output::name(&path), output::reason(&why)));
                output.unread();
                continue;
            }
        };
        files += 1;
        match File::look(&name, arguments, output) {
            Some(file) => {
                let (found, deleted) = find(&file, &code, arguments.has("all"), output)?;
                cells += found;
                passed += deleted;
                solid += usize::from(file.dimension == Dimension::Three);
                with += usize::from(found > 0);
            }
            None => not += 1,
        }
        if files % 64 == 0 {
            output.progress(format_args!("{} looked at", output::count(files, "file")));
        }
    }
    output.clear();
    if cells == 0 {
        output.refused();
    }
    if !output.tsv && !output.quiet {
        let [flat, solid, with] = [files - not - solid, solid, with].map(output::grouped);
        let not = if not == 0 { String::new() } else { format!(", {} not looked into", output::grouped(not)) };
        let (cells, files, code) = (output::count(cells, "cell"), output::count(files, "file"), parts::shown(&code));
        let passed = parts::passed(passed);
        output.line(format_args!(
            "{cells} with the code {code}, in {with} of {files} ({flat} as 2D, {solid} as 3D{not}){passed}"
        ))?;
    }
    Ok(())
}

/// Prints those of a file; gives how many, and how many deleted ones were passed over.
fn find(file: &File, code: &str, every: bool, output: &mut Output) -> Result<(usize, usize), Stop> {
    let all = file.parts();
    let shown = |part: &&Part| every || !part.deleted;
    for part in all.iter().filter(shown).filter(|part| part.code == code || parts::alike(&part.code, code)) {
        let around = part.header.and_then(|header| parts::around(&all, header));
        if output.tsv {
            row(file, part, around, code, output)?;
            continue;
        }
        let (name, dimension) = (output::name(file.name), files::shown(file.dimension));
        let shown = parts::shown(&part.code);
        let other = if part.code == code { String::new() } else { format!(", not the same as {}", parts::shown(code)) };
        let deleted = if part.deleted { ", deleted" } else { "" };
        let within =
            around.map_or(String::new(), |part| format!(", in {} (@{})", parts::shown(&part.code), part.place));
        let elements = output::count(part.elements, "element");
        output.line(format_args!(
            "{name}: {dimension}: {shown} at @{}{other}{deleted}{within}, {elements}",
            part.place
        ))?;
    }
    let (found, passed): (Vec<_>, Vec<_>) = all.iter().filter(|part| part.code == code).partition(shown);
    Ok((found.len(), passed.len()))
}

fn row(file: &File, part: &Part, around: Option<&Part>, code: &str, output: &mut Output) -> Result<(), Stop> {
    output.row(&[
        &output::column(file.name),
        &files::shown(file.dimension),
        &(if part.code == code { "same" } else { "other" }),
        &part.code,
        &part.place,
        &part.depth,
        &parts::state(part.deleted),
        &part.elements,
        &around.map_or("", |part| &part.code),
        &around.map_or(String::new(), |part| part.place.to_string()),
    ])
}
