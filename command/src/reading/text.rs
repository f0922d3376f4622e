//! `text`: the texts of a file.

use crate::arguments::Arguments;
use crate::files::{self, File};
use crate::help::Subcommand;
use crate::output::{self, Output, Stop};
use crate::parts;

/// The subcommand.
pub const SUBCOMMAND: Subcommand = Subcommand {
    name: "text",
    usages: &["FILE .."],
    about: "list the texts of a file",
    text: "\
A line for each text, in file order: its place, the innermost part around it (- where there is none), its state, and its \
characters. A file holds bytes and does not say which letters those above 127 are.

With --tsv: file, 2D or 3D, place, code and place of the part, live or deleted, characters.",
    choices: &[],
    words: (1, usize::MAX),
    instead: None,
    run,
};

fn run(arguments: &Arguments, output: &mut Output) -> Result<(), Stop> {
    for name in &arguments.words {
        if let Some(file) = File::open(name, arguments, output) {
            list(&file, output)?;
        }
    }
    Ok(())
}

fn list(file: &File, output: &mut Output) -> Result<(), Stop> {
    let (name, dimension) = (output::column(file.name), files::shown(file.dimension));
    if !output.tsv {
        output.line(file.heading())?;
        output.line("PLACE  PART     STATE   TEXT")?;
    }
    let all = file.parts();
    let texts = dgn::all_texts(&file.bytes, file.dimension).expect("a file that was accepted");
    // the cells around a place, found from place to place: those that began before it and have not ended
    let mut next = all.iter().peekable();
    let mut open: Vec<&parts::Part> = Vec::new();
    for found in &texts {
        while let Some(part) = next.next_if(|part| part.place < found.place) {
            open.push(part);
        }
        open.retain(|part| part.holds(found.place));
        let around = open.last();
        let (place, state) = (found.place, parts::state(found.deleted));
        let characters = output::characters(&file.bytes[found.text.characters.clone()]);
        if output.tsv {
            let code = around.map_or("", |part| &part.code);
            let at = around.map_or(String::new(), |part| part.place.to_string());
            output.row(&[&name, &dimension, &place, &code, &at, &state, &characters])?;
        } else {
            let code = around.map_or("-".into(), |part| parts::shown(&part.code));
            output.line(format!("{place:<6} {code:<8} {state:<7} {characters}").trim_end())?;
        }
    }
    if !output.tsv && !output.quiet {
        output.line(output::count(texts.len(), "text"))?;
    }
    Ok(())
}
