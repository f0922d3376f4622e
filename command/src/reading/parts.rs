//! `parts`: the cells of a file.

use crate::arguments::Arguments;
use crate::files::{self, File};
use crate::help::Subcommand;
use crate::output::{self, Output, Stop};
use crate::parts;

/// The subcommand.
pub const SUBCOMMAND: Subcommand = Subcommand {
    name: "parts",
    usages: &["FILE .."],
    about: "list the parts of a file",
    text: "\
A line for each live cell, in file order: its code, its place, its depth (how many headers are above it), its state, and how many \
elements stand under it, at all depths. A code that is empty or has spaces is in quotes. Deleted cells are passed over, by their own \
mark, and the last line says how many; --all shows them, as for restore.

With --tsv: file, 2D or 3D, code, place, depth, live or deleted, elements, the word after its extent.",
    choices: &[parts::ALL],
    words: (1, usize::MAX),
    instead: None,
    run,
};

fn run(arguments: &Arguments, output: &mut Output) -> Result<(), Stop> {
    for name in &arguments.words {
        if let Some(file) = File::open(name, arguments, output) {
            list(&file, arguments.has("all"), output)?;
        }
    }
    Ok(())
}

fn list(file: &File, every: bool, output: &mut Output) -> Result<(), Stop> {
    let (name, dimension) = (output::column(file.name), files::shown(file.dimension));
    if !output.tsv {
        output.line(file.heading())?;
        output.line("CODE     PLACE  DEPTH STATE   ELEMENTS")?;
    }
    let all = file.parts();
    let shown: Vec<_> = all.iter().filter(|part| every || !part.deleted).collect();
    for part in &shown {
        let (place, depth, state) = (part.place, part.depth, parts::state(part.deleted));
        if output.tsv {
            output.row(&[&name, &dimension, &part.code, &place, &depth, &state, &part.elements, &part.end])?;
        } else {
            let code = parts::shown(&part.code);
            output.line(format_args!("{code:<8} {place:<6} {depth:<5} {state:<7} {}", part.elements))?;
        }
    }
    if !output.tsv && !output.quiet {
        let passed = parts::passed(all.len() - shown.len());
        output.line(format_args!("{}{passed}", output::count(shown.len(), "part")))?;
    }
    Ok(())
}
