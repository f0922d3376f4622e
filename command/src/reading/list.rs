//! `list`: the elements of a file.

use crate::arguments::Arguments;
use crate::files::{self, File};
use crate::help::Subcommand;
use crate::output::{self, Output, Stop};
use crate::parts;

/// The subcommand.
pub const SUBCOMMAND: Subcommand = Subcommand {
    name: "list",
    usages: &["FILE .."],
    about: "list the elements of a file",
    text: "\
A line for each element, in file order: its place, its depth (how many headers are above it), its type, its own words, its \
state, and a cell's code.

With --tsv: file, 2D or 3D, place, depth, type's number, words, live or deleted, code.",
    choices: &[],
    words: (1, usize::MAX),
    instead: None,
    run,
};

fn run(arguments: &Arguments, output: &mut Output) -> Result<(), Stop> {
    for name in &arguments.words {
        if let Some(file) = File::open(name, arguments, output) {
            list(&file, output)?;
        }
    }
    Ok(())
}

fn list(file: &File, output: &mut Output) -> Result<(), Stop> {
    let (name, dimension) = (output::column(file.name), files::shown(file.dimension));
    if !output.tsv {
        output.line(file.heading())?;
        output.line("PLACE  DEPTH TYPE                  WORDS STATE   CODE")?;
    }
    for view in parts::walk(&file.bytes, file.dimension) {
        let (number, state) = (view.kind.number(), parts::state(view.deleted));
        let code = parts::code(&view);
        if output.tsv {
            let code = code.unwrap_or_default();
            output.row(&[&name, &dimension, &view.place, &view.depth, &number, &view.size, &state, &code])?;
        } else {
            let kind = format!("{number} {}", kind(view.kind));
            let code = code.map_or(String::new(), |code| parts::shown(&code));
            let line = format!("{:<6} {:<5} {kind:<21} {:<5} {state:<7} {code}", view.place, view.depth, view.size);
            output.line(line.trim_end())?;
        }
    }
    if !output.tsv && !output.quiet {
        output.line(format_args!(
            "{}, end marker at {}",
            output::count(file.judged.elements, "element"),
            file.judged.marker
        ))?;
    }
    Ok(())
}

/// A type in words.
pub fn kind(kind: dgn::Type) -> &'static str {
    use dgn::Type::*;
    match kind {
        LibraryCell => "library cell",
        Cell => "cell",
        Line => "line",
        LineString => "line string",
        Shape => "shape",
        TextNode => "text node",
        Curve => "curve",
        ComplexChain => "complex chain",
        ComplexShape => "complex shape",
        Ellipse => "ellipse",
        Arc => "arc",
        Text => "text",
        Surface => "surface",
        Solid => "solid",
        BsplinePole => "B-spline pole",
        Raw(number) => raw(number),
    }
}

/// The types of which only the first two words are judged, as README.md names them.
fn raw(number: u8) -> &'static str {
    match number {
        5 => "group data",
        8 => "set-up",
        9 => "design file header",
        10 => "level symbology",
        22 => "point string",
        23 => "cone",
        33 => "dimension",
        34 | 35 => "shared cell",
        37 => "tag",
        66 => "application data",
        _ => "other",
    }
}
