//! `plates`: what stands in the cells of a file, counted.

use crate::arguments::Arguments;
use crate::files::{self, File};
use crate::help::Subcommand;
use crate::output::{self, Output, Stop};
use crate::parts;

/// The subcommand.
pub const SUBCOMMAND: Subcommand = Subcommand {
    name: "plates",
    usages: &["FILE .."],
    about: "count what stands in the parts of a file, for a catalogue",
    text: "\
A line for each live cell, in file order: its place; how many live elements stand directly in it, by kind; how many levels it has; \
its state; its code. The kinds are lines; line strings, with shapes, curves and B-spline poles; texts; ellipses, with arcs; headers, \
which are cells, text nodes, complex chains and shapes, surfaces and solids, each counted as one whatever stands in it; all others. Levels \
are counted by the cell's own mask. A code that is empty or has spaces is in quotes. Deleted cells are passed over, by their own \
mark, and the last line says how many; --all shows them.

With --tsv: file, 2D or 3D, place, the six counts in this order, levels, code, live or deleted.",
    choices: &[parts::ALL],
    words: (1, usize::MAX),
    instead: None,
    run,
};

fn run(arguments: &Arguments, output: &mut Output) -> Result<(), Stop> {
    for name in &arguments.words {
        if let Some(file) = File::open(name, arguments, output) {
            list(&file, arguments.has("all"), output)?;
        }
    }
    Ok(())
}

fn list(file: &File, every: bool, output: &mut Output) -> Result<(), Stop> {
    let (name, dimension) = (output::column(file.name), files::shown(file.dimension));
    if !output.tsv {
        output.line(file.heading())?;
        output.line("PLACE  LINES STRINGS TEXTS ELLIPSES HEADERS OTHERS LEVELS STATE   CODE")?;
    }
    let all = dgn::all_plates(&file.bytes, file.dimension).expect("a file that was accepted");
    let shown: Vec<_> = all.iter().filter(|found| every || !found.deleted).collect();
    for found in &shown {
        let (place, levels, state) = (found.place, found.plate.levels, parts::state(found.deleted));
        let [lines, strings, texts, ellipses, headers, others] = found.plate.counts();
        let code = dgn::unpack(found.plate.name).expect("the name of a plate");
        if output.tsv {
            output.row(&[
                &name, &dimension, &place, &lines, &strings, &texts, &ellipses, &headers, &others, &levels, &code, &state,
            ])?;
        } else {
            output.line(format_args!(
                "{place:<6} {lines:<5} {strings:<7} {texts:<5} {ellipses:<8} {headers:<7} {others:<6} {levels:<6} {state:<7} {}",
                parts::shown(&code)
            ))?;
        }
    }
    if !output.tsv && !output.quiet {
        let passed = parts::passed(all.len() - shown.len());
        output.line(format_args!("{}{passed}", output::count(shown.len(), "plate")))?;
    }
    Ok(())
}
