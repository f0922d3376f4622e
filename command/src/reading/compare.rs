//! `compare`: two files, by their parts.

use super::differences::{Difference, Differences, Relation};
use super::tree::{Node, Tree};
use crate::arguments::Arguments;
use crate::files::{self, File};
use crate::help::Subcommand;
use crate::output::{self, Output, Stop};

/// The subcommand.
pub const SUBCOMMAND: Subcommand = Subcommand {
    name: "compare",
    usages: &["A B"],
    about: "compare two files by their parts",
    text: "\
Compares the parts of two files by code and content; where they stand does not matter. A part is the same where code and all bytes \
are; changed where the code is the same and a byte is not; renamed where all bytes but those of the code are the same; else it is \
only in A or only in B. Of a part that is changed the parts in it are compared in turn, and how many of its other elements are in \
both and in one alone is said; so for the elements at the top that are no parts. Of a part at the top in which nothing but marks of deletion differ that is said alone. Parts in such a part, or in one that is the same, \
renamed or in one file alone, are not counted. A line for each part that is not the same, then the \
totals. Bytes behind the end marker are not compared. The status is 1 where anything differs.

With --tsv a line for each part, the same ones too: A, its 2D or 3D, B, its 2D or 3D; same, changed, renamed, only-a or only-b; depth; \
code and place in A; code and place in B. Other elements are lines too, with their place and no code.",
    choices: &[],
    words: (2, 2),
    instead: None,
    run,
};

fn run(arguments: &Arguments, output: &mut Output) -> Result<(), Stop> {
    let [a, b] = [0, 1].map(|k| File::open(&arguments.words[k], arguments, output));
    let (Some(a), Some(b)) = (a, b) else { return Ok(()) };
    if !output.tsv {
        output.line(format_args!("A {}", a.heading()))?;
        output.line(format_args!("B {}", b.heading()))?;
    }
    if a.dimension != b.dimension {
        output.warning("one file is 2D and the other 3D: their elements have other lengths");
    }
    let files = [&a, &b].map(|file| (output::column(file.name), files::shown(file.dimension)));
    let (a, b) = (Tree::of(&a), Tree::of(&b));
    let differences = Differences::of(&a, &b);
    for difference in &differences.list {
        if output.tsv {
            row(&files, difference, output)?;
        } else if let Some(line) = difference.line() {
            output.line(line)?;
        }
    }
    if !differences.all_same() {
        output.refused();
    }
    if !output.tsv && !output.quiet {
        totals(&differences, output)?;
    }
    Ok(())
}

/// A line of `--tsv`.
fn row(files: &[(String, &str); 2], difference: &Difference, output: &mut Output) -> Result<(), Stop> {
    let [(a, dimension_a), (b, dimension_b)] = files;
    let depth = difference.a.or(difference.b).map_or(0, |node| node.depth);
    let side = |node: Option<&Node>| {
        let code = node.and_then(Node::code).unwrap_or_default();
        [code, node.map_or(String::new(), |node| node.place.to_string())]
    };
    let ([code_a, place_a], [code_b, place_b]) = (side(difference.a), side(difference.b));
    let word = difference.relation.word();
    output.row(&[a, dimension_a, b, dimension_b, &word, &depth, &code_a, &place_a, &code_b, &place_b])
}

/// The last lines.
fn totals(differences: &Differences, output: &mut Output) -> Result<(), Stop> {
    for (what, cells) in [("part", true), ("other element", false)] {
        let count = |relation| differences.count(relation, cells);
        let same = output::count(count(Relation::Same), what);
        let mut line = format!("{same} the same");
        if cells {
            let (changed, renamed) = (count(Relation::Changed), count(Relation::Renamed));
            line += &format!(", {} changed, {} renamed", output::grouped(changed), output::grouped(renamed));
        }
        let (a, b) = (count(Relation::OnlyA), count(Relation::OnlyB));
        output.line(format_args!("{line}, {} only in A, {} only in B", output::grouped(a), output::grouped(b)))?;
    }
    if differences.all_same() && differences.moved {
        output.line("the same, in another order")?;
    }
    Ok(())
}
