//! `delete` and `restore`: the deleted flag of an element and of all beneath it.

use crate::arguments::Arguments;
use crate::editing::{self, Edit, DRY_RUN, NEW_HISTORY, WAIT};
use crate::help::Subcommand;
use crate::output::{Output, Stop};
use crate::parts;

/// `delete`.
pub const DELETE: Subcommand = Subcommand {
    name: "delete",
    usages: &["FILE CODE|PLACE"],
    about: "mark a part deleted; it stays in the file",
    text: "\
The part is marked deleted, with all beneath it. Its words stay in the file: restore takes the marks away, remove takes the words \
out.

With --tsv: file, 2D or 3D, number of the step, made or would be made, words of the command.",
    choices: &[DRY_RUN, NEW_HISTORY, WAIT],
    words: (2, 2),
    instead: None,
    run: |arguments, output| run(arguments, output, true),
};

/// `restore`.
pub const RESTORE: Subcommand = Subcommand {
    name: "restore",
    usages: &["FILE CODE|PLACE"],
    about: "take the mark of a deleted part away",
    text: "\
The part is marked live, with all beneath it, also what was deleted before the part was: undo brings back just what the last \
step changed.

With --tsv: file, 2D or 3D, number of the step, made or would be made, words of the command.",
    choices: &[DRY_RUN, NEW_HISTORY, WAIT],
    words: (2, 2),
    instead: None,
    run: |arguments, output| run(arguments, output, false),
};

fn run(arguments: &Arguments, output: &mut Output, deleted: bool) -> Result<(), Stop> {
    let [_, named] = &arguments.words[..] else { return Err(Stop::usage("two words")) };
    let which = parts::which(named)?;
    let (word, about) = if deleted { ("delete", "marked deleted") } else { ("restore", "marked live") };
    editing::edit(arguments, output, editing::words(word, &[named]), |target, _| {
        let place = target.one(&which)?;
        Ok(Edit::new(format!("{} {about}", target.named(place)), move |session| session.mark(place, deleted)))
    })
}
