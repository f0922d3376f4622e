//! `remove`: an element taken out of the file.

use crate::arguments::Arguments;
use crate::editing::{self, Edit, DRY_RUN, NEW_HISTORY, WAIT};
use crate::help::Subcommand;
use crate::output::{Output, Stop};
use crate::parts;

/// The subcommand.
pub const SUBCOMMAND: Subcommand = Subcommand {
    name: "remove",
    usages: &["FILE CODE|PLACE"],
    about: "take a part out of the file",
    text: "\
The part is taken out with all beneath it, and the file gets shorter. What stands behind it moves to other places. The log keeps \
the words, and undo puts them back.

With --tsv: file, 2D or 3D, number of the step, made or would be made, words of the command.",
    choices: &[DRY_RUN, NEW_HISTORY, WAIT],
    words: (2, 2),
    instead: None,
    run,
};

fn run(arguments: &Arguments, output: &mut Output) -> Result<(), Stop> {
    let [_, named] = &arguments.words[..] else { return Err(Stop::usage("two words")) };
    let which = parts::which(named)?;
    editing::edit(arguments, output, editing::words("remove", &[named]), |target, _| {
        let place = target.one(&which)?;
        Ok(Edit::new(format!("{} removed", target.named(place)), move |session| session.remove(place)))
    })
}
