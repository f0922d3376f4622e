//! `rename`: another code for a part.

use crate::arguments::Arguments;
use crate::editing::{self, Edit, ALLOW_DOUBLE, ALLOW_EMPTY, DRY_RUN, NEW_HISTORY, WAIT};
use crate::help::Subcommand;
use crate::output::{Output, Stop};
use crate::parts;

/// The subcommand.
pub const SUBCOMMAND: Subcommand = Subcommand {
    name: "rename",
    usages: &["FILE CODE|PLACE NEW"],
    about: "give a part another code",
    text: "\
The part gets the code NEW. A code that names several parts is refused with their places, and so is a NEW that is there already, \
deleted parts too. An empty NEW is refused without --allow-empty.

With --tsv: file, 2D or 3D, number of the step, made or would be made, words of the command.",
    choices: &[ALLOW_DOUBLE, ALLOW_EMPTY, DRY_RUN, NEW_HISTORY, WAIT],
    words: (3, 3),
    instead: None,
    run,
};

fn run(arguments: &Arguments, output: &mut Output) -> Result<(), Stop> {
    let [_, old, new] = &arguments.words[..] else { return Err(Stop::usage("three words")) };
    let (which, code) = (parts::which(old)?, parts::code_of(new)?);
    if code.is_empty() && !arguments.has("allow-empty") {
        return Err(Stop::usage("NEW is empty: --allow-empty takes the part's code away"));
    }
    editing::edit(arguments, output, editing::words("rename", &[old, new]), |target, _| {
        let place = target.one(&which)?;
        let part = target.named(place);
        // the same code again is no double: it is refused as a step that changes no byte, and what is no cell as that
        if target.parts().iter().any(|part| part.place == place && part.code != code) {
            target.single(&code, arguments)?;
        }
        Ok(Edit::new(format!("{part} renamed to {}", parts::shown(&code)), move |session| session.rename(place, &code)))
    })
}
