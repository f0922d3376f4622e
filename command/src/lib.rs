//! The command `dgn`, over the safe bindings. It knows nothing of the format: what it says of a file the library told it.

#![forbid(unsafe_code)]
#![deny(missing_docs)]

pub mod arguments;
pub mod disk;
pub mod editing;
pub mod faults;
pub mod files;
pub mod help;
pub mod output;
pub mod parts;
pub mod reading;
pub mod words;

use arguments::Arguments;
use output::{Output, Stop};
use std::ffi::OsString;

/// Runs the command with its arguments; gives its status.
pub fn run(arguments: Vec<OsString>) -> u8 {
    let mut output = Output::standard();
    let ended = begin(arguments, &mut output);
    output.end(ended)
}

/// The subcommand that is named first, or what is asked of the whole.
fn begin(mut arguments: Vec<OsString>, output: &mut Output) -> Result<(), Stop> {
    if arguments.is_empty() {
        return Err(Stop::usage("no subcommand is named; dgn --help lists them"));
    }
    let name = arguments.remove(0);
    match name.to_str() {
        Some("--help" | "-h") => return output.text(&help::whole()),
        Some("--version" | "-V") => return output.text(&help::version()),
        Some("help") => return help::asked(&arguments, output),
        _ => {}
    }
    if name.as_encoded_bytes().starts_with(b"-") {
        return Err(Stop::Usage(format!("{}: options stand behind the subcommand's name", output::name(&name))));
    }
    let Some(subcommand) = name.to_str().and_then(help::find) else {
        return Err(Stop::Usage(format!("there is no subcommand {}; dgn --help lists them", output::name(&name))));
    };
    if arguments::asks_help(&arguments) {
        return output.text(&help::of(subcommand));
    }
    let arguments = Arguments::parse(subcommand, arguments)?;
    output.obey(&arguments);
    (subcommand.run)(&arguments, output)
}
