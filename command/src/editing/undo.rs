//! `undo`: the last edits taken back.

use crate::arguments::{decimal, Arguments};
use crate::disk::log::{Log, State};
use crate::disk::place::{Place, Stop as Halt};
use crate::disk::session::{undone, Pair};
use crate::editing::{self, begun, dimension, open, report, text, Line, DRY_RUN, WAIT};
use crate::files;
use crate::help::Subcommand;
use crate::output::{self, Output, Stop};
use dgn::Number;
use std::ffi::OsStr;

/// The subcommand.
pub const SUBCOMMAND: Subcommand = Subcommand {
    name: "undo",
    usages: &["FILE [N]"],
    about: "take the last edit back, or the last N",
    text: "\
The last N edits that still stand are taken back, the newest first, as one step; the file's bytes are then those before them. \
history shows which edits stand. An undo is a step of the history too, but cannot be undone itself.

With --tsv: file, 2D or 3D, number of the step, made or would be made, words of the command.",
    choices: &[DRY_RUN, WAIT],
    words: (1, 2),
    instead: None,
    run,
};

fn run(arguments: &Arguments, output: &mut Output) -> Result<(), Stop> {
    let count = match arguments.words.get(1) {
        None => 1,
        Some(word) => match decimal(word).filter(|&count| count > 0) {
            Some(count) => count,
            None => return Err(Stop::Usage(format!("{} is no number of edits from 1 on", output::name(word)))),
        },
    };
    match try_undo(arguments, output, count) {
        Ok(lines) => lines.into_iter().try_for_each(|line| report(output, line)),
        Err(stop) => stop.tell(output),
    }
}

/// File and journal after that many edits are undone.
fn back(place: &Place, log: &Log, count: usize) -> Result<Pair, Halt> {
    undone(&log.image, &log.journal, log.dimension, count)
        .map_err(|refusal| Halt::Refused(format!("refused: {} does not lead back: {refusal}", place.shown(&place.log))))
}

fn try_undo(arguments: &Arguments, output: &mut Output, count: usize) -> Result<Vec<String>, Halt> {
    let place = open(arguments, output)?;
    let session = begun(&place, arguments, output)?;
    let dimension = dimension(&place, session.log.as_ref(), Some(&session.seen), arguments, output)?;
    let refused = |why: &str| {
        let (name, dimension) = (place.shown(&place.file), files::shown(dimension));
        Halt::Refused(format!("{name}: {dimension}: refused: {why} (17 {})", Number::Nothing.name()))
    };
    let standing = session.log.as_ref().map_or(0, Log::standing);
    let Some(mut log) = session.log.filter(|_| standing > 0) else {
        return Err(refused("there is no edit to undo"));
    };
    if count > standing {
        return Err(refused(&format!("only {} can be undone", output::count(standing, "edit"))));
    }
    // where all of them together change no byte, the last is a step of its own
    let is_same = count > 1 && back(&place, &log, count)?.0 == log.image;
    let mut lines = Vec::new();
    let mut seen = session.seen;
    for count in if is_same { vec![count - 1, 1] } else { vec![count] } {
        let about = told(&log, count);
        (log.image, log.journal) = back(&place, &log, count)?;
        let number = count.to_string();
        let words: &[&OsStr] = if count > 1 { &[number.as_ref()] } else { &[] };
        log.steps.push(text(editing::words("undo", words), count));
        let line = Line { place: &place, log: &log, about: &about, tsv: output.tsv };
        if arguments.has("dry-run") {
            place.may_replace(&seen)?;
            lines.push(line.told("would be made"));
            continue;
        }
        let made = place.step(&seen, false, &log, output);
        made.map_err(|stop| match lines.is_empty() {
            true => stop,
            false => Halt::Unfinished(format!("all edits but the last are undone: {}", stop.why())),
        })?;
        lines.push(line.told("made"));
        if is_same {
            seen = place.read(&place.file, true)?;
        }
    }
    Ok(lines)
}

/// What is undone: the last edit with its words, or how far it goes back.
fn told(log: &Log, count: usize) -> String {
    let states = log.states().unwrap_or_default();
    let standing = states.iter().enumerate().rev().filter(|(_, &state)| state == State::Made).map(|(k, _)| k);
    let Some(first) = standing.take(count).last() else { return String::new() };
    match count {
        1 => format!("step {} undone ({})", first + 1, log.steps[first].shown()),
        _ => format!("{} undone, back to before step {}", output::count(count, "edit"), first + 1),
    }
}
