//! `history`: the steps of a file.

use crate::arguments::Arguments;
use crate::disk::log::{Log, State};
use crate::disk::place::Stop as Halt;
use crate::disk::recovery::Alone;
use crate::editing::{self, open_log, WAIT};
use crate::files;
use crate::help::Subcommand;
use crate::output::{self, Output, Stop};

/// The subcommand.
pub const SUBCOMMAND: Subcommand = Subcommand {
    name: "history",
    usages: &["FILE"],
    about: "list the steps of a file",
    text: "\
A line for each step: its number, its time (UTC), who made it, its state, and the words of the command. The state is made; undone, \
with the step that did it; or undo. A step that was cut off is completed or dropped first, and that is said.

The history stands in a log beside the file, FILE.dgnlog, with the file's bytes as the last step left them: keep and copy the two \
together. Where another program changed the file, or it is gone, its steps are listed all the same, and the status is 1: edits and \
undo are then refused, and original --anyway still writes the file as it was before the first step or after the last.

A log that was set aside, FILE.dgnlog.1, is looked at again by giving it back its name, FILE.dgnlog.

With --tsv: file, 2D or 3D, number of the step, seconds since 1970 began, user's number, user's name, made, undone or undo, number of \
the step that undid it, words of the command.",
    choices: &[WAIT],
    words: (1, 1),
    instead: None,
    run,
};

fn run(arguments: &Arguments, output: &mut Output) -> Result<(), Stop> {
    match try_history(arguments, output) {
        Ok(lines) => lines.iter().try_for_each(|line| output.line(line)),
        Err(stop) => stop.tell(output),
    }
}

fn try_history(arguments: &Arguments, output: &mut Output) -> Result<Vec<String>, Halt> {
    let place = open_log(arguments, output)?;
    let Alone { log, changed, .. } = place.log_alone(output)?;
    let dimension = files::shown(editing::dimension(&place, log.as_ref(), None, arguments, output)?);
    if let Some(changed) = &changed {
        output.message(changed);
        output.refused();
    }
    let log = log.unwrap_or(Log::new(dgn::Dimension::Two, Vec::new()));
    let states = log.states().unwrap_or_default();
    let mut lines = Vec::new();
    if !output.tsv {
        let count = output::count(log.steps.len(), "step");
        let undone = match (&changed, output::count(log.standing(), "edit")) {
            (None, standing) => format!("{standing} can be undone"),
            (Some(_), _) => "no edit can be undone while the file is not as the last step left it".into(),
        };
        let times = if log.steps.is_empty() { "" } else { "; times are UTC" };
        lines.push(format!("{}: {dimension}: {count}, {undone}{times}", place.shown(&place.file)));
    }
    for (k, (step, state)) in log.steps.iter().zip(states).enumerate() {
        let (number, user) = (k + 1, output::column(&step.name));
        lines.push(if output.tsv {
            let (state, by) = match state {
                State::Made => ("made", String::new()),
                State::UndoneBy(by) => ("undone", by.to_string()),
                State::Undo => ("undo", String::new()),
            };
            let file = output::column(&place.path(&place.file));
            let words = step.column();
            format!("{file}\t{dimension}\t{number}\t{}\t{}\t{user}\t{state}\t{by}\t{words}", step.time, step.user)
        } else {
            let state = match state {
                State::Made => "made".into(),
                State::UndoneBy(by) => format!("undone by {by}"),
                State::Undo => "undo".into(),
            };
            let user = if user.is_empty() { step.user.to_string() } else { user };
            format!("{number:<4} {}  {user:<10} {state:<11} {}", date(step.time), step.shown())
        });
    }
    Ok(lines)
}

/// Day and time (UTC) of a number of seconds since 1970 began.
fn date(time: u64) -> String {
    let (mut day, second) = (time / 86_400, time % 86_400);
    let leap = |year: u64| year % 4 == 0 && (year % 100 != 0 || year % 400 == 0);
    // whole cycles of 400 years first, so that any number ends soon
    let mut year = 1970 + day / 146_097 * 400;
    day %= 146_097;
    while day >= 365 + u64::from(leap(year)) {
        day -= 365 + u64::from(leap(year));
        year += 1;
    }
    let months = [31, 28 + u64::from(leap(year)), 31, 30, 31, 30, 31, 31, 30, 31, 30, 31];
    let mut month = 0;
    while day >= months[month] {
        day -= months[month];
        month += 1;
    }
    let (hour, minute, second) = (second / 3600, second / 60 % 60, second % 60);
    format!("{year:04}-{:02}-{:02} {hour:02}:{minute:02}:{second:02}", month + 1, day + 1)
}

#[cfg(test)]
mod tests {
    use super::date;

    #[test]
    fn dates() {
        assert_eq!(date(0), "1970-01-01 00:00:00");
        assert_eq!(date(951_782_400), "2000-02-29 00:00:00");
        assert_eq!(date(1_795_189_631), "2026-11-20 15:47:11");
        assert_eq!(date(4_107_542_399), "2100-02-28 23:59:59");
        assert_eq!(date(4_107_542_400), "2100-03-01 00:00:00");
    }
}
