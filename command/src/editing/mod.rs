//! The subcommands that edit a file and keep its history.

pub mod add;
pub mod history;
pub mod insert;
pub mod mark;
pub mod original;
pub mod remove;
pub mod rename;
pub mod undo;

use crate::arguments::Arguments;
use crate::disk::log::{Log, Step};
use crate::disk::place::{Place, Seen, Stop};
use crate::disk::recovery::Session;
use crate::disk::session::edited;
use crate::faults;
use crate::files::{self, Taken};
use crate::help::Choice;
use crate::output::{self, Output};
use crate::parts::{self, Part, Which};
use crate::words::Refused;
use dgn::{system, Dimension, Number, Refusal};
use std::ffi::{OsStr, OsString};
use std::time::{Duration, SystemTime, UNIX_EPOCH};

/// Says what would be done.
const DRY_RUN: Choice =
    Choice { long: "dry-run", short: Some('n'), value: None, text: "Say what would be done, and do nothing." };

/// Begins a new history.
const NEW_HISTORY: Choice = Choice {
    long: "new-history",
    short: None,
    value: None,
    text: "Keep the old log under another name, FILE.dgnlog.1 or the next number that is free, and begin a new history with the \
           file as it is. What was done before cannot be undone then.",
};

/// Waits for the lock.
const WAIT: Choice = Choice {
    long: "wait",
    short: None,
    value: Some("SECONDS"),
    text: "How long to wait for another command that edits a file of the same folder; 1 without this option.",
};

/// Lets a code stand twice.
const ALLOW_DOUBLE: Choice =
    Choice { long: "allow-double", short: None, value: None, text: "Let a code stand in the file more than once." };

/// Lets a code be empty.
const ALLOW_EMPTY: Choice = Choice {
    long: "allow-empty",
    short: None,
    value: None,
    text: "Let NEW be empty, which takes the part's code away.",
};

/// A file that is to be edited.
pub struct Target<'t> {
    /// Its bytes.
    pub bytes: &'t [u8],
    /// Its dimension.
    pub dimension: Dimension,
    /// The place of its end marker.
    pub marker: usize,
}

impl Target<'_> {
    /// The place of the one element that is named.
    pub fn one(&self, which: &Which) -> Result<usize, Stop> {
        parts::one(self.bytes, self.dimension, self.marker, which).map_err(Stop::Refused)
    }

    /// All its cells.
    pub fn parts(&self) -> Vec<Part> {
        parts::all(self.bytes, self.dimension, self.marker)
    }

    /// Refuses a code that is there already, with its places.
    pub fn single(&self, code: &str, arguments: &Arguments) -> Result<(), Stop> {
        if arguments.has("allow-double") || self.parts().iter().all(|part| part.code != code) {
            return Ok(());
        }
        Err(Stop::Refused(format!("{}; --allow-double lets it stand twice", self.doubled(code))))
    }

    /// Refuses codes that stand more often in the file after an edit than before it, and more than once; empty ones are none.
    fn singles(&self, after: &[u8]) -> Result<(), Stop> {
        let marker = dgn::judge(after, self.dimension).map_or(self.marker, |judged| judged.marker);
        let (old, new) = (self.parts(), parts::all(after, self.dimension, marker));
        let times = |parts: &[Part], code: &str| parts.iter().filter(|part| part.code == code).count();
        let doubled = |code: &str| !code.is_empty() && times(&new, code) > times(&old, code).max(1);
        let mut codes: Vec<&str> = new.iter().map(|part| part.code.as_str()).filter(|code| doubled(code)).collect();
        codes.sort();
        codes.dedup();
        let told: Vec<String> = codes.iter().map(|code| self.doubled(code)).collect();
        match told.is_empty() {
            true => Ok(()),
            false => Err(Stop::Refused(format!("{}; --allow-double lets a code stand twice", told.join("; ")))),
        }
    }

    /// A code that would stand twice, with its places.
    fn doubled(&self, code: &str) -> String {
        let places: Vec<_> = self.parts().iter().filter(|part| part.code == code).map(told).collect();
        match places.is_empty() {
            true => format!("the code {} stands in the piece more than once", parts::shown(code)),
            false => format!("the code {} is there already, {}", parts::shown(code), places.join(", ")),
        }
    }

    /// An element in words: a cell with its code, and where it is.
    pub fn named(&self, place: usize) -> String {
        match self.parts().iter().find(|part| part.place == place) {
            Some(part) => format!("part {} (@{place})", parts::shown(&part.code)),
            None => format!("the element at @{place}"),
        }
    }
}

/// The place and state of a cell, in words.
fn told(part: &Part) -> String {
    format!("at @{}{}", part.place, if part.deleted { " (deleted)" } else { "" })
}

/// A call of the library on a session.
type Call = Box<dyn FnOnce(&mut dgn::Session) -> Result<(), Refusal>>;

/// An edit: what it does, in words, and the call that does it.
pub struct Edit {
    /// As the report has it.
    pub about: String,
    /// The library's call.
    pub call: Call,
    /// Whether it brings other parts into the file.
    pub adds: bool,
}

impl Edit {
    /// An edit by this call.
    pub fn new(about: String, call: impl FnOnce(&mut dgn::Session) -> Result<(), Refusal> + 'static) -> Edit {
        Edit { about, call: Box::new(call), adds: false }
    }

    /// The same, for one that brings other parts into the file.
    pub fn adding(self) -> Edit {
        Edit { adds: true, ..self }
    }
}

/// What a refused edit means.
fn meaning(refusal: Refusal) -> &'static str {
    match refusal.number {
        Number::Total => "a part would have more than 65,535 words, or a length in the piece is wrong",
        Number::NoSuch => "nothing can be put there: no component begins at this word, and the list does not end there",
        Number::Already => "the element is marked so already",
        Number::Room => "the file would have more than 1,048,576 bytes",
        Number::Nothing => "there is no edit left to undo",
        Number::NotACell => "this element is no cell and has no code",
        Number::BadJournal => "the journal in the log does not fit the file",
        Number::Cut => {
            "the piece is cut off, or has more behind its element (an end marker: it is a file and no piece)"
        }
        Number::Place => "the piece stood in a part and is to stand in none, or the other way round",
        number => number.text(),
    }
}

/// Number and name of a refusal, with its place where it has one.
pub fn numbers(refusal: Refusal) -> String {
    let Refusal { number, place, .. } = refusal;
    match place {
        0 => format!("{} {}", number as u8, number.name()),
        _ => format!("{} {}, word {place}, byte {}", number as u8, number.name(), 2 * place),
    }
}

/// The words of a command for the log.
pub fn words(first: &str, rest: &[&OsStr]) -> Vec<OsString> {
    [OsStr::new(first)].iter().chain(rest).map(OsString::from).collect()
}

/// The words with the options that let an edit pass which is else refused.
fn with_options(mut words: Vec<OsString>, arguments: &Arguments) -> Vec<OsString> {
    let given = ["allow-double", "allow-empty", "new-history"].into_iter().filter(|name| arguments.has(name));
    words.extend(given.map(|name| format!("--{name}").into()));
    words
}

/// How long to wait for the lock.
fn wait(arguments: &Arguments) -> Result<Duration, Stop> {
    match arguments.number("wait", 0) {
        Ok(seconds) => Ok(Duration::from_secs(seconds.unwrap_or(1) as u64)),
        Err(output::Stop::Usage(what)) => Err(Stop::Usage(what)),
        Err(_) => Err(Stop::Usage("--wait".into())),
    }
}

/// The file's place, which is the first word.
fn open(arguments: &Arguments, output: &mut Output) -> Result<Place, Stop> {
    Place::open(&arguments.words[0], wait(arguments)?, false, output)
}

/// The same for a command that reads the log alone: the file need not be there.
fn open_log(arguments: &Arguments, output: &mut Output) -> Result<Place, Stop> {
    Place::open(&arguments.words[0], wait(arguments)?, true, output)
}

/// The dimension of the file: its history's, or what was asked for or fits.
fn dimension(
    place: &Place,
    log: Option<&Log>,
    seen: Option<&Seen>,
    arguments: &Arguments,
    output: &mut Output,
) -> Result<Dimension, Stop> {
    let name = place.shown(&place.file);
    if let Some(log) = log {
        return match arguments.dimension() {
            Some(asked) if asked != log.dimension => {
                Err(Stop::Usage(format!("the history of {name} is that of a {} file", files::shown(log.dimension))))
            }
            _ => Ok(log.dimension),
        };
    }
    let read;
    let bytes = match seen {
        Some(seen) => &seen.bytes,
        None => {
            read = place.read(&place.file, false)?;
            &read.bytes
        }
    };
    let taken = Taken::of(bytes, arguments.dimension());
    if let Err(refusal) = taken.judged {
        let fault = faults::of(bytes, taken.dimension, refusal);
        let refused = Refused { length: bytes.len(), taken: &taken, refusal, fault: &fault };
        return Err(Stop::Refused(refused.line(place.path(&place.file).as_os_str()).trim_end_matches('.').into()));
    }
    if let Some(warning) = taken.warning() {
        output.warning(format_args!("{name}: {}: {warning}", files::shown(taken.dimension)));
    }
    Ok(taken.dimension)
}

/// The text of a step that is made now.
fn text(words: Vec<OsString>, undone: usize) -> Step {
    let user = system::user();
    let time = SystemTime::now().duration_since(UNIX_EPOCH).map_or(0, |since| since.as_secs());
    Step { time, user, name: system::user_name(user).unwrap_or_default(), undone: undone as u32, words }
}

/// What stands there, for an edit: in step, or with `--new-history` just the file.
fn begun(place: &Place, arguments: &Arguments, output: &mut Output) -> Result<Session, Stop> {
    if arguments.has("new-history") {
        return Ok(Session { seen: place.read(&place.file, true)?, log: None, changed: None });
    }
    let session = if arguments.has("dry-run") { place.foresee(output)? } else { place.settle(true, output)? };
    match session.changed {
        Some(changed) => Err(Stop::Refused(changed)),
        None => Ok(session),
    }
}

/// Makes an edit that `plan` finds, and reports it.
pub fn edit(
    arguments: &Arguments,
    output: &mut Output,
    words: Vec<OsString>,
    plan: impl FnOnce(&Target, &mut Output) -> Result<Edit, Stop>,
) -> Result<(), output::Stop> {
    match try_edit(arguments, output, words, plan) {
        Ok(line) => report(output, line),
        Err(stop) => stop.tell(output),
    }
}

fn try_edit(
    arguments: &Arguments,
    output: &mut Output,
    words: Vec<OsString>,
    plan: impl FnOnce(&Target, &mut Output) -> Result<Edit, Stop>,
) -> Result<String, Stop> {
    let place = open(arguments, output)?;
    let mut session = begun(&place, arguments, output)?;
    let dimension = dimension(&place, session.log.as_ref(), Some(&session.seen), arguments, output)?;
    let (begins, old) = (session.log.is_none(), session.log.take());
    let bytes = &session.seen.bytes;
    let heading = format!("{}: {}", place.shown(&place.file), files::shown(dimension));
    let refused = |refusal: Refusal| match refusal.number {
        Number::Journal => place.full(),
        _ => Stop::Refused(format!("{heading}: refused: {} ({})", meaning(refusal), numbers(refusal))),
    };
    let marker = dgn::judge(bytes, dimension).map_err(refused)?.marker;
    let target = Target { bytes, dimension, marker };
    let planned = plan(&target, output);
    let headed = |stop: Stop| match stop {
        Stop::Refused(why) => Stop::Refused(format!("{heading}: {why}")),
        stop => stop,
    };
    let Edit { about, call, adds } = planned.map_err(headed)?;
    let old = old.unwrap_or(Log::new(dimension, Vec::new()));
    let (file, journal) = edited(bytes, &old.journal, dimension, call).map_err(refused)?;
    if adds && !arguments.has("allow-double") {
        target.singles(&file).map_err(headed)?;
    }
    let mut log = Log { journal, image: file, ..old };
    log.steps.push(text(with_options(words, arguments), 0));
    let line = Line { place: &place, log: &log, about: &about, tsv: output.tsv };
    if arguments.has("dry-run") || arguments.has("new-history") {
        // before the old log is set aside
        place.allow(&session.seen, &log)?;
    }
    if arguments.has("dry-run") {
        if let Some(kept) = place.would_keep().filter(|_| arguments.has("new-history")) {
            output.message(format_args!("the old log would be kept as {kept}"));
        }
        return Ok(line.told("would be made"));
    }
    let seen = match arguments.has("new-history") {
        true => renewed(&place, session.seen, output)?,
        false => session.seen,
    };
    place.step(&seen, begins, &log, output)?;
    Ok(line.told("made"))
}

/// The old log set aside, and the file looked at again.
fn renewed(place: &Place, before: Seen, output: &mut Output) -> Result<Seen, Stop> {
    place.set_aside(output)?;
    let seen = place.read(&place.file, true)?;
    match seen.bytes == before.bytes {
        true => Ok(seen),
        false => Err(Stop::Refused(format!("{} was changed by another program", place.shown(&place.file)))),
    }
}

/// What is reported of the last step of a log.
struct Line<'l> {
    place: &'l Place,
    log: &'l Log,
    about: &'l str,
    tsv: bool,
}

impl Line<'_> {
    fn told(&self, state: &str) -> String {
        let (dimension, number) = (files::shown(self.log.dimension), self.log.steps.len());
        if !self.tsv {
            return format!(
                "{}: {dimension}: step {number} {state}: {}",
                self.place.shown(&self.place.file),
                self.about
            );
        }
        let words = self.log.steps.last().map_or(String::new(), Step::column);
        format!("{}\t{dimension}\t{number}\t{state}\t{words}", output::column(&self.place.path(&self.place.file)))
    }
}

/// Prints what was done. A step that is made is not taken back where that cannot be printed.
fn report(output: &mut Output, line: String) -> Result<(), output::Stop> {
    let printed = output.line(&line).and_then(|()| output.flush());
    if printed.is_err() {
        output.message(format_args!("not reported on standard output: {line}"));
    }
    printed
}
