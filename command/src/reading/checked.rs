//! What is found of a file that is checked, and how it is printed.

use super::doubles::{Double, Finder};
use super::list;
use super::names::Named;
use crate::faults::{self, Fault, Near};
use crate::files::{self, Buffer, Taken, Unread};
use crate::output::{self, Output};
use crate::parts;
use crate::words::Refused;
use dgn::{Dimension, Entries, Judged, Refusal, ENTRY_BYTES};
use std::ffi::OsStr;

/// What a file is.
#[derive(Clone, Copy, PartialEq, Eq)]
pub enum Answer {
    /// Accepted.
    Good,
    /// Refused.
    Refused,
    /// Not read.
    Unread,
    /// A folder, of which the files are to be judged.
    Folder,
}

/// What was found of a file.
pub struct Checked {
    /// What it is.
    pub answer: Answer,
    /// The dimension that it was taken as.
    pub dimension: Option<Dimension>,
    /// Whether there are warnings.
    pub warned: bool,
    /// What is printed of it.
    pub lines: String,
}

/// What a thread needs to judge one file after another.
pub struct Worker {
    asked: Option<Dimension>,
    /// Whether elements outside their ranges are looked for.
    ranges: bool,
    tsv: bool,
    quiet: bool,
    buffer: Buffer,
    /// Room for the entries of its cells.
    entries: Vec<u8>,
    finder: Finder,
}

impl Worker {
    /// One whose files have the dimension that was asked for.
    pub fn new(asked: Option<Dimension>, ranges: bool, output: &Output) -> Worker {
        let (tsv, quiet) = (output.tsv, output.quiet);
        Worker { asked, ranges, tsv, quiet, buffer: Buffer::default(), entries: Vec::new(), finder: Finder::default() }
    }

    /// Judges a file.
    pub fn check(&mut self, named: &Named) -> Checked {
        match named {
            Named::Folder(path, why) => self.unread(path.as_os_str(), &output::reason(why)),
            Named::File(path) => match self.buffer.read(path.as_os_str()) {
                Ok(()) => self.judge(path.as_os_str()),
                Err(Unread::Folder) => {
                    Checked { answer: Answer::Folder, dimension: None, warned: false, lines: String::new() }
                }
                Err(why) => self.unread(path.as_os_str(), &why.to_string()),
            },
        }
    }

    fn unread(&self, name: &OsStr, why: &str) -> Checked {
        let lines = match self.tsv {
            true => format!("{}\tunread{}{why}\n", output::column(name), "\t".repeat(COLUMNS - 2)),
            false => format!("{}: cannot be read: {why}\n", output::name(name)),
        };
        Checked { answer: Answer::Unread, dimension: None, warned: false, lines }
    }

    fn judge(&mut self, name: &OsStr) -> Checked {
        let Worker { asked, ranges, tsv, quiet, buffer, entries, finder } = self;
        let (ranges, tsv, quiet) = (*ranges, *tsv, *quiet);
        let bytes = buffer.bytes();
        let mut cells = 0;
        let taken = match quiet {
            true => Taken::of(bytes, *asked),
            // one call judges the file and gives its cells; a refusal leaves those of the other dimension
            false => {
                let room = dgn::index_room(bytes.len());
                entries.resize(room.max(entries.len()), 0);
                Taken::by(bytes, *asked, |dimension| {
                    let found = dgn::cells(bytes, dimension, &mut entries[..room])?;
                    cells = found.count;
                    Ok(found.judged)
                })
            }
        };
        let found = match taken.judged {
            Ok(judged) => Found {
                behind: bytes.len() / 2 - judged.marker - 1,
                doubles: finder.find(Entries::of(&entries[..ENTRY_BYTES * cells])),
                outside: if ranges && !quiet { outside(bytes, taken.dimension) } else { Vec::new() },
                ..Found::default()
            },
            Err(refusal) => Found { fault: faults::of(bytes, taken.dimension, refusal), ..Found::default() },
        };
        let mut lines = String::new();
        let warnings = match (tsv, taken.judged) {
            (true, _) => found.row(name, &taken, bytes.len(), &mut lines),
            (false, Err(refusal)) => {
                lines = found.refused(bytes.len(), &taken, refusal).line(name) + "\n";
                0
            }
            (false, Ok(_)) if quiet || !found.warns(&taken) => 0,
            (false, Ok(_)) => {
                let before = format!("{}: warning, {}: ", output::name(name), files::shown(taken.dimension));
                found.warn(&taken, &before, "\n", &mut lines)
            }
        };
        let answer = if taken.judged.is_ok() { Answer::Good } else { Answer::Refused };
        Checked { answer, dimension: Some(taken.dimension), warned: warnings > 0, lines }
    }
}

/// How many codes that stand twice are shown.
const SHOWN: usize = 8;

/// The columns of a line of `--tsv`.
const COLUMNS: usize = 17;

/// What is said of a file beside the answer.
#[derive(Default)]
struct Found<'c> {
    /// Where the fault is.
    fault: Fault,
    /// Words behind the end marker.
    behind: usize,
    /// Codes that several cells have.
    doubles: &'c [Double],
    /// Elements with points outside their range, each in words.
    outside: Vec<String>,
}

impl Found<'_> {
    /// A file that is refused.
    fn refused<'r>(&'r self, length: usize, taken: &'r Taken, refusal: Refusal) -> Refused<'r> {
        Refused { length, taken, refusal, fault: &self.fault }
    }

    /// Whether there is a warning.
    fn warns(&self, taken: &Taken) -> bool {
        self.behind > 0 || taken.warning().is_some() || !self.doubles.is_empty() || !self.outside.is_empty()
    }

    /// Puts the warnings in words behind a text, each with something before it and behind it; gives how many there are.
    fn warn(&self, taken: &Taken, before: &str, behind: &str, text: &mut String) -> usize {
        // a code with its places takes some hundred letters
        text.reserve(self.doubles.len().min(SHOWN) * (before.len() + 128));
        let mut count = 0;
        let mut one = |warn: &dyn Fn(&mut String)| {
            *text += before;
            warn(text);
            *text += behind;
            count += 1;
        };
        if self.behind > 0 {
            let words = output::count(self.behind, "word");
            one(&|text| *text += &format!("{words} behind the end marker, kept and not read"));
        }
        if let Some(warning) = taken.warning() {
            one(&|text| *text += &warning);
        }
        for double in self.doubles.iter().take(SHOWN) {
            one(&|text| double.warn(text));
        }
        if let Some(more) = self.doubles.len().checked_sub(SHOWN).filter(|&more| more > 0) {
            one(&|text| *text += &format!("{} that several cells have", output::count(more, "more code")));
        }
        for outside in &self.outside {
            one(&|text| *text += outside);
        }
        count
    }

    /// Puts the columns of `--tsv` behind a text; gives how many warnings there are.
    fn row(&self, name: &OsStr, taken: &Taken, length: usize, lines: &mut String) -> usize {
        let (judged, refusal) = (taken.judged.ok(), taken.judged.err());
        let good = |number: fn(Judged) -> usize| judged.map_or(String::new(), |judged| number(judged).to_string());
        let bad = |text: fn(Refusal) -> String| refusal.map_or(String::new(), text);
        let near = |text: fn(&Near) -> String| self.fault.near.as_ref().map_or(String::new(), text);
        let codes: Vec<String> = self.doubles.iter().map(Double::code).collect();
        let mut said = String::new();
        let warnings = match refusal {
            Some(refusal) => {
                said = self.refused(length, taken, refusal).both();
                0
            }
            None => {
                let warnings = self.warn(taken, "", "; ", &mut said);
                said.truncate(said.len().saturating_sub(2));
                warnings
            }
        };
        let columns: [String; COLUMNS] = [
            output::column(name),
            if judged.is_some() { "good".into() } else { "refused".into() },
            files::shown(taken.dimension).into(),
            taken.how.word().into(),
            good(|judged| judged.elements),
            good(|judged| judged.deepest),
            good(|judged| judged.marker),
            bad(|refusal| (refusal.number as u8).to_string()),
            bad(|refusal| refusal.number.name().into()),
            bad(|refusal| refusal.place.to_string()),
            bad(|refusal| (2 * refusal.place).to_string()),
            near(|near| near.relation().into()),
            near(|near| near.code.clone()),
            near(|near| near.place.to_string()),
            judged.map_or(String::new(), |_| self.behind.to_string()),
            codes.join(","),
            said,
        ];
        *lines += &columns.join("\t");
        lines.push('\n');
        warnings
    }
}

/// The elements of a file that is accepted with points outside their range, each in words with the innermost cell around it.
fn outside(bytes: &[u8], dimension: Dimension) -> Vec<String> {
    let places = dgn::all_ranges(bytes, dimension).expect("a file that was accepted");
    let mut found = Vec::with_capacity(places.len());
    let mut places = places.into_iter().peekable();
    // the cells around, each with its depth
    let mut open: Vec<(usize, String)> = Vec::new();
    let mut views = parts::walk(bytes, dimension);
    while let Some(place) = places.peek() {
        let view = views.next().expect("an element that was given");
        open.truncate(open.iter().take_while(|(depth, _)| *depth < view.depth).count());
        if view.place == *place {
            places.next();
            let part = open.last().map_or("", |(_, part)| part);
            found.push(format!("{part}the {} at @{} has points outside its range", list::kind(view.kind), view.place));
        }
        if let Some(code) = parts::code(&view) {
            open.push((view.depth, format!("in part {} (@{}): ", parts::shown(&code), view.place)));
        }
    }
    found
}
