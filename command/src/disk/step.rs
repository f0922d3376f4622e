//! A step: the file goes from its bytes to others, and the log with it. Each call of the system is one of docs/COMMAND.md.

use crate::disk::log::Log;
use crate::disk::place::{Place, Seen, Stop};
use crate::output::{self, Output};
use dgn::system::{cannot_exchange, exchange};
use std::ffi::{OsStr, OsString};
use std::fs;
use std::io;

/// How the new file became the file.
enum Made {
    /// By exchanging the two names: the new file, and under its name there is now what was the file.
    Exchanged((u64, u64)),
    /// By a rename.
    Renamed,
}

impl Place {
    /// Makes a step: the file that was seen becomes the log's image, and its log this one. `begins` says that there is no log yet.
    pub fn step(&self, seen: &Seen, begins: bool, log: &Log, output: &mut Output) -> Result<(), Stop> {
        let name = self.shown(&self.file);
        let stored = self.allow(seen, log)?;
        let first = begins.then(|| Log::new(log.dimension, seen.bytes.clone()));
        let made = self.ready(seen, first, log, &stored, output).inspect_err(|_| self.clear(begins, output))?;
        // from here on the step is made, and is completed by the next command where this one is cut off
        let unfinished = |why: io::Error| {
            let why = output::reason(&why);
            Stop::Unfinished(format!(
                "{name} is as after the step, but its log could not be finished: {why}; the next command does it"
            ))
        };
        self.sync().map_err(unfinished)?;
        if let Made::Exchanged(new) = made {
            // as late as can be: behind this nobody looks at it again
            let stop = match self.read(&self.new, false) {
                Ok(old) if old.same(seen) => None,
                Ok(_) => Some(Stop::Refused(format!("{name} was changed by another program while the step was made"))),
                Err(stop) => Some(stop),
            };
            if let Some(stop) = stop {
                self.put_back(new, &log.image)?;
                self.clear(begins, output);
                return Err(stop);
            }
            fs::remove_file(&self.new).map_err(unfinished)?;
        }
        fs::rename(&self.next, &self.log).and_then(|()| self.sync()).map_err(unfinished)
    }

    /// Refuses a step that cannot be made, as far as that can be seen before; the log's bytes.
    pub fn allow(&self, seen: &Seen, log: &Log) -> Result<Vec<u8>, Stop> {
        // before and after have to differ: which of the two stands there is what tells a cut-off step's fate
        if log.image == seen.bytes {
            let name = self.shown(&self.file);
            return Err(Stop::Refused(format!("{name}: no step: it would change no byte")));
        }
        self.may_replace(seen)?;
        log.encode().ok_or_else(|| self.full())
    }

    /// A log that has no room for one more step.
    pub fn full(&self) -> Stop {
        Stop::Refused(format!(
            "{} is full; with --new-history it is kept under another name and a new history begins",
            self.shown(&self.log)
        ))
    }

    /// Takes away what a step has written that is not made.
    fn clear(&self, begins: bool, output: &mut Output) {
        let names = [&self.new, &self.next, &self.log];
        for name in &names[..if begins { 3 } else { 2 }] {
            if self.remove(name).is_err() {
                output.message(format_args!("left over: {}; the next command removes it", self.shown(name)));
            }
        }
    }

    /// All until the step is made. `first` is the log before a first step, `stored` the log as bytes.
    fn ready(
        &self,
        seen: &Seen,
        first: Option<Log>,
        log: &Log,
        stored: &[u8],
        output: &mut Output,
    ) -> Result<Made, Stop> {
        if let Some(first) = first {
            let first = first.encode().ok_or_else(|| self.full())?;
            self.put(&self.next, &first, seen)?;
            fs::rename(&self.next, &self.log).map_err(self.system("rename", &self.next))?;
        }
        self.put(&self.next, stored, seen)?;
        self.put(&self.new, &log.image, seen)?;
        self.sync_before()?;
        let new = self.read(&self.new, false)?.number();
        // other programs take no lock: look once more, as late as can be
        if !self.read(&self.file, true)?.same(seen) {
            return Err(Stop::Refused(format!("{} was changed by another program", self.shown(&self.file))));
        }
        self.replace(new, output)
    }

    /// Gives the new file, which has this number, the file's name. The two names are exchanged, so that what stood there is not
    /// lost and can be looked at.
    fn replace(&self, new: (u64, u64), output: &mut Output) -> Result<Made, Stop> {
        // where a call fails and is made all the same, the step goes on
        let is_made = || self.read(&self.file, false).is_ok_and(|now| now.number() == new);
        match exchange(self.new.as_ref(), self.file.as_ref()) {
            Err(why) if cannot_exchange(&why) => {
                output.warning(
                    "names cannot be exchanged here: a change by another program in the last moment would not be seen",
                );
                match fs::rename(&self.new, &self.file) {
                    Err(why) if !is_made() => Err(self.system("rename", &self.new)(why)),
                    _ => Ok(Made::Renamed),
                }
            }
            Err(why) if !is_made() => Err(self.system("exchange the names of", &self.new)(why)),
            _ => Ok(Made::Exchanged(new)),
        }
    }

    /// Exchanges the names again. Where yet another file comes back than the new one, it is kept.
    fn put_back(&self, new: (u64, u64), bytes: &[u8]) -> Result<(), Stop> {
        let (name, kept) = (self.shown(&self.file), self.shown(&self.new));
        let held = |why: String| Stop::Unfinished(format!("the step is not made: {why}; the next command settles it"));
        if let Err(why) = exchange(self.new.as_ref(), self.file.as_ref()).and_then(|()| self.sync()) {
            let why = output::reason(&why);
            return Err(held(format!("what was {name} before is {kept} and could not be put back ({why})")));
        }
        match self.read(&self.new, false) {
            Ok(back) if back.number() == new && back.bytes == bytes => Ok(()),
            _ => Err(held(format!(
                "{name} was changed by other programs twice, it is the first of their files and {kept} the second"
            ))),
        }
    }

    /// The name with the number of a log that was set aside.
    pub(super) fn numbered(&self, name: &OsStr, number: usize) -> OsString {
        let end = &name.as_encoded_bytes()[self.log.len()..];
        let mut other = self.log.clone();
        other.push(format!(".{number}{}", String::from_utf8_lossy(end)));
        other
    }

    /// Whether one of the names with this number is taken.
    fn taken(&self, number: usize) -> bool {
        [&self.new, &self.next, &self.log].iter().any(|name| Place::has(&self.numbered(name, number)))
    }

    /// The first number that is free.
    fn free(&self) -> usize {
        (1..).find(|&number| !self.taken(number)).expect("a free number")
    }

    /// The last log that was set aside.
    pub(super) fn last_kept(&self) -> Option<OsString> {
        let logs = (1..self.free()).rev().map(|number| self.numbered(&self.log, number));
        logs.into_iter().find(|log| Place::has(log))
    }

    /// Gives names that are there the first number that is free; that number.
    pub(super) fn keep(&self, names: &[OsString]) -> Result<usize, Stop> {
        let number = self.free();
        for name in names.iter().filter(|name| Place::has(name)) {
            fs::rename(name, self.numbered(name, number)).map_err(self.system("rename", name))?;
        }
        Ok(number)
    }

    /// The name that the old log would be kept under; none where there is none.
    pub fn would_keep(&self) -> Option<String> {
        Place::has(&self.log).then(|| self.shown(&self.numbered(&self.log, self.free())))
    }

    /// Keeps the old log, and all that is left of a step that was cut off, under names that are free, and says which.
    pub fn set_aside(&self, output: &mut Output) -> Result<(), Stop> {
        if [&self.new, &self.next, &self.log].iter().all(|name| !Place::has(name)) {
            return Ok(());
        }
        // a second name of the file itself is what is left of a rename, and nothing to keep
        if self
            .read(&self.new, false)
            .is_ok_and(|new| Some(new.number()) == self.read(&self.file, false).ok().map(|file| file.number()))
        {
            self.remove(&self.new)?;
        }
        // the log goes last, and after the others are durable: without it they would be taken for a first step's
        let number = self.keep(&[self.new.clone(), self.next.clone()])?;
        self.sync_before()?;
        let log = self.numbered(&self.log, number);
        if Place::has(&self.log) {
            fs::rename(&self.log, &log).map_err(self.system("rename", &self.log))?;
        }
        self.sync_before()?;
        output.message(format_args!("the old log is kept as {}", self.shown(&log)));
        Ok(())
    }
}
