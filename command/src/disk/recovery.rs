//! What the next command does with a step that was cut off: it is completed or dropped. docs/COMMAND.md has all states.

use crate::disk::log::Log;
use crate::disk::place::{Place, Seen, Stop};
use crate::disk::session::undone;
use crate::output::Output;
use dgn::system::exchange;
use std::ffi::{OsStr, OsString};
use std::fs;

/// A file and its log.
pub struct Session {
    /// The file.
    pub seen: Seen,
    /// Its log; none where there is none yet.
    pub log: Option<Log>,
    /// What is wrong where the file is not as the last step left it: another program changed it.
    pub changed: Option<String>,
}

/// A log without its file.
pub struct Alone {
    /// The log; none where there is none yet.
    pub log: Option<Log>,
    /// What is wrong where the file is not as the last step left it.
    pub changed: Option<String>,
    /// Whether the file is there.
    pub is_there: bool,
}

/// What stands there.
enum Verdict {
    /// File and log are in step.
    InStep,
    /// They are, and a name is left of a step that was settled before.
    Left,
    /// A step was cut off before it was made.
    Dropped(String),
    /// A step was cut off after it was made; its log.
    Completed(Log, String),
    /// A step was cut off when it had taken the place of a file that another program had just changed; the file of the step.
    Overtaken(Vec<u8>, String),
    /// Another program changed the file.
    Changed(String),
}

/// What is left under the names of a step.
struct Left {
    /// The bytes of the next log, where it begins as one.
    next: Option<Vec<u8>>,
    /// Whether there is a new file, and it is a step's: it stands beside a next log, or has bytes that a step leaves.
    new: bool,
    /// Names that are there and not known as a step's.
    others: Vec<OsString>,
}

/// All that stands there.
struct Looked {
    seen: Seen,
    log: Option<Log>,
    left: Left,
    verdict: Verdict,
}

impl Place {
    /// The log's content.
    fn log_of(&self) -> Result<Option<(Vec<u8>, Log)>, Stop> {
        let Some(bytes) = self.read_log(&self.log)? else { return Ok(None) };
        match Log::decode(&bytes) {
            Ok(log) => Ok(Some((bytes, log))),
            Err(why) => Err(Stop::Refused(format!(
                "{} is damaged: {why}; an edit with --new-history keeps it under another name and begins a new history",
                self.shown(&self.log)
            ))),
        }
    }

    /// What stands under the two names of a step, and which of it is a step's.
    fn left(&self, seen: &Seen, log: Option<&Log>) -> Result<Left, Stop> {
        let own = |name: &OsStr| fs::symlink_metadata(name).is_ok_and(|data| data.is_file());
        let next = if own(&self.next) { self.read_log(&self.next)?.filter(|bytes| Log::begins(bytes)) } else { None };
        let new = own(&self.new)
            && (next.is_some()
                || match self.read(&self.new, false) {
                    Ok(new) => new.number() == seen.number() || known(&new.bytes, seen, log),
                    Err(Stop::Refused(_)) => false,
                    Err(stop) => return Err(stop),
                });
        let mut others = Vec::new();
        for (name, is_own) in [(&self.new, new), (&self.next, next.is_some())] {
            if Place::has(name) && !is_own {
                others.push(name.clone());
            }
        }
        Ok(Left { next, new, others })
    }

    /// Looks at what stands there and judges it; touches nothing.
    fn look(&self, to_write: bool) -> Result<Looked, Stop> {
        let seen = self.read(&self.file, to_write)?;
        let found = self.log_of()?;
        let left = self.left(&seen, found.as_ref().map(|(_, log)| log))?;
        let Some((bytes, log)) = found else {
            let verdict = match left.next.is_some() || left.new {
                true => Verdict::Dropped("the first one".into()),
                false => Verdict::InStep,
            };
            return Ok(Looked { seen, log: None, left, verdict });
        };
        let decoded = left.next.as_deref().and_then(|next| Log::decode(next).ok());
        let following = decoded.filter(|next| log.followed_by(next));
        let words = |log: &Log| log.steps.last().map_or(String::new(), |step| step.shown());
        let verdict = if seen.bytes == log.image {
            match (&left.next, &following) {
                // a second name of the log is what is left of its rename
                (Some(next), _) if *next == bytes => Verdict::Left,
                (Some(_), Some(next)) => Verdict::Dropped(words(next)),
                (Some(_), None) => Verdict::Dropped("not yet written down".into()),
                (None, _) if left.new => Verdict::Left,
                (None, _) => Verdict::InStep,
            }
        } else {
            match following.filter(|next| next.image == seen.bytes) {
                Some(next) if self.came_back(&seen, &log)? => {
                    let words = words(&next);
                    Verdict::Overtaken(next.image, words)
                }
                Some(next) => {
                    let words = words(&next);
                    Verdict::Completed(next, words)
                }
                None => Verdict::Changed(self.told_change(&seen, &log)),
            }
        };
        Ok(Looked { seen, log: Some(log), left, verdict })
    }

    /// Whether the name of the new file holds something else than the file before the step: since the step was made by
    /// exchanging the two names, it is what another program wrote in the last moment.
    fn came_back(&self, seen: &Seen, log: &Log) -> Result<bool, Stop> {
        if !Place::has(&self.new) {
            return Ok(false);
        }
        match self.read(&self.new, false) {
            Ok(old) => Ok(old.number() != seen.number() && old.bytes != log.image),
            // too large, or no file at all: not the file before the step
            Err(Stop::Refused(_)) => Ok(true),
            Err(stop) => Err(stop),
        }
    }

    fn told_change(&self, seen: &Seen, log: &Log) -> String {
        let before = undone(&log.image, &log.journal, log.dimension, 1).is_ok_and(|(file, _)| file == seen.bytes);
        let hint = if before { " (it is as before the last step)" } else { "" };
        format!(
            "{} was changed by another program{hint}: it is not as the last step left it; an edit with --new-history keeps the old log \
            under another name and begins a new history with the file as it is",
            self.shown(&self.file)
        )
    }

    /// Brings file and log in step, and says what became of a step that was cut off. The file is never written; it is put back
    /// where another program had changed it just before the step. What is not known as a step's is never removed: with
    /// `to_write` it is kept under another name.
    pub fn settle(&self, to_write: bool, output: &mut Output) -> Result<Session, Stop> {
        // what is seen here may be in memory only: it has to be durable before anything follows from it
        self.sync_before()?;
        let Looked { seen, log, left, verdict } = self.look(to_write)?;
        let name = self.shown(&self.file);
        // the new log goes last: as long as it is there, the next command says it again
        let drop = || {
            if left.new {
                self.remove(&self.new)?;
            }
            if left.next.is_some() {
                self.remove(&self.next)?;
            }
            Ok(())
        };
        if let Verdict::Changed(changed) = verdict {
            return Ok(Session { seen, log, changed: Some(changed) });
        }
        self.spare(&left.others, to_write, output)?;
        match verdict {
            Verdict::InStep => {
                self.tell_old(log.as_ref(), output);
                return Ok(Session { seen, log, changed: None });
            }
            Verdict::Changed(_) => {}
            Verdict::Left => {
                drop()?;
                self.tell_old(log.as_ref(), output);
            }
            Verdict::Dropped(words) => {
                output.message(format_args!("dropped: a step was cut off ({words}); {name} is as before it"));
                drop()?;
                self.tell_old(log.as_ref(), output);
            }
            Verdict::Completed(next, words) => {
                self.remove(&self.new)?;
                fs::rename(&self.next, &self.log).map_err(self.system("rename", &self.next))?;
                self.sync_before()?;
                output.message(format_args!("completed: a step was cut off ({words}); {name} is as after it"));
                return Ok(Session { seen: self.read(&self.file, to_write)?, log: Some(next), changed: None });
            }
            Verdict::Overtaken(made, words) => {
                exchange(self.new.as_ref(), self.file.as_ref()).map_err(self.system("put back", &self.file))?;
                self.sync_before()?;
                output.message(format_args!(
                    "dropped: a step was cut off ({words}); {name} is as another program had left it before"
                ));
                // where the file was changed once more just now, that is kept
                if self.read(&self.new, false)?.bytes == made {
                    self.remove(&self.new)?;
                    self.remove(&self.next)?;
                }
            }
        }
        // a second name of the file, now gone, made it look like one with hard links
        let seen = self.read(&self.file, to_write)?;
        let changed = log.as_ref().filter(|log| log.image != seen.bytes).map(|log| self.told_change(&seen, log));
        Ok(Session { seen, log, changed })
    }

    /// The log for a command that reads nothing else. Where the file cannot be read there is just the log, with what is wrong.
    pub fn log_alone(&self, output: &mut Output) -> Result<Alone, Stop> {
        let changed = match Place::has(&self.file) {
            false => format!("{} is not there", self.shown(&self.file)),
            true => match self.read(&self.file, false) {
                Err(Stop::Refused(why)) => format!("{why}: it is not as the last step left it"),
                _ => {
                    let Session { log, changed, .. } = self.settle(false, output)?;
                    return Ok(Alone { log, changed, is_there: true });
                }
            },
        };
        match self.log_of()? {
            Some((_, log)) => Ok(Alone { log: Some(log), changed: Some(changed), is_there: Place::has(&self.file) }),
            None if Place::has(&self.file) => Err(Stop::Refused(changed)),
            None => Err(Stop::System(format!("{changed}, and no log of it"))),
        }
    }

    /// Says of names that are not known as a step's that they stay; with `to_write` gives them others.
    fn spare(&self, names: &[OsString], to_write: bool, output: &mut Output) -> Result<(), Stop> {
        if names.is_empty() {
            return Ok(());
        }
        let kept = if to_write { Some(self.keep(names)?) } else { None };
        if to_write {
            self.sync_before()?;
        }
        for name in names {
            let what = format!("{} is not known as a file of dgn", self.shown(name));
            match kept {
                Some(kept) => {
                    output.message(format_args!("{what}: it is kept as {}", self.shown(&self.numbered(name, kept))))
                }
                None => output.message(format_args!("{what}: it stays, and the next edit keeps it under another name")),
            }
        }
        Ok(())
    }

    /// Where the log has no step, an older one was set aside and the first step of the new history was not made.
    fn tell_old(&self, log: Option<&Log>, output: &mut Output) {
        if let Some(old) = self.last_kept().filter(|_| log.is_none_or(|log| log.steps.is_empty())) {
            output.message(format_args!(
                "{}: no step was made since a new history was begun; the old log stands as {}",
                self.shown(&self.file),
                self.shown(&old)
            ));
        }
    }

    /// What [`settle`](Place::settle) would bring about, for a command that changes nothing.
    pub fn foresee(&self, output: &mut Output) -> Result<Session, Stop> {
        let Looked { seen, log, left, verdict } = self.look(true)?;
        for other in &left.others {
            output.message(format_args!(
                "{} is not known as a file of dgn: it would be kept under another name",
                self.shown(other)
            ));
        }
        let (log, changed) = match verdict {
            Verdict::InStep | Verdict::Left => (log, None),
            Verdict::Dropped(words) => {
                output.message(format_args!("a step was cut off ({words}): the next command drops it"));
                (log, None)
            }
            Verdict::Completed(next, words) => {
                output.message(format_args!("a step was cut off ({words}): the next command completes it"));
                (Some(next), None)
            }
            Verdict::Overtaken(_, words) => {
                output.message(format_args!("a step was cut off ({words}): the next command drops it"));
                let changed = format!("{} was changed by another program", self.shown(&self.file));
                (log, Some(changed))
            }
            Verdict::Changed(changed) => (log, Some(changed)),
        };
        Ok(Session { seen, log, changed })
    }
}

/// Whether bytes under the name of the new file are those of a step: none yet, a first sector not yet written, or the file
/// before or after the last step.
fn known(new: &[u8], seen: &Seen, log: Option<&Log>) -> bool {
    let is_blank = new.iter().take(512).all(|&byte| byte == 0);
    let before = |log: &Log| undone(&log.image, &log.journal, log.dimension, 1).is_ok_and(|(file, _)| file == new);
    is_blank || new == seen.bytes || log.is_some_and(|log| new == log.image || before(log))
}
