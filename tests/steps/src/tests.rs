//! One folder that was found, checked: all that is promised of it.

use crate::book::{self, standing, words};
use crate::command::{Cut, Ran, Runner};
use crate::folder::{build, read, shape, Dress, Inode, State, FILE, LOG, NEW, NEXT};
use crate::model::{Issued, Known, Words};
use std::collections::{BTreeMap, HashMap, HashSet};
use std::fs;
use std::hash::{DefaultHasher, Hash, Hasher};
use std::path::PathBuf;

/// Another program changed the file.
pub const CHANGED: &str = "was changed by another program";

pub struct Tests {
    pub runner: Runner,
    pub folder: PathBuf,
    pub original: Vec<u8>,
    pub dress: Dress,
    pub owner: (u32, u32),
    /// What was checked, by numbers made of it.
    pub checked: HashSet<u64>,
    pub failures: Vec<String>,
    pub counts: BTreeMap<&'static str, usize>,
    pub runs: usize,
    /// Of what may be found after a loss of power just some is tried.
    pub thin: bool,
    /// Files after lists of steps, each made once.
    pub files: HashMap<Vec<Words>, Option<Vec<u8>>>,
}

/// A number made of anything.
pub fn number(of: &impl Hash) -> u64 {
    let mut hasher = DefaultHasher::new();
    of.hash(&mut hasher);
    hasher.finish()
}

/// The steps that `history --tsv` printed.
pub fn listed(ran: &Ran) -> Vec<Words> {
    ran.out.lines().map(|line| words(line.split('\t').nth(8).unwrap_or(""))).collect()
}

pub fn history() -> Words {
    words("history --tsv")
}

impl Tests {
    pub fn count(&mut self, what: &'static str, more: usize) {
        *self.counts.entry(what).or_default() += more;
    }

    /// With a sync left out, some failures are enough.
    pub fn enough(&self) -> bool {
        self.runner.omit.is_some() && self.failures.len() >= 3
    }

    /// The file after a list of steps, by the second reader.
    pub fn after(&mut self, steps: &[Words]) -> Option<Vec<u8>> {
        if let Some(file) = self.files.get(steps) {
            return file.clone();
        }
        let file = book::after(&self.original, steps);
        self.files.insert(steps.to_vec(), file.clone());
        file
    }

    pub fn fail(&mut self, text: String) {
        self.failures.push(text);
    }

    pub fn run(&mut self, folder: &str, command: &[String], cut: &Cut) -> Ran {
        self.runs += 1;
        self.runner.run(&self.folder.join(folder).join(FILE), command, cut)
    }

    pub fn plain(&mut self, folder: &str, command: &str) -> Ran {
        self.run(folder, &words(command), &Cut::default())
    }

    pub fn state(&self, folder: &str) -> State {
        read(&self.folder.join(folder))
    }

    pub fn build(&self, folder: &str, state: &State) {
        build(&self.folder.join(folder), state);
    }

    /// The file after some steps that were made in full.
    pub fn base(&mut self, prior: &[&str]) -> State {
        let inode = Inode { data: self.original.clone(), dress: self.dress.clone() };
        self.build("base", &State::from([(FILE.to_string(), (0, inode))]));
        let omit = self.runner.omit.take();
        for step in prior {
            let ran = self.plain("base", step);
            assert!(ran.good(), "{step}: {ran:?}");
        }
        self.runner.omit = omit;
        self.state("base")
    }

    /// All lists of steps that may be found.
    fn allowed(prior: &[Words], issued: &Issued) -> Vec<Vec<Words>> {
        let mut lists = vec![prior.to_vec()];
        for (step, known) in issued {
            let with: Vec<Vec<Words>> = lists.iter().map(|list| [list.clone(), vec![step.clone()]].concat()).collect();
            match known {
                Known::Made | Known::Unfinished => lists = with,
                Known::Dropped => {}
                Known::Maybe => lists.extend(with),
            }
        }
        lists
    }

    /// One folder that was found after a cut: all that is promised of it.
    pub fn check(&mut self, state: &State, prior: &[Words], issued: &Issued, what: &str) {
        if self.enough() || !self.checked.insert(number(&(state, issued, prior))) {
            return;
        }
        if let Err(why) = self.check_all(state, prior, issued) {
            self.fail(format!("{what}: {why} [{}]", shape(state)));
        }
    }

    fn check_all(&mut self, state: &State, prior: &[Words], issued: &Issued) -> Result<(), String> {
        let lists = Self::allowed(prior, issued);
        // the file is whole, with its mode, owner and attributes
        let Some((_, file)) = state.get(FILE) else { return Err("the file is gone".into()) };
        if !lists.iter().any(|list| self.after(list).as_ref() == Some(&file.data)) {
            return Err("the file is neither as before nor as after".into());
        }
        if file.dress != self.dress {
            return Err(format!(
                "the file has mode {:o}, owner {} {}, or other attributes",
                file.dress.mode, file.dress.user, file.dress.group
            ));
        }
        // a dry run touches nothing
        self.build("check", state);
        let ran = self.plain("check", "rename --dry-run @0 DRY");
        if !ran.good() || self.state("check") != *state {
            return Err(format!("a dry run: {} {}", ran.err.trim(), shape(&self.state("check"))));
        }
        let (found, stays) = self.recovered(state, prior, issued, &lists)?;
        self.undone(&found)?;
        // the same where the next command is a step
        self.build("check", state);
        let ran = self.plain("check", "rename @0 DIRECT");
        let now = self.state("check");
        let list = [found.clone(), vec![words("rename @0 DIRECT")]].concat();
        if !ran.good() || now.len() != 2 + stays.len() || self.after(&list) != Some(now[FILE].1.data.clone()) {
            return Err(format!("the next command, a step, fails: {}", ran.err.trim()));
        }
        for name in stays {
            let kept = name.replace(LOG, &format!("{LOG}.1"));
            if now.get(&kept).map(|kept| &kept.1) != Some(&state[name].1) || !ran.err.contains(&kept) {
                return Err(format!("{name} is not kept: {}", ran.err.trim()));
            }
        }
        if state.contains_key(LOG) {
            self.changed(state, issued, &found)?;
        }
        Ok(())
    }

    /// The next command brings file and log in step, says what became of the step, and leaves the file alone. A name that it does
    /// not know as its own, since what it holds was never synced, stays and is told.
    fn recovered(
        &mut self,
        state: &State,
        prior: &[Words],
        issued: &Issued,
        lists: &[Vec<Words>],
    ) -> Result<(Vec<Words>, Vec<&'static str>), String> {
        let file = &state[FILE].1;
        let ran = self.run("check", &history(), &Cut::default());
        if !ran.good() {
            return Err(format!("the next command stops: {}", ran.err.trim()));
        }
        let found = listed(&ran);
        if !lists.contains(&found) {
            return Err(format!("the log has the steps {found:?}, issued were {issued:?}"));
        }
        let settled = self.state("check");
        if settled[FILE].1 != *file {
            return Err("the next command wrote the file".into());
        }
        if self.after(&found).as_ref() != Some(&file.data) {
            return Err(format!("file and log are not in step: {found:?}"));
        }
        let stays: Vec<&'static str> = [NEW, NEXT].into_iter().filter(|name| settled.contains_key(*name)).collect();
        for name in &stays {
            let told = ran.err.contains(&format!("{name} is not known as a file of dgn: it stays"));
            // a log, or the beginning of one, is known; and so is the file beside it
            let known = settled.get(NEXT).map_or(state.contains_key(NEXT), |next| {
                next.1.data.is_empty() || next.1.data.starts_with(b"DGNLOG 1")
            });
            if !told || known || settled[*name].1 != state[*name].1 {
                return Err(format!("left over: {name}: {}", ran.err));
            }
            self.count("names with bytes that were never synced, kept", 1);
        }
        let rest = settled.len() - stays.len();
        if rest != 1 + settled.contains_key(LOG) as usize || (!settled.contains_key(LOG) && !found.is_empty()) {
            return Err(format!("left over: {:?}", settled.keys()));
        }
        if settled.get(LOG).is_some_and(|log| log.1.dress != self.dress) {
            return Err("the log has another mode, owner or attribute than the file".into());
        }
        let (completed, dropped) = (ran.err.contains("completed:"), ran.err.contains("dropped:"));
        if (completed && found.len() == prior.len()) || (dropped && found.len() == prior.len() + issued.len()) {
            return Err(format!("it says {}, the log has {found:?}", ran.err));
        }
        // where a step was under way, it says what became of it; else it says nothing
        let log = state.get(LOG);
        let entry = |name: &'static str| state.get(name).filter(|_| !stays.contains(&name));
        let under_way = entry(NEXT).is_some_and(|next| log.is_none_or(|log| log.1.data != next.1.data))
            || (log.is_none() && entry(NEW).is_some());
        if under_way != (completed || dropped) {
            return Err(format!("a step under way: {under_way}, it says {:?}", ran.err));
        }
        let again = self.run("check", &history(), &Cut::default());
        if !again.good()
            || again.err.is_empty() != stays.is_empty()
            || listed(&again) != found
            || self.state("check") != settled
        {
            return Err("the command after it finds something again".into());
        }
        Ok((found, stays))
    }

    /// All undone gives the first file; then nothing is left to undo, and a step can be made.
    fn undone(&mut self, found: &[Words]) -> Result<(), String> {
        let count = standing(found);
        for _ in 0..count {
            let ran = self.plain("check", "undo");
            if !ran.good() {
                return Err(format!("undo stops: {}", ran.err.trim()));
            }
        }
        if fs::read(self.folder.join("check").join(FILE)).unwrap() != self.original {
            return Err("all undone, and the file is not the first one".into());
        }
        if !self.plain("check", "undo").refused("17 NOTHING") {
            return Err("undo of nothing is not refused".into());
        }
        match self.plain("check", "rename @0 LAST").good() {
            true => Ok(()),
            false => Err("no step can be made".into()),
        }
    }

    /// Another program changes the file meanwhile: refused, and nothing is touched.
    fn changed(&mut self, state: &State, issued: &Issued, found: &[Words]) -> Result<(), String> {
        let file = &state[FILE].1.data;
        let mut flipped = file.clone();
        *flipped.last_mut().unwrap() ^= 1;
        let mut others = vec![flipped, vec![]];
        // where all was reported: also every file that stood there before
        if issued.iter().all(|step| step.1 == Known::Made) {
            let before: Vec<_> = (0..found.len()).filter_map(|k| self.after(&found[..k])).collect();
            others.extend(before.into_iter().filter(|before| before != file));
        }
        for other in others {
            let mut changed = state.clone();
            let number = changed[FILE].0;
            changed.values_mut().filter(|entry| entry.0 == number).for_each(|entry| entry.1.data = other.clone());
            self.build("check", &changed);
            let commands: &[&str] =
                if other.len() == file.len() { &["history", "rename @0 OTHER"] } else { &["history"] };
            for command in commands {
                let ran = self.plain("check", command);
                self.count("foreign changes tried", 1);
                let touched = self.state("check") != changed;
                if !ran.refused(CHANGED) || touched {
                    let note = if touched { "; something was touched" } else { "" };
                    return Err(format!("a changed file: status {:?}, {}{note}", ran.status, ran.err.trim()));
                }
            }
        }
        Ok(())
    }
}
