//! Another program changes the file while a command is at work; and a new history is begun.

use crate::book::{self, words};
use crate::command::{Cut, Ran};
use crate::folder::{shape, State, FILE, LOG, NEW, NEXT};
use crate::model::Model;
use crate::tests::{Tests, CHANGED};
use dgn_command::disk::log::Log;
use std::fs;

const STEP: &str = "delete @46";

/// The number of the call by which the file is replaced, among those that are counted.
fn replaced_at(calls: &[String]) -> usize {
    let counted =
        calls.iter().filter(|call| !call.starts_with("B ") && !call.starts_with("P 2") && !call.starts_with("G "));
    let is_step = |call: &String| call.starts_with("X ") || (call.starts_with("R ") && call.ends_with(FILE));
    1 + counted.clone().position(is_step).expect("the call that makes the step")
}

impl Tests {
    fn foreign(&self, base: &State) -> Vec<u8> {
        let mut foreign = base[FILE].1.data.clone();
        *foreign.last_mut().unwrap() ^= 1;
        foreign
    }

    /// Runs the step; before a call another program writes.
    fn interrupted(&mut self, base: &State, foreign: &[u8], cut: Cut) -> Ran {
        self.build("work", base);
        let _ = fs::remove_file(self.runner.record());
        let (from, to) = (self.folder.join("foreign"), self.folder.join("work").join(FILE));
        fs::write(&from, foreign).unwrap();
        self.run("work", &words(STEP), &Cut { foreign: Some((from, to)), ..cut })
    }

    /// Before each call in turn: what another program wrote is there afterwards, and is seen by this command or by the next.
    pub fn meanwhile(&mut self) {
        let base = self.base(&["rename @0 417"]);
        let foreign = self.foreign(&base);
        let calls = self.calls(&base, &words(STEP));
        let (replaced, total) = (replaced_at(&calls), self.plain_count(&base));
        for how in ["over", "swap", "held"] {
            for at in 1..=total {
                let ran = self.interrupted(&base, &foreign, Cut { at, how, ..Cut::default() });
                let state = self.state("work");
                let next = self.plain("work", "history");
                self.count("changes by another program while a step is made", 1);
                let there = state[FILE].1.data == foreign;
                let only = state.len() == 2 && state[LOG].1 == base[LOG].1;
                if there && ran.refused(CHANGED) && only && next.refused(CHANGED) {
                    self.count("of these seen by the command", 1);
                } else if there && ran.good() && next.refused(CHANGED) {
                    self.count("of these seen by the next command", 1);
                } else if how == "held" && at > replaced && !there && ran.good() && next.good() {
                    self.count("of these to the old file, by a program that held it open, after it was replaced", 1);
                } else if self.runner.plain
                    && !there
                    && ran.good()
                    && next.good()
                    && at + 1 >= replaced
                    && at <= replaced
                {
                    self.count("of these overwritten, where names cannot be exchanged", 1);
                } else {
                    self.fail(format!("{how} at call {at} of {total}, replaced at {replaced}: {ran:?}, then {next:?}"));
                }
            }
        }
    }

    fn plain_count(&mut self, base: &State) -> usize {
        self.build("work", base);
        self.plain("work", STEP).calls
    }

    /// The same in the last moment, and the command killed later, or power lost: the next command puts the other program's file
    /// back.
    pub fn overtaken(&mut self) {
        let base = self.base(&["rename @0 417"]);
        let foreign = self.foreign(&base);
        let calls = self.calls(&base, &words(STEP));
        let replaced = replaced_at(&calls);
        for how in ["over", "swap", "held"] {
            for at in [replaced - 1, replaced, replaced + 1] {
                for kill in at + 1.. {
                    let ran = self.interrupted(&base, &foreign, Cut { at, how, kill, ..Cut::default() });
                    if ran.status.is_some() || self.enough() {
                        break;
                    }
                    self.count("kills after a change by another program", 1);
                    let state = self.state("work");
                    self.put_back(
                        &state,
                        &foreign,
                        &format!("{how} at call {at}, killed at {kill}, replaced at {replaced}"),
                    );
                }
            }
            // a call fails behind it
            for fail in replaced + 1.. {
                let ran =
                    self.interrupted(&base, &foreign, Cut { at: replaced, how, fail, errno: 5, ..Cut::default() });
                if ran.calls < fail || self.enough() {
                    break;
                }
                self.count("calls that failed after a change by another program", 1);
                let state = self.state("work");
                if !matches!(ran.status, Some(1 | 3)) {
                    self.fail(format!("{how} at call {replaced}, call {fail} failed: {ran:?}"));
                }
                self.put_back(&state, &foreign, &format!("{how} at call {replaced}, call {fail} failed"));
            }
            self.interrupted(&base, &foreign, Cut { at: replaced, how, record: true, ..Cut::default() });
            let calls = self.runner.recorded();
            let mut model = Model::new(&self.folder.join("work"), &base, vec![], self.owner);
            model.whole = true;
            let mut written = false;
            for call in &calls {
                model.feed(call);
                written |= call.starts_with("G ");
                if !written || self.enough() {
                    continue;
                }
                for state in model.states() {
                    self.count("states after loss of power behind a change by another program", 1);
                    self.put_back(
                        &state,
                        &foreign,
                        &format!("{how}, power lost after {}", call.chars().take(60).collect::<String>()),
                    );
                }
            }
            if model.folder() != self.state("work") && !self.enough() {
                self.fail(format!("{how}: the replay [{}] differs from the folder", shape(&model.folder())));
            }
        }
    }

    /// Another program changes the file twice in the last moment: both of its files are kept.
    pub fn overtaken_twice(&mut self) {
        let base = self.base(&["rename @0 417"]);
        let foreign = self.foreign(&base);
        let mut second = foreign.clone();
        second[200] ^= 3;
        let other = self.folder.join("second");
        fs::write(&other, &second).unwrap();
        let calls = self.calls(&base, &words(STEP));
        let replaced = replaced_at(&calls);
        for how in ["over", "swap"] {
            for later in replaced + 1..replaced + 4 {
                let again = Some((later, other.clone()));
                let ran = self.interrupted(&base, &foreign, Cut { at: replaced, how, again, ..Cut::default() });
                let state = self.state("work");
                let next = self.plain("work", "history");
                self.count("two changes by another program in the last moment", 1);
                let last = state[FILE].1.data == second && ran.refused(CHANGED);
                let both = state[FILE].1.data == foreign && state.get(NEW).is_some_and(|new| new.1.data == second);
                if !next.refused(CHANGED) || !(last || both && ran.err.contains(" twice, ") && ran.status == Some(3)) {
                    self.fail(format!("{how} at call {replaced}, again at {later}: {ran:?} [{}]", shape(&state)));
                }
                let renewed = self.plain("work", "rename --new-history @0 RENEW");
                let kept = self.state("work").values().any(|entry| entry.1.data == second);
                if !renewed.good() || !(last || kept) {
                    self.fail(format!("{how} at call {replaced}, again at {later}, then a new history: {renewed:?}"));
                }
            }
        }
    }

    /// Another program puts a file there that is larger than any that can be edited.
    pub fn overtaken_by_a_large_file(&mut self) {
        let base = self.base(&["rename @0 417"]);
        let large = vec![7; 3 << 19];
        let calls = self.calls(&base, &words(STEP));
        let replaced = replaced_at(&calls);
        for kill in [0, replaced + 1, replaced + 2] {
            let ran = self.interrupted(&base, &large, Cut { at: replaced, how: "swap", kill, ..Cut::default() });
            let next = self.plain("work", "history");
            self.count("large files of another program in the last moment", 1);
            let state = self.state("work");
            let refused = next.refused("has more than 1,048,576 bytes") && (kill > 0 || ran.status == Some(1));
            if !refused || state[FILE].1.data != large || state[LOG].1 != base[LOG].1 {
                self.fail(format!("a large file, killed at {kill}: {ran:?}, then {next:?} [{}]", shape(&state)));
            }
        }
    }

    /// The next command leaves the other program's file as the file, and refuses; so does the one after it.
    fn put_back(&mut self, state: &State, foreign: &[u8], what: &str) {
        self.build("check", state);
        let first = self.plain("check", "history");
        let settled = self.state("check");
        let second = self.plain("check", "undo");
        let good = first.refused(CHANGED) && second.refused(CHANGED);
        if !good || settled.get(FILE).is_none_or(|file| file.1.data != foreign) || self.state("check") != settled {
            self.fail(format!("{what}: {first:?} [{}] [{}]", shape(state), shape(&settled)));
            return;
        }
        let renewed = self.plain("check", "rename --new-history @0 RENEW");
        let now = self.state("check");
        let renamed = book::after(foreign, &[words("rename @0 RENEW")]);
        if !renewed.good() || Some(&now[FILE].1.data) != renamed.as_ref() || !now.contains_key(&format!("{LOG}.1")) {
            self.fail(format!("{what}: then a new history: {renewed:?} [{}]", shape(&now)));
        }
    }

    /// A new history is begun where a step was cut off and another program changed the file: whatever happens, all that stood there
    /// is kept, and the file is as before or as after.
    pub fn aside(&mut self) {
        let (mut base, made) = (self.base(&["rename @0 417"]), self.base(&["rename @0 417", STEP]));
        let foreign = self.foreign(&base);
        base.get_mut(FILE).unwrap().1.data.clone_from(&foreign);
        base.insert(NEW.into(), (7, made[FILE].1.clone()));
        base.insert(NEXT.into(), (8, made[LOG].1.clone()));
        let base = crate::folder::renumber(&base);
        let kept = [LOG, NEXT, NEW].map(|name| base[name].1.clone());
        let files =
            [Some(foreign.clone()), book::after(&foreign, &[words("rename @0 RENEW")])].map(|file| file.unwrap());
        self.kept_by(&base, &words("rename --new-history @0 RENEW"), &kept, &files, "a new history");
        // what another program wrote under the names of a step
        let mut base = self.base(&["rename @0 417"]);
        let files = [base[FILE].1.data.clone(), book::after(&base[FILE].1.data, &[words("rename @0 RENEW")]).unwrap()];
        for (number, name) in [(7, NEW), (8, NEXT)] {
            let inode = crate::folder::Inode { data: name.into(), dress: self.dress.clone() };
            base.insert(name.into(), (number, inode));
        }
        let base = crate::folder::renumber(&base);
        let kept = [NEXT, NEW].map(|name| base[name].1.clone());
        self.kept_by(&base, &words("rename @0 RENEW"), &kept, &files, "names of a step that others use");
    }

    /// Whatever is cut, all is kept.
    fn kept_by(
        &mut self,
        base: &State,
        step: &[String],
        kept: &[crate::folder::Inode],
        files: &[Vec<u8>; 2],
        what: &str,
    ) {
        for how in ["before", "after", "half"] {
            for at in 1.. {
                self.build("work", base);
                let ran = self.run("work", step, &Cut { at, how, ..Cut::default() });
                if ran.status.is_some() || self.enough() {
                    break;
                }
                self.count("kills while a new history is begun", 1);
                let state = self.state("work");
                self.kept(&state, kept, files, &format!("{what}, killed {how} call {at}"));
            }
        }
        let calls = self.calls(base, &step.to_vec());
        let mut model = Model::new(&self.folder.join("work"), base, vec![], self.owner);
        for call in &calls {
            model.feed(call);
            for state in model.states() {
                if !self.enough() {
                    self.count("states after loss of power while a new history is begun", 1);
                    let call = call.chars().take(60).collect::<String>();
                    self.kept(&state, kept, files, &format!("{what}, power lost after {call}"));
                }
            }
        }
    }

    fn kept(&mut self, state: &State, kept: &[crate::folder::Inode], files: &[Vec<u8>; 2], what: &str) {
        for command in ["history", "rename --new-history @46 X", "rename --new-history @0 SECOND"] {
            self.build("check", state);
            let ran = self.plain("check", command);
            let now = self.state("check");
            let all = kept.iter().all(|inode| now.values().any(|entry| entry.1 == *inode));
            let second = command.ends_with("SECOND");
            let file = state.get(FILE).is_some_and(|file| files.contains(&file.1.data) && file.1.dress == self.dress);
            // where the old log has another name and no step was made, that is said
            let begun = state.get(LOG).is_none_or(|log| {
                Log::decode(&log.1.data).is_ok_and(|log| log.steps.is_empty() && log.image == state[FILE].1.data)
            });
            let aside = begun && state.contains_key(&format!("{LOG}.1")) && command == "history";
            let told = !aside || ran.err.contains("the old log stands as");
            if !all || !file || !told || (second && !ran.good()) {
                self.fail(format!("{what}, then {command}: {ran:?} [{}] [{}]", shape(state), shape(&now)));
                return;
            }
        }
    }
}
