//! All cuts of one step: killed at every call, power lost at every moment, and what comes after them.

use crate::book::words;
use crate::command::Cut;
use crate::folder::{shape, State, NEW, NEXT};
use crate::model::{report, Issued, Known, Model, Words};
use crate::tests::{history, number, Tests};
use std::collections::HashSet;
use std::fs;

impl Tests {
    /// Kills the command at every call. Gives every folder that was left, with the calls until then.
    pub fn kills(
        &mut self,
        base: &State,
        prior: &[Words],
        step: &Words,
        what: &str,
        counter: &'static str,
        before: &Issued,
    ) -> Vec<(State, Issued, Vec<String>)> {
        let mut left = Vec::new();
        for how in ["before", "after", "half"] {
            for at in 1.. {
                if self.enough() {
                    return left;
                }
                self.build("work", base);
                let _ = fs::remove_file(self.runner.record());
                let ran = self.run("work", step, &Cut { at, how, record: true, ..Cut::default() });
                if ran.status.is_some() {
                    break;
                }
                self.count(counter, 1);
                let mut issued = before.clone();
                let editing = step[0] != "history";
                if editing {
                    issued.push((step.clone(), Known::Maybe));
                }
                report(&mut issued, &ran.out, editing);
                report(&mut issued, &ran.err, editing);
                let state = self.state("work");
                self.check(&state, prior, &issued, &format!("{what}, killed {how} call {at}"));
                left.push((state, issued, self.runner.recorded()));
            }
        }
        left
    }

    /// Loses power at every call from number `from` on: checks every folder that may be found.
    pub fn power(
        &mut self,
        base: &State,
        prior: &[Words],
        before: &Issued,
        calls: &[String],
        from: usize,
        what: &str,
        counter: &'static str,
    ) -> Vec<(State, Issued)> {
        let folder = self.folder.join("work");
        let mut model = Model::new(&folder, base, before.clone(), self.owner);
        model.thin = self.thin;
        let mut found = Vec::new();
        let mut seen = HashSet::new();
        let real = self.state("work");
        for k in 0..=calls.len() {
            if self.enough() {
                return found;
            }
            if k >= from {
                for state in model.states() {
                    if seen.insert(number(&(&state, &model.issued))) {
                        self.count(counter, 1);
                        let last = if k == 0 { "the start" } else { &calls[k - 1] };
                        let last = last.chars().take(60).collect::<String>().replace(folder.to_str().unwrap(), "");
                        self.check(
                            &state,
                            prior,
                            &model.issued,
                            &format!("{what}, power lost after call {k} ({last})"),
                        );
                        found.push((state, model.issued.clone()));
                    }
                }
            }
            if k < calls.len() {
                model.feed(&calls[k]);
            }
        }
        // the replay, with all calls applied, is the folder that the commands left
        if model.folder() != real {
            self.fail(format!(
                "{what}: the replay [{}] differs from the folder [{}]",
                shape(&model.folder()),
                shape(&real)
            ));
        }
        self.count("replays compared with the folder that was left", 1);
        found
    }

    /// Records one command that runs to its end.
    pub fn calls(&mut self, base: &State, step: &Words) -> Vec<String> {
        self.build("work", base);
        let _ = fs::remove_file(self.runner.record());
        self.run("work", step, &Cut { record: true, ..Cut::default() });
        self.runner.recorded()
    }

    fn key(&self, base: &State, calls: &[String]) -> u64 {
        let mut model = Model::new(&self.folder.join("work"), base, vec![], self.owner);
        calls.iter().for_each(|call| model.feed(call));
        model.key()
    }

    /// Runs one more command where some were cut off, and loses power in it: nothing of the first ones is durable but what they
    /// synced.
    fn next_and_power(
        &mut self,
        base: &State,
        prior: &[Words],
        left: &State,
        calls: &[String],
        next: &Words,
        what: &str,
        counter: &'static str,
    ) {
        self.build("work", left);
        fs::write(self.runner.record(), calls.join("\n") + "\n").unwrap();
        self.run("work", next, &Cut { record: true, ..Cut::default() });
        let all = self.runner.recorded();
        self.power(base, prior, &Issued::new(), &all, calls.len() + 1, what, counter);
    }

    /// All cuts of one step. `deep` also cuts what comes after them.
    pub fn cuts(&mut self, name: &str, base: &State, prior: &[&str], step: &str, deep: bool) {
        let prior: Vec<Words> = prior.iter().map(|step| words(step)).collect();
        let (step, again) = (words(step), words("rename @0 AGAIN"));
        let what = format!("{name}: {}", step.join(" "));
        let none = Issued::new();
        let left = self.kills(base, &prior, &step, &what, "kills of a step", &none);
        let calls = self.calls(base, &step);
        let lost = self.power(base, &prior, &none, &calls, 1, &what, "states after loss of power in a step");
        let mut seen = HashSet::new();
        for (state, issued, calls) in &left {
            if self.enough() || !seen.insert(self.key(base, calls)) {
                continue;
            }
            for second in [&history(), &again] {
                let what = format!("{what}, killed, then {}", second.join(" "));
                self.next_and_power(
                    base,
                    &prior,
                    state,
                    calls,
                    second,
                    &what,
                    "states after a kill, the next command and loss of power in it",
                );
            }
            if !deep {
                continue;
            }
            // a kill, then a kill of the next command, then one more command and power lost in it
            let killed = format!("{what}, killed, then history");
            for (state, _, more) in self.kills(state, &prior, &history(), &killed, "kills of a recovery", issued) {
                let two = [calls.clone(), more].concat();
                if seen.insert(self.key(base, &two)) {
                    let what = format!("{what}, killed, history, killed, then a step");
                    self.next_and_power(
                        base,
                        &prior,
                        &state,
                        &two,
                        &again,
                        &what,
                        "states after two kills, the next command and loss of power in it",
                    );
                }
            }
        }
        if !deep {
            return;
        }
        // recovery killed, and power lost in it, from every folder that may be found
        let firsts = left.into_iter().map(|(state, issued, _)| (state, issued)).chain(lost);
        for (state, issued) in firsts {
            if !(state.contains_key(NEXT) || state.contains_key(NEW)) || !seen.insert(number(&(&state, &issued))) {
                continue;
            }
            let what = format!("{what}, cut, then history");
            self.kills(&state, &prior, &history(), &what, "kills of a recovery", &issued);
            let calls = self.calls(&state, &history());
            self.power(&state, &prior, &issued, &calls, 1, &what, "states after loss of power in a recovery");
        }
    }
}
