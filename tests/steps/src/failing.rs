//! Calls that fail, and a disk that is full.

use crate::book::words;
use crate::command::Cut;
use crate::folder::{build, read, State, FILE, LOG, NEW, NEXT};
use crate::jobs::CASES;
use crate::model::{report, Issued, Known, Words};
use crate::tests::{history, Tests};
use std::fs;
use std::process::{Command, Stdio};

/// ENOSPC, EIO, EACCES, EROFS.
const ERRORS: [i32; 4] = [28, 5, 13, 30];

impl Tests {
    /// Every call fails, in turn; and the disk is full from a call on.
    fn failing(&mut self, name: &str, base: &State, prior: &[&str], step: &str, before: &Issued) {
        let prior: Vec<Words> = prior.iter().map(|step| words(step)).collect();
        let step = words(step);
        let ways = [("full", 0)].into_iter().chain(ERRORS.map(|errno| ("fail", errno)));
        for (how, errno) in ways {
            for at in 1.. {
                self.build("work", base);
                let ran = self.run("work", &step, &Cut { at, how, errno, ..Cut::default() });
                if ran.calls < at {
                    break;
                }
                self.count("calls that failed", 1);
                let state = self.state("work");
                let what = format!("{name}: {}, {how} {errno} at call {at}", step.join(" "));
                let mut issued = before.clone();
                issued.push((step.clone(), Known::Maybe));
                report(&mut issued, &ran.out, true);
                report(&mut issued, &ran.err, true);
                let last = issued.len() - 1;
                if ran.err.contains("could not be finished") {
                    issued[last].1 = Known::Unfinished;
                } else if ran.status == Some(3) && issued[last].1 != Known::Made {
                    issued[last].1 = Known::Dropped;
                    self.untouched(&ran.err, base, &state, before, &what);
                } else if issued[last].1 != Known::Made {
                    self.fail(format!("{what}: {ran:?}"));
                }
                self.check(&state, &prior, &issued, &what);
            }
        }
    }

    /// Nothing is changed: the folder is as before, or what is left over is told.
    fn untouched(&mut self, said: &str, base: &State, state: &State, before: &Issued, what: &str) {
        let tidy = !before.is_empty() || state == base || said.contains("left over");
        if state[FILE].1 != base[FILE].1 || !tidy || !said.contains("nothing is changed") {
            self.fail(format!("{what}: something is changed, or not told: {said}"));
        }
    }

    /// All steps, also where one was cut off before, on either side.
    pub fn failing_calls(&mut self, cases: &[usize]) {
        for &case in cases {
            let (name, prior, step) = CASES[case];
            let base = self.base(prior);
            self.failing(name, &base, prior, step, &vec![]);
            let made = self.base(&[prior, &[step]].concat());
            if !base.contains_key(LOG) || case > 1 {
                continue;
            }
            for file in [&base[FILE], &made[FILE]] {
                let mut cut = base.clone();
                cut.insert(FILE.into(), (0, file.1.clone()));
                cut.insert(LOG.into(), (1, base[LOG].1.clone()));
                cut.insert(NEXT.into(), (2, made[LOG].1.clone()));
                cut.insert(
                    NEW.into(),
                    (3, if file == &base[FILE] { made[FILE].1.clone() } else { base[FILE].1.clone() }),
                );
                let issued = vec![(words(step), Known::Maybe)];
                self.failing(&format!("{name}, cut off, then"), &cut, prior, "rename @0 AGAIN", &issued);
            }
        }
    }

    /// A disk that is really full: a small tmpfs with room for some pages more.
    pub fn full_disk(&mut self) {
        let disk = self.folder.join("disk");
        let _ = fs::create_dir(&disk);
        for free in 0..8 {
            for prior in [vec![], vec!["rename @0 417"]] {
                let base = self.base(&prior);
                let mount = Command::new("mount")
                    .args(["-t", "tmpfs", "-o", "size=64k", "none"])
                    .arg(&disk)
                    .stderr(Stdio::null())
                    .status();
                if !mount.is_ok_and(|status| status.success()) {
                    println!("  no mount possible: the full disk is tried with the injector only");
                    return;
                }
                let folder = disk.join("work");
                build(&folder, &base);
                let _ = fs::write(disk.join("filler"), vec![1; 4096 * (16 - base.len() - free)]);
                let before = read(&folder);
                let ran = self.run("disk/work", &words("delete @46"), &Cut::default());
                let state = read(&folder);
                self.count("runs on a full disk", 1);
                match ran.status {
                    Some(0) if free >= 2 => {}
                    Some(3) if state == before && ran.err.contains("No space left") => {
                        self.count("of these refused", 1)
                    }
                    _ => self.fail(format!("full disk, {free} pages: {ran:?}")),
                }
                let _ = fs::remove_file(disk.join("filler"));
                let next = self.run("disk/work", &history(), &Cut::default());
                if !next.good() || !next.err.is_empty() {
                    self.fail(format!("full disk, {free} pages: the next command: {next:?}"));
                }
                // the command's folder is this process's own, and it would keep the disk
                std::env::set_current_dir("/").unwrap();
                Command::new("umount").arg(&disk).status().unwrap();
            }
        }
    }
}
