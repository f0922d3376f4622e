//! Links, modes, owners, attributes, the lock, permissions, and what is no file.

use crate::book::{self, words};
use crate::command::{Cut, Ran};
use crate::folder::{State, FILE, LOG, NEW, NEXT};
use crate::model::Words;
use crate::tests::{history, listed, Tests};
use std::ffi::OsString;
use std::fs::{self, File};
use std::os::unix::fs::{symlink, PermissionsExt};
use std::path::PathBuf;
use std::process::{Command, Stdio};

impl Tests {
    pub fn arguments(&mut self, arguments: &[&str]) -> Ran {
        self.runs += 1;
        self.runner.arguments(arguments.iter().map(OsString::from).collect(), &Cut::default())
    }

    /// Counts a check, and a failure where it does not hold.
    pub fn expect(&mut self, what: &'static str, holds: bool, told: impl std::fmt::Debug) {
        self.count("checks of the surroundings", 1);
        if !holds {
            self.fail(format!("{what}: {told:?}"));
        }
    }

    pub fn surroundings(&mut self) {
        let base = self.base(&[]);
        let other = self.folder.join("other");
        let _ = fs::remove_dir_all(&other);
        fs::create_dir(&other).unwrap();
        self.links(&base, &other);
        self.dresses(&base);
        self.lock(&base);
        self.refusals(&base);
        if self.owner.0 == 0 {
            self.permissions();
        }
        self.inputs(&base);
    }

    /// A link is followed and said, a link in place of a name of ours is not; a second hard link is refused.
    fn links(&mut self, base: &State, other: &PathBuf) {
        self.build("work", base);
        let folder = self.folder.join("work");
        symlink("../work/a.dgn", other.join("b.dgn")).unwrap();
        symlink("b.dgn", other.join("c.dgn")).unwrap();
        for (link, name) in [("b.dgn", "B"), ("c.dgn", "C")] {
            let ran = self.arguments(&["rename", other.join(link).to_str().unwrap(), "@0", name]);
            let state = self.state("work");
            let stays = fs::symlink_metadata(other.join(link)).unwrap().is_symlink()
                && fs::read_dir(other).unwrap().count() == 2;
            let said = ran.err.contains("is a link to") && ran.err.contains("/work/a.dgn");
            let made = ran.good() && state.len() == 2 && state.contains_key(LOG) && state[FILE] != base[FILE];
            self.expect("a symbolic link", made && stays && said, &ran);
        }
        fs::write(other.join("victim"), b"victim").unwrap();
        for (name, status) in [(LOG, 3), (NEXT, 0), (NEW, 0)] {
            self.build("work", base);
            symlink("../other/victim", folder.join(name)).unwrap();
            let ran = self.plain("work", "rename @0 X");
            let spared = fs::read(other.join("victim")).unwrap() == b"victim";
            self.expect("a link in place of a name of ours", spared && ran.status == Some(status), &ran);
        }
        self.build("work", base);
        fs::hard_link(folder.join(FILE), other.join("second")).unwrap();
        let before = self.state("work");
        let ran = self.plain("work", "rename @0 X");
        let untouched = self.state("work") == before;
        self.expect("a second hard link", ran.refused("has 2 names (hard links)") && untouched, &ran);
        fs::remove_file(other.join("second")).unwrap();
    }

    /// Mode, owner and attributes stay, also an access list.
    fn dresses(&mut self, base: &State) {
        let owners: &[(u32, u32)] =
            if self.owner.0 == 0 { &[(0, 0), (1234, 0), (0, 1234), (1234, 4321)] } else { &[self.owner] };
        // an access list in its stored form: owner rw, user 99 r, group r, mask r, others none
        let entries: [(u16, u16, u32); 5] =
            [(1, 6, u32::MAX), (2, 4, 99), (4, 4, u32::MAX), (16, 4, u32::MAX), (32, 0, u32::MAX)];
        let mut access = 2u32.to_le_bytes().to_vec();
        for (tag, rights, id) in entries {
            access.extend(tag.to_le_bytes().into_iter().chain(rights.to_le_bytes()).chain(id.to_le_bytes()));
        }
        for mode in [0o600, 0o640, 0o664, 0o755, 0o4755] {
            for &(user, group) in owners {
                for listed in [false, true] {
                    let mut state = base.clone();
                    let dress = &mut state.get_mut(FILE).unwrap().1.dress;
                    (dress.mode, dress.user, dress.group) = (mode, user, group);
                    if listed {
                        if mode != 0o640 || dress.attributes.is_empty() {
                            continue;
                        }
                        dress.attributes.insert("system.posix_acl_access".into(), access.clone());
                    }
                    let wanted = dress.clone();
                    self.build("work", &state);
                    let made = self.plain("work", "rename @0 X").good() && self.plain("work", "delete @46").good();
                    let now = self.state("work");
                    let kept = [FILE, LOG].iter().all(|name| now[*name].1.dress == wanted);
                    self.expect("mode, owner and attributes", made && kept, (&wanted, &now[FILE].1.dress));
                }
            }
        }
    }

    /// The lock, held by another.
    fn lock(&mut self, base: &State) {
        self.build("work", base);
        let folder = self.folder.join("work");
        let held = File::open(&folder).unwrap();
        held.lock().unwrap();
        let ran = self.plain("work", "rename --wait 0 @0 X");
        let untouched = self.state("work") == *base;
        self.expect("locked by another", ran.status == Some(3) && ran.err.contains("--wait") && untouched, &ran);
        drop(held);
    }

    /// Many commands at once.
    pub fn crowd(&mut self) {
        let base = &self.base(&[]);
        self.build("work", base);
        let folder = self.folder.join("work");
        let program = self.runner.program.clone().expect("the program");
        let command = |name: String| {
            let mut command = Command::new(&program);
            command
                .args(["rename", "--wait", "60"])
                .arg(folder.join(FILE))
                .args(["@0".to_string(), name])
                .stdin(Stdio::null());
            command.stdout(Stdio::piped()).stderr(Stdio::piped());
            command
        };
        let children: Vec<_> = (0..60).map(|k| command(format!("N{k}")).spawn().unwrap()).collect();
        let made = children
            .into_iter()
            .map(|child| child.wait_with_output().unwrap())
            .filter(|ran| ran.status.success())
            .count();
        let ran = self.run("work", &history(), &Cut::default());
        self.expect("60 commands at once", made == 60 && listed(&ran).len() == 60, &ran);
        // many commands at once, each killed somewhere: whatever was reported is there
        self.build("work", base);
        let killed = |k: usize| {
            let mut command = command(format!("K{k}"));
            command.env("LD_PRELOAD", env!("CUT_LIBRARY")).env("CUT_AT", (10 + k * 7 % 43).to_string());
            command.env("CUT_HOW", ["before", "after"][k % 2]).spawn().unwrap()
        };
        let children: Vec<_> = (0..100).map(killed).collect();
        let outs: Vec<_> = children.into_iter().map(|child| child.wait_with_output().unwrap()).collect();
        let ran = self.run("work", &history(), &Cut::default());
        let found: Vec<Words> = listed(&ran);
        let reported =
            outs.iter().enumerate().filter(|(_, out)| String::from_utf8_lossy(&out.stdout).contains(" made: "));
        let reported: Vec<_> = reported.map(|(k, _)| words(&format!("rename @0 K{k}"))).collect();
        let lost = reported.iter().filter(|step| !found.contains(step)).count();
        let state = self.state("work");
        let right = book::after(&self.original, &found).as_ref() == Some(&state[FILE].1.data) && state.len() == 2;
        self.expect("100 commands at once, killed", ran.good() && lost == 0 && right, &ran);
        println!(
            "  commands at once: 100, each with a kill at one of its calls: {} reported as made, {} in the log, {lost} lost",
            reported.len(),
            found.len()
        );
    }

    /// Refusals of the library, a step that would change no byte, other things than files: nothing is left behind.
    fn refusals(&mut self, base: &State) {
        let cases = [
            ("rename @46 X", 1, "18 NOT A CELL"),
            ("rename @0 00417", 1, "would change no byte"),
            ("rename @0 PUMP.1", 1, "is there already, at @124"),
            ("rename NONE X", 1, "there is no part NONE"),
            ("restore @0", 1, "14 ALREADY"),
            ("remove @7", 1, "no element begins at word 7"),
            ("undo", 1, "17 NOTHING"),
            ("undo 0", 2, "no number of edits"),
            ("rename @0 small", 2, "is no part code"),
            ("insert /dev/null", 3, "it is a device"),
            ("add --from /none CODE", 3, "cannot be read"),
            ("original -o /none/out", 1, "has no history"),
        ];
        for (command, status, why) in cases {
            self.build("work", base);
            let ran = self.plain("work", command);
            let untouched = self.state("work") == *base;
            self.expect("a refusal", ran.status == Some(status) && ran.err.contains(why) && untouched, (command, &ran));
        }
        self.build("work", base);
        let two = self.plain("work", "rename --allow-double @0 PUMP.1");
        let several = self.plain("work", "delete PUMP.1");
        self.expect("a code that names two cells", two.good() && several.refused("@0, @124"), &several);
        let folder = self.folder.to_str().unwrap().to_string();
        let missing = format!("{folder}/none.dgn");
        for path in [&folder, &missing] {
            let ran = self.arguments(&["rename", path, "@0", "X"]);
            self.expect("no file", matches!(ran.status, Some(1 | 3)) && ran.err.contains("nothing is changed"), &ran);
        }
        let log = format!("{folder}/work/{LOG}");
        let ran = self.arguments(&["rename", &log, "@0", "X"]);
        self.expect("the log itself", ran.status == Some(2), &ran);
    }

    /// As another user, and on a disk that is read-only.
    fn permissions(&mut self) {
        let folder = self.folder.join("work");
        for path in [&self.folder, self.folder.parent().unwrap()] {
            let _ = fs::set_permissions(path, fs::Permissions::from_mode(0o777));
        }
        let cases = [
            ("folder not writable", 0o755, 0o666),
            ("file not writable", 0o777, 0o644),
            ("file not readable", 0o777, 0o600),
            ("folder not readable", 0o711, 0o666),
            ("owner cannot be kept", 0o777, 0o666),
        ];
        for (what, dir_mode, file_mode) in cases {
            for prior in [vec![], vec!["rename @0 417"]] {
                let mut state = self.base(&prior);
                for (_, inode) in state.values_mut() {
                    (inode.dress.mode, inode.dress.user, inode.dress.group) = (file_mode, 0, 0);
                }
                self.build("work", &state);
                fs::set_permissions(&folder, fs::Permissions::from_mode(dir_mode)).unwrap();
                let ran = self.run("work", &words("delete @46"), &Cut { user: Some(65534), ..Cut::default() });
                let untouched = self.state("work") == state;
                self.expect(what, ran.status == Some(3) && untouched && ran.err.contains("nothing is changed"), &ran);
                if prior.is_empty() {
                    println!("  {what}: {}", ran.err.trim());
                }
            }
        }
        let state = self.base(&["rename @0 417"]);
        self.build("work", &state);
        let bind = |option: &str| {
            let status =
                Command::new("mount").args(["-o", option]).args([&folder, &folder]).stderr(Stdio::null()).status();
            status.is_ok_and(|status| status.success())
        };
        if bind("bind") {
            if bind("remount,bind,ro") {
                let (listed, ran) = (self.plain("work", "history"), self.plain("work", "delete @46"));
                let untouched = self.state("work") == state;
                self.expect("a read-only disk", listed.good() && ran.status == Some(3) && untouched, (&listed, &ran));
                println!("  read-only disk: {}", ran.err.trim());
            }
            std::env::set_current_dir("/").unwrap();
            Command::new("umount").arg(&folder).status().unwrap();
        }
    }
}
