//! Runs the command with the injector of cut.c in between: in this process where nothing is cut, else in a child of it; or as the
//! program dgn.

use std::ffi::OsString;
use std::fs::{self, File};
use std::io::Write;
use std::os::fd::AsRawFd;
use std::os::unix::process::ExitStatusExt;
use std::path::{Path, PathBuf};
use std::process::{Command, Stdio};

extern "C" {
    fn fork() -> i32;
    fn waitpid(child: i32, status: *mut i32, flags: i32) -> i32;
    fn dup(from: i32) -> i32;
    fn dup2(from: i32, to: i32) -> i32;
    fn close(file: i32) -> i32;
    fn _exit(status: i32) -> !;
    fn setgid(group: u32) -> i32;
    fn setuid(user: u32) -> i32;
    fn setgroups(count: usize, groups: *const u32) -> i32;
    fn cut_start();
    fn cut_end();
}

/// What the injector does.
#[derive(Clone, Debug, Default)]
pub struct Cut {
    pub at: usize,
    pub how: &'static str,
    pub errno: i32,
    /// Calls are appended to the record.
    pub record: bool,
    pub kill: usize,
    pub fail: usize,
    /// The call before which another program writes once more, and what.
    pub again: Option<(usize, PathBuf)>,
    /// What another program writes, and where to.
    pub foreign: Option<(PathBuf, PathBuf)>,
    /// As another user.
    pub user: Option<u32>,
}

/// What a command did.
#[derive(Clone, Debug)]
pub struct Ran {
    /// Its status; none where it was killed.
    pub status: Option<i32>,
    pub out: String,
    pub err: String,
    /// How many calls were made.
    pub calls: usize,
}

impl Ran {
    pub fn good(&self) -> bool {
        self.status == Some(0)
    }

    pub fn refused(&self, why: &str) -> bool {
        self.status == Some(1) && self.err.contains(why)
    }
}

/// How commands are run.
#[derive(Clone, Debug)]
pub struct Runner {
    /// Where outputs and counts are kept.
    pub folder: PathBuf,
    /// The sync that is left out.
    pub omit: Option<String>,
    /// Without exchanged names.
    pub plain: bool,
    /// The program; none to run the command in a child of this process.
    pub program: Option<PathBuf>,
}

impl Runner {
    pub fn record(&self) -> PathBuf {
        self.folder.join("record")
    }

    /// The recorded calls.
    pub fn recorded(&self) -> Vec<String> {
        fs::read_to_string(self.record()).unwrap_or_default().lines().map(|line| line.to_string()).collect()
    }

    fn variables(&self, cut: &Cut) -> Vec<(&'static str, OsString)> {
        let mut variables: Vec<(&'static str, OsString)> = vec![("CUT_TIME", "1".into())];
        variables.push(("CUT_COUNT", self.folder.join("number").into()));
        if cut.at > 0 {
            variables.push(("CUT_AT", cut.at.to_string().into()));
            variables.push(("CUT_HOW", cut.how.into()));
            variables.push(("CUT_ERRNO", cut.errno.to_string().into()));
        }
        if cut.kill > 0 {
            variables.push(("CUT_KILL", cut.kill.to_string().into()));
        }
        if cut.fail > 0 {
            variables.push(("CUT_FAIL", cut.fail.to_string().into()));
        }
        if let Some((at, other)) = &cut.again {
            variables.push(("CUT_AGAIN", at.to_string().into()));
            variables.push(("CUT_OTHER", other.into()));
        }
        if let Some((from, to)) = &cut.foreign {
            variables.push(("CUT_FROM", from.into()));
            variables.push(("CUT_TO", to.into()));
        }
        if let Some(point) = &self.omit {
            variables.push(("CUT_OMIT", point.into()));
        }
        if self.plain {
            variables.push(("CUT_PLAIN", "1".into()));
        }
        if cut.record {
            variables.push(("CUT_LOG", self.record().into()));
        }
        variables
    }

    /// Runs a command on a file: its first word, the file, its other words.
    pub fn run(&self, file: &Path, words: &[String], cut: &Cut) -> Ran {
        if cut.record {
            let line = format!("B {}\n", words.join(" "));
            fs::write(self.record(), fs::read_to_string(self.record()).unwrap_or_default() + &line).unwrap();
        }
        let mut arguments: Vec<OsString> = vec![words[0].clone().into(), file.into()];
        arguments.extend(words[1..].iter().map(OsString::from));
        self.arguments(arguments, cut)
    }

    /// Runs the command with these arguments.
    pub fn arguments(&self, arguments: Vec<OsString>, cut: &Cut) -> Ran {
        let _ = fs::write(self.folder.join("number"), "0");
        let variables = self.variables(cut);
        let (status, out, err) = match &self.program {
            Some(program) => {
                let mut command = Command::new(program);
                command.args(arguments).envs(variables).env("LD_PRELOAD", env!("CUT_LIBRARY")).stdin(Stdio::null());
                let ran = command.output().unwrap();
                assert!(ran.status.code().is_some() || ran.status.signal() == Some(9), "{:?}", ran.status);
                (ran.status.code(), ran.stdout, ran.stderr)
            }
            None if cut.at == 0 && cut.kill == 0 && !cut.record && cut.user.is_none() => {
                self.here(arguments, variables)
            }
            None => self.child(arguments, variables, cut),
        };
        let calls = fs::read_to_string(self.folder.join("number")).unwrap().parse().unwrap_or(0);
        let text = |bytes: Vec<u8>| String::from_utf8_lossy(&bytes).into_owned();
        Ran { status, out: text(out), err: text(err), calls }
    }

    /// In this process, with its outputs turned to files. It has one thread, and knows all its files by whole names.
    fn here(
        &self,
        arguments: Vec<OsString>,
        variables: Vec<(&'static str, OsString)>,
    ) -> (Option<i32>, Vec<u8>, Vec<u8>) {
        let (out, err) = (self.folder.join("out"), self.folder.join("err"));
        let files = (File::create(&out).unwrap(), File::create(&err).unwrap());
        std::io::stdout().flush().unwrap();
        variables.iter().for_each(|(name, value)| std::env::set_var(name, value));
        let status = unsafe {
            let kept = (dup(1), dup(2));
            dup2(files.0.as_raw_fd(), 1);
            dup2(files.1.as_raw_fd(), 2);
            drop(files);
            cut_start();
            let status = std::panic::catch_unwind(|| dgn_command::run(arguments));
            cut_end();
            dup2(kept.0, 1);
            dup2(kept.1, 2);
            close(kept.0);
            close(kept.1);
            status
        };
        variables.iter().for_each(|(name, _)| std::env::remove_var(name));
        unsafe { cut_start() };
        (Some(status.map_or(101, i32::from)), fs::read(&out).unwrap(), fs::read(&err).unwrap())
    }

    fn child(
        &self,
        arguments: Vec<OsString>,
        variables: Vec<(&'static str, OsString)>,
        cut: &Cut,
    ) -> (Option<i32>, Vec<u8>, Vec<u8>) {
        let (out, err) = (self.folder.join("out"), self.folder.join("err"));
        let files = (File::create(&out).unwrap(), File::create(&err).unwrap());
        // this process has one thread, and the child does nothing but the command
        let child = unsafe { fork() };
        if child == 0 {
            unsafe {
                dup2(files.0.as_raw_fd(), 1);
                dup2(files.1.as_raw_fd(), 2);
                if let Some(user) = cut.user {
                    assert!(setgroups(0, std::ptr::null()) == 0 && setgid(user) == 0 && setuid(user) == 0);
                }
            }
            drop(files);
            variables.iter().for_each(|(name, value)| std::env::set_var(name, value));
            let status = std::panic::catch_unwind(|| {
                unsafe { cut_start() };
                dgn_command::run(arguments)
            });
            unsafe {
                cut_end();
                _exit(status.map_or(101, i32::from))
            }
        }
        drop(files);
        let mut status = 0;
        assert_eq!(unsafe { waitpid(child, &mut status, 0) }, child);
        let code = (status & 0x7f == 0).then_some(status >> 8 & 0xff);
        (code, fs::read(&out).unwrap(), fs::read(&err).unwrap())
    }
}
