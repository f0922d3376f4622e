//! The jobs, some at a time, each a process of its own.

use crate::book::sample;
use crate::command::Runner;
use crate::folder::Dress;
use crate::tests::Tests;
use dgn::system;
use std::collections::{BTreeMap, HashMap, HashSet};
use std::ffi::OsStr;
use std::fs::{self, File};
use std::os::unix::fs::MetadataExt;
use std::path::{Path, PathBuf};
use std::process::Command;
use std::sync::atomic::{AtomicUsize, Ordering};
use std::sync::Mutex;
use std::time::Instant;

/// The steps that are cut: what stands before, and the step.
pub const CASES: [(&str, &[&str], &str); 7] = [
    ("first step", &[], "rename @0 417"),
    ("second step", &["rename @0 417"], "delete @46"),
    ("undo", &["rename @0 417", "delete @46"], "undo"),
    ("undo of the only step", &["rename @0 417"], "undo"),
    ("remove", &["rename @0 417"], "remove @46"),
    ("undo of a remove", &["rename @0 417", "remove @46"], "undo"),
    ("undo of two", &["rename @0 417", "remove @46"], "undo 2"),
];

/// The points, by their names in docs/COMMAND.md: syncs, and the order of other calls. Last that nothing is left out.
const POINTS: [&str; 15] = [
    "begin",
    "dress-before-fsync",
    "file-before-log",
    "sync-start",
    "fsync-begin",
    "fsync-next",
    "fsync-new",
    "sync-before",
    "sync-after",
    "sync-end",
    "sync-completed",
    "sync-back",
    "sync-aside",
    "sync-aside-log",
    "none",
];

/// The jobs of the gate, or all that there are; the longest first.
fn jobs(all: bool) -> Vec<String> {
    let mut jobs = vec!["random".to_string()];
    if all {
        jobs.extend((0..CASES.len()).map(|case| format!("deep {case}")));
        jobs.extend((0..CASES.len()).map(|case| format!("plain {case}")));
        jobs.extend((0..CASES.len()).map(|case| format!("program {case}")));
    } else {
        jobs.extend(["cuts 0", "cuts 1"].map(String::from));
        jobs.extend((0..CASES.len()).map(|case| format!("thin deep {case}")));
        jobs.extend(["thin plain 1", "program 1"].map(String::from));
    }
    let others = [
        "failing 0",
        "failing 1",
        "failing 5",
        "damage",
        "meanwhile",
        "meanwhile plain",
        "overtaken",
        "aside",
        "full",
        "large",
        "surroundings",
    ];
    jobs.extend(others.map(String::from));
    jobs.extend(POINTS.map(|point| format!("without {point}")));
    jobs
}

fn tests(folder: &Path) -> Tests {
    fs::create_dir_all(folder).unwrap();
    let data = fs::metadata(folder).unwrap();
    let owner = (data.uid(), data.gid());
    let (user, group) = if owner.0 == 0 { (1234, 4321) } else { owner };
    let probe = folder.join("probe");
    let named = ("user.part".to_string(), b"of a library".to_vec());
    let has = system::set_attribute(&File::create(&probe).unwrap(), OsStr::new(&named.0), &named.1).is_ok();
    let attributes = if has { BTreeMap::from([named]) } else { BTreeMap::new() };
    Tests {
        runner: Runner { folder: folder.into(), omit: None, plain: false, program: None },
        folder: folder.into(),
        original: sample(3),
        dress: Dress { mode: 0o640, user, group, attributes },
        owner,
        checked: HashSet::new(),
        failures: vec![],
        counts: BTreeMap::new(),
        runs: 0,
        thin: false,
        files: HashMap::new(),
    }
}

/// All cuts of a case.
fn cuts(tests: &mut Tests, case: usize, deep: bool) {
    let (name, prior, step) = CASES[case];
    let base = tests.base(prior);
    tests.cuts(name, &base, prior, step, deep);
}

/// The test that a point is needed: without it a test fails.
fn without(tests: &mut Tests, point: &str) {
    tests.runner.omit = Some(point.into());
    match point {
        "sync-back" => tests.overtaken(),
        "sync-aside" | "sync-aside-log" => tests.aside(),
        "begin" | "fsync-begin" => cuts(tests, 0, false),
        // nothing is left out, and nothing may fail: so it is the point that the tests miss
        "none" => tests.cuts_of_second_step(),
        _ => cuts(tests, 1, false),
    }
}

impl Tests {
    fn cuts_of_second_step(&mut self) {
        let base = self.base(CASES[1].1);
        let (prior, step) = (vec![crate::book::words(CASES[1].1[0])], crate::book::words(CASES[1].2));
        self.kills(&base, &prior, &step, "second step", "kills of a step", &vec![]);
    }
}

/// One job: its last line is "N passed, M failed".
fn job(folder: &Path, program: &Path, name: &str) {
    let mut tests = tests(&folder.join(name.replace(' ', "-")));
    tests.thin = name.starts_with("thin ") || name.starts_with("without ");
    let words: Vec<&str> = name.trim_start_matches("thin ").split(' ').collect();
    let case = || words[1].parse().unwrap();
    let began = Instant::now();
    match words[0] {
        "cuts" => cuts(&mut tests, case(), false),
        "deep" => cuts(&mut tests, case(), true),
        "plain" => {
            tests.runner.plain = true;
            cuts(&mut tests, case(), false);
        }
        "program" => {
            tests.runner.program = Some(program.into());
            let (name, prior, step) = CASES[case()];
            let base = tests.base(prior);
            let prior: Vec<_> = prior.iter().map(|step| crate::book::words(step)).collect();
            tests.kills(&base, &prior, &crate::book::words(step), name, "kills of a step, of the program", &vec![]);
        }
        "failing" => tests.failing_calls(&[case()]),
        "full" => tests.full_disk(),
        "damage" => {
            tests.original = sample(12);
            tests.damage();
        }
        "meanwhile" => {
            tests.runner.plain = words.len() > 1;
            tests.meanwhile();
        }
        "overtaken" => {
            tests.overtaken();
            tests.overtaken_twice();
            tests.overtaken_by_a_large_file();
        }
        "aside" => tests.aside(),
        "surroundings" => {
            tests.surroundings();
            tests.runner.program = Some(program.into());
            tests.crowd();
        }
        "large" => tests.large(),
        "random" => tests.random(10_000),
        "without" => without(&mut tests, words[1]),
        other => panic!("{other}"),
    }
    let took = began.elapsed().as_secs_f64();
    if words[0] == "without" {
        let noticed = tests.failures.is_empty() == (words[1] == "none");
        let first = tests.failures.first().map_or("nothing fails", |failure| failure.as_str());
        println!("{name}: {first} ({took:.1} s)");
        println!("{} passed, {} failed", u8::from(noticed), u8::from(!noticed));
        return;
    }
    println!("{name}{}: {} failures ({took:.1} s)", described(&words), tests.failures.len());
    for (what, count) in &tests.counts {
        println!("  {count} {what}");
    }
    println!("  {} different folders checked, {} runs of the command", tests.checked.len(), tests.runs);
    tests.failures.iter().take(5).for_each(|failure| println!("  FAILED {failure}"));
    let passed = tests.counts.values().sum::<usize>().max(1) - tests.failures.len().min(1);
    println!("{passed} passed, {} failed", tests.failures.len());
}

/// The case of a job.
fn described(words: &[&str]) -> String {
    let case = words.get(1).and_then(|word| word.parse().ok()).and_then(|case: usize| CASES.get(case));
    case.map_or(String::new(), |(name, _, step)| format!(" ({name}: {step})"))
}

pub fn main() {
    let arguments: Vec<String> = std::env::args().skip(1).collect();
    let paths: Vec<PathBuf> = arguments.iter().take(2).map(|path| fs::canonicalize(path).unwrap()).collect();
    let [folder, program] = &paths[..] else { panic!("usage: steps FOLDER DGN [--all | JOB]") };
    match arguments.get(2).map(String::as_str) {
        Some(name) if name != "--all" => job(folder, program, name),
        all => main_of_all(folder, program, all.is_some()),
    }
}

/// Runs all jobs, as many at a time as there are cores, and adds their counts up.
fn main_of_all(folder: &Path, program: &Path, all: bool) {
    let jobs = jobs(all);
    let next = AtomicUsize::new(0);
    let results = Mutex::new((0, 0, BTreeMap::<String, usize>::new()));
    let cores = std::thread::available_parallelism().map_or(2, |cores| cores.get()).min(8);
    let work = || {
        while let Some(name) = jobs.get(next.fetch_add(1, Ordering::Relaxed)) {
            let ran =
                Command::new(std::env::current_exe().unwrap()).args([folder, program]).arg(name).output().unwrap();
            let text = String::from_utf8_lossy(&ran.stdout).into_owned();
            let mut results = results.lock().unwrap();
            let lines: Vec<&str> = text.lines().collect();
            let count = |line: &str, word: &str| {
                line.split(", ").find_map(|part| part.strip_suffix(word)?.trim().parse::<usize>().ok())
            };
            let last = lines.last().copied().unwrap_or("");
            match (count(last, " passed"), count(last, " failed")) {
                (Some(passed), Some(failed)) if ran.status.success() => {
                    results.0 += passed;
                    results.1 += failed;
                    lines[..lines.len() - 1].iter().for_each(|line| println!("{line}"));
                }
                _ => {
                    results.1 += 1;
                    println!("{name}: ended with {:?}\n{text}{}", ran.status, String::from_utf8_lossy(&ran.stderr));
                }
            }
            for line in lines.iter().filter_map(|line| line.strip_prefix("  ")) {
                if let Some((number, what)) =
                    line.split_once(' ').and_then(|(number, what)| Some((number.parse::<usize>().ok()?, what)))
                {
                    *results.2.entry(what.into()).or_default() += number;
                }
            }
        }
    };
    std::thread::scope(|scope| (0..cores).for_each(|_| drop(scope.spawn(work))));
    let (passed, failed, sums) = results.into_inner().unwrap();
    println!("together:");
    sums.iter()
        .filter(|(what, _)| !what.contains(" of the command"))
        .for_each(|(what, sum)| println!("  {sum} {what}"));
    println!("{passed} passed, {failed} failed");
    std::process::exit(i32::from(failed > 0));
}
