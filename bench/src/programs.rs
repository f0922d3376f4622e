//! Whole programs: celllist against the second reader's listing, and celllist and textlist beside GDAL's ogrinfo where that
//! is installed.

use crate::calls::{self, Slices};
use crate::inputs::{make, make_after, Kind, KIB, KINDS};
use crate::tables::{heading, row};
use crate::timing::{measure, Measured};
use crate::ROOT;
use dgn::raw;
use reader::words::{bytes_of, words_of};
use std::fs::File;
use std::process::{Command, Stdio};

/// A process that reads one file as its standard input and writes another.
pub struct Program {
    path: String,
    arguments: Vec<String>,
    input: String,
    output: String,
}

impl Program {
    fn command(&self) -> Command {
        let mut command = Command::new(&self.path);
        command.args(&self.arguments).stdin(File::open(&self.input).expect("the input"));
        command
    }

    /// What it writes.
    pub fn listed(&self) -> Vec<u8> {
        let output = self.command().output().expect("a program");
        assert!(output.status.success(), "{}", self.path);
        output.stdout
    }
}

impl Measured for Program {
    /// Every run writes a new file.
    fn ready(&mut self) {
        let _ = std::fs::remove_file(&self.output);
    }

    fn run(&mut self) {
        let out = File::create(&self.output).expect("the output");
        let status = self.command().stdout(Stdio::from(out)).status().expect("a program");
        assert!(status.success(), "{}", self.path);
    }
}

/// A program by its path and arguments, the folder of its files and its input.
pub fn program(path: &str, arguments: &[&str], folder: &str, input: &str) -> Program {
    Program {
        path: path.to_string(),
        arguments: arguments.iter().map(|a| a.to_string()).collect(),
        input: input.to_string(),
        output: format!("{folder}/output"),
    }
}

/// One of the repository's programs by its name.
fn own(name: &str, folder: &str, input: &str) -> Program {
    program(&format!("{ROOT}/crates/{name}/out/{name}"), &[], folder, input)
}

/// The listings of 64 KiB are the same; their times, and that of a process that only reads its input.
pub fn listing(folder: &str, rounds: usize) {
    heading(&["celllist, 64 KiB", "lines written", "µs", "to the second reader's", "to reading alone"]);
    let here = std::env::current_exe().expect("this program");
    let second = here.with_file_name("secondlist").to_str().expect("a path").to_string();
    let input = format!("{folder}/input");
    for kind in KINDS.into_iter().filter(|kind| kind.dim() == 2) {
        std::fs::write(&input, make(kind, 64 * KIB, 1).file).expect("the input");
        let ours = own("celllist", folder, &input);
        let theirs = program(&second, &[], folder, &input);
        let alone = program(&second, &["nothing"], folder, &input);
        let listed = ours.listed();
        assert!(listed == theirs.listed(), "celllist, {}", kind.name());
        let lines = listed.iter().filter(|&&b| b == b'\n').count();
        let times = measure(&mut [Box::new(ours), Box::new(theirs), Box::new(alone)], rounds);
        row(&[
            kind.name().to_string(),
            lines.to_string(),
            format!("{:.0}", times.time(0) * 1e6),
            times.ratio(0, 1).to_string(),
            times.ratio(0, 2).to_string(),
        ]);
    }
}

/// Lines, and texts, behind the first element of a real file, which ogrinfo wants to see. It prints every field and point, so
/// its time stands beside ours and is no ratio of like to like.
pub fn beside_gdal(folder: &str, rounds: usize) {
    if !Command::new("ogrinfo").arg("--version").stdout(Stdio::null()).status().is_ok_and(|s| s.success()) {
        println!("\nogrinfo (Debian: gdal-bin) is not installed: no figures beside GDAL.");
        return;
    }
    let real = words_of(&std::fs::read(format!("{ROOT}/tests/real/a02_lines_2d.dgn")).expect("a real file"));
    let front = &real[..2 + real[1] as usize];
    let mut slices = all_texts();
    let judged = |file: &[u8]| assert!(calls::judge(file, 2).is_ok());
    beside(folder, rounds, front, Kind::Lines, "celllist", "judge", judged);
    let read = |file: &[u8]| assert!(calls::texts(file, 2, 0, &mut slices).is_ok());
    beside(folder, rounds, front, Kind::Texts, "textlist", "all texts", read);
    texts_in_memory(front, 10 * rounds);
}

/// Room for all texts of any file.
fn all_texts() -> Slices {
    Slices::new([raw::TEXTS_NUMBERS * 17_476, 0])
}

/// All texts of a file in memory, by `dgn_texts` and by GDAL's own reader, which has no judging to do.
fn texts_in_memory(front: &[u16], rounds: usize) {
    if !calls::has_gdal() {
        println!("\nGDAL's shared library is not found: no figures beside its reader.");
        return;
    }
    let input = make_after(front, Kind::Texts, 1024 * KIB, 1);
    let mut slices = all_texts();
    let (_, [read, _]) = calls::texts(&input.file, 2, 0, &mut slices).expect("all texts");
    let texts = read / raw::TEXTS_NUMBERS;
    let mut lent = input.file.clone();
    assert!(calls::texts_by_gdal(&mut lent) == texts, "the texts that GDAL's reader finds");
    let (file, slices) = (&input.file, &mut slices);
    let times = measure(
        &mut [
            Box::new(|| assert!(calls::texts(file, 2, 0, slices).is_ok())),
            Box::new(|| assert!(calls::texts_by_gdal(&mut lent) == texts)),
        ],
        rounds,
    );
    heading(&["all texts in memory, 1 MiB", "texts", "µs", "µs of GDAL's reader", "to it"]);
    let cell = |who: usize| format!("{:.0}", times.time(who) * 1e6);
    row(&["`dgn_texts`".to_string(), texts.to_string(), cell(0), cell(1), times.ratio(0, 1).to_string()]);
}

/// A table of one kind of element: ogrinfo, a program of the repository and a call of the library.
fn beside(folder: &str, rounds: usize, front: &[u16], kind: Kind, listing: &str, what: &str, mut call: impl FnMut(&[u8])) {
    let path = |name: &str| format!("{folder}/{name}.dgn");
    let bare = [front, &[65535]].concat();
    std::fs::write(path("bare"), bytes_of(&bare)).expect("the input");
    let small = make_after(front, kind, 64 * KIB, 1);
    std::fs::write(path("small"), &small.file).expect("the input");
    let large = make_after(front, kind, 1024 * KIB, 1);
    std::fs::write(path("large"), &large.file).expect("the input");
    let ogrinfo = |name: &str| Box::new(program("ogrinfo", &["-al", "-q", &path(name)], folder, "/dev/null"));
    let file = &large.file;
    let times = measure(
        &mut [
            ogrinfo("bare"),
            ogrinfo("small"),
            ogrinfo("large"),
            Box::new(own(listing, folder, &path("bare"))),
            Box::new(own(listing, folder, &path("small"))),
            Box::new(|| call(file)),
        ],
        rounds,
    );
    let name = kind.name();
    heading(&[&format!("beside GDAL, {name}, µs"), &format!("no {name}"), "64 KiB", "1024 KiB"]);
    let cell = |who: usize| format!("{:.0}", times.time(who) * 1e6);
    row(&["`ogrinfo -al -q`, process".to_string(), cell(0), cell(1), cell(2)]);
    row(&[format!("{listing}, process"), cell(3), cell(4), "(65,536 bytes at most)".to_string()]);
    row(&[format!("{what}, call"), String::new(), String::new(), cell(5)]);
}
