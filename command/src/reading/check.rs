//! `check`: judges files.

use super::checked::{Answer, Checked, Worker};
use super::names::{self, Named, Names};
use crate::arguments::Arguments;
use crate::help::{Choice, Subcommand};
use crate::output::{self, Output, Stop};
use dgn::Dimension;
use std::sync::atomic::{AtomicUsize, Ordering};
use std::sync::Mutex;

/// The subcommand.
pub const SUBCOMMAND: Subcommand = Subcommand {
    name: "check",
    usages: &["FILE|FOLDER ..", "--from FILE|-"],
    about: "judge files: which are good, and what is wrong with the others",
    text: "\
Every file is judged as a whole. A line for each file that is refused: in which part, what is wrong, the refusal's number and \
name, the word and the byte where the element at fault begins, and what to do. The part is the innermost good cell around the \
fault (in), else the last one before it (after). A line for each warning: words behind the end marker, which are kept and not \
read; a file that fits 2D and 3D and does not say which it is; a code that several cells have; with --ranges an element whose points \
do not all lie in its range. The last line has the totals.

Of a folder all files whose names end in .dgn or .cel are judged, in capital letters too, with those in the folders in it, in the \
order of their names. Links to folders are not followed.

With --tsv a line for each file, good ones too, and no totals, so that the outputs of several runs can be joined: file; good, \
refused or unread; 2D or 3D; how that was found (asked, told, fits, both, neither); elements; greatest depth; word of the end \
marker; number and name of the refusal; its word; its byte; in or after; code and place of that part; words behind the end marker; \
codes that several cells have, with commas between them; the same in words. What a file does not have is empty.",
    choices: &[
        Choice { long: "from", short: None, value: Some("FILE|-"), text: "Take the names from a file, or from standard input, a line for each." },
        Choice { long: "null", short: Some('0'), value: None, text: "The names of --from end with a zero byte." },
        Choice {
            long: "ranges",
            short: None,
            value: None,
            text: "Warn of each line, line string, shape and curve with a point outside its range: by x and y, of 3D files by z too.",
        },
        Choice { long: "all", short: Some('a'), value: None, text: "Judge every file of a folder, whatever its name." },
        Choice { long: "jobs", short: Some('j'), value: Some("N"), text: "Judge N files at a time; without it as many as there are cores." },
    ],
    words: (1, usize::MAX),
    instead: Some("from"),
    run,
};

/// How many files are judged between two looks at the output.
const BATCH: usize = 256;

fn run(arguments: &Arguments, output: &mut Output) -> Result<(), Stop> {
    let from = arguments.value("from");
    names::either(arguments.words.len(), from.is_some())?;
    let cores = || std::thread::available_parallelism().map_or(1, usize::from);
    let jobs = arguments.number("jobs", 1)?.unwrap_or_else(cores).min(BATCH);
    let every = arguments.has("all");
    let mut names = match from {
        None => Names::of(&arguments.words, every),
        Some(name) => match Names::from(name, names::end_of(arguments.has("null")), every) {
            Ok(names) => names,
            Err(why) => {
                output.message(names::unread(name, &why));
                output.unread();
                return Ok(());
            }
        },
    };
    let mut totals = Totals::default();
    let mut workers: Vec<Worker> =
        (0..jobs).map(|_| Worker::new(arguments.dimension(), arguments.has("ranges"), output)).collect();
    judge(&mut names, every, &mut workers, &mut totals, output)?;
    if let (Some(name), Some(why)) = (from, names.failed()) {
        output.message(names::unread(name, why));
        output.unread();
    }
    totals.end(output)
}

/// Judges the files of the names, and prints what is found of each in their order.
fn judge(
    names: &mut Names,
    every: bool,
    workers: &mut [Worker],
    totals: &mut Totals,
    output: &mut Output,
) -> Result<(), Stop> {
    loop {
        let batch: Vec<Named> = names.by_ref().take(BATCH).collect();
        if batch.is_empty() {
            totals.others += names.others;
            return Ok(());
        }
        let mut found = together(&batch, workers).into_iter();
        for named in batch {
            // one worker alone judges a file when it is its turn
            let checked = found.next().unwrap_or_else(|| workers[0].check(&named));
            match (checked.answer, named) {
                (Answer::Folder, Named::File(path)) => {
                    judge(&mut Names::within(path, every), every, workers, totals, output)?;
                }
                _ => {
                    totals.add(&checked);
                    output.text(&checked.lines)?;
                }
            }
        }
        output.progress(format_args!("{} checked", output::count(totals.files(), "file")));
    }
}

/// What several workers found of each file, in their order; of one worker nothing.
fn together(batch: &[Named], workers: &mut [Worker]) -> Vec<Checked> {
    if workers.len() == 1 {
        return Vec::new();
    }
    let next = AtomicUsize::new(0);
    let done: Mutex<Vec<Option<Checked>>> = Mutex::new(batch.iter().map(|_| None).collect());
    std::thread::scope(|scope| {
        for worker in workers.iter_mut().take(batch.len()) {
            scope.spawn(|| {
                let mut k = next.fetch_add(1, Ordering::Relaxed);
                while let Some(named) = batch.get(k) {
                    let checked = worker.check(named);
                    done.lock().expect("no thread panics")[k] = Some(checked);
                    k = next.fetch_add(1, Ordering::Relaxed);
                }
            });
        }
    });
    done.into_inner().expect("no thread panics").into_iter().flatten().collect()
}

/// How many files there were of each answer.
#[derive(Default)]
struct Totals {
    flat: usize,
    solid: usize,
    refused: usize,
    unread: usize,
    warned: usize,
    /// Files of folders that were passed over.
    others: usize,
}

impl Totals {
    fn add(&mut self, checked: &Checked) {
        *(match (checked.answer, checked.dimension) {
            (Answer::Good, Some(Dimension::Three)) => &mut self.solid,
            (Answer::Good, _) => &mut self.flat,
            (Answer::Refused, _) => &mut self.refused,
            (Answer::Unread | Answer::Folder, _) => &mut self.unread,
        }) += 1;
        self.warned += usize::from(checked.warned);
    }

    fn files(&self) -> usize {
        self.flat + self.solid + self.refused + self.unread
    }

    /// The last line, and the status.
    fn end(&self, output: &mut Output) -> Result<(), Stop> {
        if self.refused > 0 || self.files() == 0 {
            output.refused();
        }
        if self.unread > 0 {
            output.unread();
        }
        if output.tsv || output.quiet {
            return Ok(());
        }
        let Totals { flat, solid, refused, unread, warned, others } = *self;
        let [files, good, flat, solid, refused, unread, warned] =
            [self.files(), flat + solid, flat, solid, refused, unread, warned].map(output::grouped);
        let plural = if self.files() == 1 { "" } else { "s" };
        let passed = match others {
            0 => String::new(),
            _ => format!(
                "; {} passed over, not named .dgn or .cel (--all judges them)",
                output::count(others, "other file")
            ),
        };
        output.line(format_args!(
            "{files} file{plural}: {good} good ({flat} as 2D, {solid} as 3D), {refused} refused, {unread} not read; \
             {warned} with warnings{passed}"
        ))
    }
}
