//! Runs the proved library and the second reader on the same inputs, from a seed, and stops at the first difference.
//! `compare` is the gate's run; `compare FILES SEED` a run of any length.

mod bindings;
mod curves;
mod damage;
mod edited;
mod files;
mod guard;
mod history;
mod indexes;
mod library;
mod limits;
mod plates;
mod program;
mod ranges;
mod real;
mod runs;
mod seen;
mod sessions;
mod stored;
mod text_writes;
mod whole;
mod writes;

use reader::generate::Random;
use runs::Runs;

/// A step: what is held against each other, and the run of it. The number is how many files, and how many calls of
/// sessions, are to be generated.
type Step = (&'static str, fn(&mut Random, &mut Runs, u64));

const STEPS: &[Step] = &[
    ("real files, by their table", |_, runs, _| real::run(runs)),
    ("real files with each word changed and cut at each word", |random, runs, _| real::changed(random, runs)),
    ("real files with texts, each text by its table", |_, runs, _| real::texts(runs)),
    ("the same, damaged and cut", |random, runs, _| real::damaged_texts(random, runs)),
    ("real files with ellipses and arcs, each by its table", |_, runs, _| real::curves(runs)),
    ("the same, changed and cut", |random, runs, _| real::damaged_curves(random, runs)),
    ("listings of celllist, textlist and platelist", |random, _, _| program::run(random, 100)),
    ("answer slices that are too short stay", |_, _, _| library::short_answers(&[255, 255])),
    ("a stack of 256 KiB is enough", |_, _, _| damage::small_stack()),
    ("lengths from none to above the limit, between pages that may not be touched", |random, runs, _| {
        damage::lengths(random, runs)
    }),
    ("files cut at a page", |random, runs, _| damage::cut_at_a_page(random, runs, 100)),
    ("exact limits", |random, runs, _| files::limits(random, runs)),
    ("every word as either word of a name", |_, runs, _| files::name_words(runs)),
    ("names", |random, runs, _| files::names(random, runs, 20_000)),
    ("limits of the writer", |random, runs, _| writes::limits(random, runs)),
    ("written elements", |random, runs, wanted| writes::calls(random, runs, wanted / 4)),
    ("limits of the writer of texts", |random, runs, _| text_writes::limits(random, runs)),
    ("written texts", |random, runs, wanted| text_writes::calls(random, runs, wanted / 8)),
    ("each number at each depth, and two faults in one element", |random, runs, _| files::numbers(random, runs, 50)),
    ("ellipses and arcs, by floats of every kind", |random, runs, wanted| curves::directed(random, runs, wanted / 6)),
    ("points in their ranges or nearly so, every part", |random, runs, wanted| ranges::directed(random, runs, wanted / 10)),
    ("plates of cells of every kind, every part", |random, runs, wanted| plates::directed(random, runs, wanted / 30)),
    ("plates of the largest files in parts", |random, runs, _| plates::largest(random, runs)),
    ("ranges of the largest files in parts", |random, runs, _| ranges::largest(random, runs)),
    ("cuts, and every place", |random, runs, _| files::cuts(random, runs, 200)),
    ("every part of small files, views, points and texts", |random, runs, _| whole::small(random, runs, 100)),
    ("the largest files in parts, views, points and texts", |random, runs, _| whole::largest(random, runs)),
    ("cells and indexes of small files, in buffers of every length around the exact one", |random, runs, wanted| {
        indexes::lengths(random, runs, wanted / 100)
    }),
    ("looks in indexes of each number of entries", |_, runs, _| indexes::looks(runs)),
    ("names looked up in indexes as built, stale, damaged and of any bytes", |random, runs, wanted| {
        indexes::look_ups(random, runs, wanted / 30)
    }),
    ("indexes of the most cells and of the largest files", |random, runs, _| indexes::largest(random, runs)),
    ("the bindings' structs", |random, runs, _| bindings::generated(random, runs, 500)),
    ("generated files", |random, runs, wanted| {
        let before = runs.files;
        while runs.files < before + wanted {
            files::generated(random, runs);
        }
        if wanted >= 100_000 {
            runs.seen.check_accepted();
        }
    }),
    ("sessions on real files, every edit at every place", |random, runs, _| real::sessions(random, runs)),
    ("the last record of journals in order and damaged", |random, runs, _| history::journals(random, runs, 20_000)),
    ("small journals to blocks and back, with every damage", |random, runs, _| stored::small(random, runs)),
    ("journals of sizes around the ends of blocks, and at the limits", |random, runs, _| stored::sizes(random, runs)),
    ("journals to blocks and back, any calls", |random, runs, wanted| stored::calls(random, runs, wanted / 6)),
    ("journal records of every kind", |_, runs, _| limits::records(runs)),
    ("exact room in both buffers of a session", |_, runs, _| limits::room(runs)),
    ("exact room in an index, beside the other two buffers", |_, runs, _| limits::index_room(runs)),
    ("calls of a session made wrongly, between pages that may not be touched", |_, runs, _| {
        limits::calls_made_wrongly(runs)
    }),
    ("the file's own refusals in a session", |random, runs, _| limits::own(random, runs, 10)),
    ("pieces with a fault of each number, and with words left over", |random, runs, _| {
        limits::pieces(random, runs, 200)
    }),
    ("headers that would grow too large", |_, runs, _| limits::growth(runs)),
    ("sessions on the largest files", |_, runs, _| sessions::largest(runs)),
    ("every edit at every place of small files, with an index and without, undone", |random, runs, _| sessions::places(random, runs, 100)),
    ("sessions of any calls, with an index and without, undone to their start", |random, runs, wanted| {
        sessions::random(random, runs, wanted);
        if wanted >= 100_000 {
            runs.edits.check();
        }
    }),
];

fn main() {
    let mut args = std::env::args().skip(1).map(|a| a.parse::<u64>().expect("numbers: FILES SEED"));
    let wanted = args.next().unwrap_or(300_000);
    let seed = args.next().unwrap_or(7);
    let mut random = Random::new(seed);
    let mut runs = Runs::default();
    for (what, run) in STEPS {
        let (files, calls) = (runs.files, runs.calls);
        run(&mut random, &mut runs, wanted);
        println!("passed: {what} ({} files, {} calls)", runs.files - files, runs.calls - calls);
    }
    println!("sessions: {}", runs.edits.line());
    println!("{} files, {} calls, seed {seed}", runs.files, runs.calls);
    println!("{} passed, 0 failed", STEPS.len());
}
