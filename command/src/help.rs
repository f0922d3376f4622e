//! The texts of the command: one table, from which `--help`, the usage of a subcommand and the man page are made.

use crate::arguments::Arguments;
use crate::output::{self, Output, Stop};
use crate::{editing, reading};
use std::ffi::OsString;

/// An option.
#[derive(Debug)]
pub struct Choice {
    /// Its name, without the dashes.
    pub long: &'static str,
    /// Its letter.
    pub short: Option<char>,
    /// What its value is called, where it takes one.
    pub value: Option<&'static str>,
    /// What it does.
    pub text: &'static str,
}

/// A subcommand.
pub struct Subcommand {
    /// Its name.
    pub name: &'static str,
    /// Its usages, without the name.
    pub usages: &'static [&'static str],
    /// What it does, in a line.
    pub about: &'static str,
    /// What it does, in paragraphs; a line that begins with two spaces stands as it is.
    pub text: &'static str,
    /// Its own options.
    pub choices: &'static [Choice],
    /// The least and the most words that are no options.
    pub words: (usize, usize),
    /// The option with which there may be fewer.
    pub instead: Option<&'static str>,
    /// Does it.
    pub run: fn(&Arguments, &mut Output) -> Result<(), Stop>,
}

/// The subcommands, in the order of the help.
pub const SUBCOMMANDS: &[&Subcommand] = &[
    &reading::check::SUBCOMMAND,
    &reading::list::SUBCOMMAND,
    &reading::parts::SUBCOMMAND,
    &reading::plates::SUBCOMMAND,
    &reading::find::SUBCOMMAND,
    &reading::index::SUBCOMMAND,
    &reading::lookup::SUBCOMMAND,
    &reading::text::SUBCOMMAND,
    &reading::show::SUBCOMMAND,
    &reading::extract::SUBCOMMAND,
    &reading::compare::SUBCOMMAND,
    &editing::rename::SUBCOMMAND,
    &editing::mark::DELETE,
    &editing::mark::RESTORE,
    &editing::remove::SUBCOMMAND,
    &editing::insert::SUBCOMMAND,
    &editing::add::SUBCOMMAND,
    &editing::undo::SUBCOMMAND,
    &editing::history::SUBCOMMAND,
    &editing::original::SUBCOMMAND,
];

const fn plain(long: &'static str, short: Option<char>, text: &'static str) -> Choice {
    Choice { long, short, value: None, text }
}

/// The options of every subcommand.
const COMMON: &[Choice] = &[
    plain("2d", None, "Read every file as 2D."),
    plain("3d", None, "Read every file as 3D."),
    plain("tsv", None, "Print lines for machines: columns with a tab between them, no heading, nothing quoted."),
    plain(
        "quiet",
        Some('q'),
        "No warnings, no progress, no totals. check then looks neither for codes that stand twice nor, with --ranges, at ranges.",
    ),
    plain("help", Some('h'), "Say what the subcommand does."),
];

/// The options of the whole.
const WHOLE: &[Choice] = &[
    plain("help", Some('h'), "Say what there is; behind a subcommand's name, what it does."),
    plain("version", Some('V'), "Print the version."),
];

const ABOUT: &str = "reads and edits Intergraph design files and cell libraries (DGN version 7)";

const TEXT: &str = "\
A file has at most 1,048,576 bytes. A part is a cell with a name, its part code: up to six of A-Z, 0-9, $, . and space. Zeros and \
spaces before it count: 00417 is not 417. A place is the number of a word of two bytes in the file, counted from 0.

CODE|PLACE names an element by its part code, or by its place with @ before it: 417 is the part 417, @417 is what begins at word \
417.

A file is 2D or 3D. Without --2d and --3d its first element says which, where that is the header of a design file (type 9); a \
cell library has none, and is read the way that fits. Where both fit it is read as 2D and a warning says so. Every output says \
which was taken.

In a name or a text a byte that does not print is a backslash, x and two hexadecimal digits, and a backslash is doubled. File \
names with spaces or other signs of the shell are printed in quotes, as a shell takes them. A file whose name begins with a dash \
stands behind -- or is written with ./ before it.";

const STATUS: &[(&str, &str)] = &[
    ("0", "All is good."),
    ("1", "A file is refused, or nothing was found, or two files differ."),
    ("2", "Wrong usage."),
    ("3", "Something cannot be read or written; this wins over 1."),
];

/// The subcommand of a name.
pub fn find(name: &str) -> Option<&'static Subcommand> {
    SUBCOMMANDS.iter().copied().find(|subcommand| subcommand.name == name)
}

impl Subcommand {
    /// Its own options and those of every subcommand.
    pub fn choices(&self) -> impl Iterator<Item = &'static Choice> {
        self.choices.iter().chain(COMMON)
    }

    /// Its usages, a line for each.
    pub fn usage_lines(&self, before: &str) -> String {
        let indent = " ".repeat(before.len());
        let mut text = String::new();
        for (k, usage) in self.usages.iter().enumerate() {
            text += &format!("{}dgn {} {usage}\n", if k == 0 { before } else { &indent }, self.name);
        }
        text
    }
}

impl Choice {
    /// As it is written.
    fn written(&self) -> String {
        let short = self.short.map_or(String::new(), |letter| format!("-{letter}, "));
        let value = self.value.map_or(String::new(), |value| format!(" {value}"));
        format!("{short}--{}{value}", self.long)
    }
}

/// A text in lines of at most 80 letters, each with `indent` spaces before it.
fn wrapped(text: &str, indent: usize) -> String {
    let mut lines = String::new();
    for line in text.lines() {
        if line.starts_with("  ") {
            lines += &format!("{}{line}\n", " ".repeat(indent));
            continue;
        }
        let mut row = String::new();
        for word in line.split(' ') {
            if !row.is_empty() && indent + row.len() + 1 + word.len() > 80 {
                lines += &format!("{}{row}\n", " ".repeat(indent));
                row.clear();
            }
            row += if row.is_empty() { "" } else { " " };
            row += word;
        }
        lines += format!("{}{row}", " ".repeat(indent)).trim_end();
        lines.push('\n');
    }
    lines
}

/// Names with what each means, the names in a column.
fn table<'t>(rows: impl Iterator<Item = (String, &'t str)>) -> String {
    let mut text = String::new();
    for (name, about) in rows {
        let about = wrapped(about, 20);
        text += &match name.len() {
            0..=17 => format!("  {name:<18}{}", &about[20..]),
            _ => format!("  {name}\n{about}"),
        };
    }
    text
}

fn options<'c>(choices: impl Iterator<Item = &'c Choice>) -> String {
    table(choices.map(|choice| (choice.written(), choice.text)))
}

fn statuses() -> String {
    table(STATUS.iter().map(|&(number, text)| (number.to_string(), text)))
}

/// The help of the whole.
pub fn whole() -> String {
    let subcommands = table(SUBCOMMANDS.iter().map(|s| (s.name.to_string(), s.about)));
    format!(
        "usage: dgn SUBCOMMAND ARGUMENTS\n       dgn help [SUBCOMMAND]\n       dgn help --man\n\ndgn {ABOUT}.\n\n\
         Subcommands:\n{subcommands}\n{}\nOptions:\n{}\nOptions of every subcommand:\n{}\nStatus:\n{}",
        wrapped(TEXT, 0),
        options(WHOLE.iter()),
        options(COMMON.iter()),
        statuses(),
    )
}

/// The help of a subcommand.
pub fn of(subcommand: &Subcommand) -> String {
    format!(
        "{}\n{}.\n\n{}\nOptions:\n{}\nStatus:\n{}",
        subcommand.usage_lines("usage: "),
        subcommand.about,
        wrapped(subcommand.text, 0),
        options(subcommand.choices()),
        statuses(),
    )
}

/// The version.
pub fn version() -> String {
    format!("dgn {}\n", env!("CARGO_PKG_VERSION"))
}

/// `help`, `help SUBCOMMAND`, `help --man`.
pub fn asked(arguments: &[OsString], output: &mut Output) -> Result<(), Stop> {
    let words: Vec<_> = arguments.iter().map(|word| word.to_str()).collect();
    match words[..] {
        [] | [Some("--help" | "-h")] => output.text(&whole()),
        [Some("--man")] => output.text(&man()),
        [Some(name)] if find(name).is_some() => output.text(&find(name).map_or(String::new(), of)),
        [_] => {
            Err(Stop::Usage(format!("there is no subcommand {}; dgn --help lists them", output::name(&arguments[0]))))
        }
        _ => Err(Stop::usage("help takes the name of one subcommand, or --man")),
    }
}

/// A text for roff.
fn roff(text: &str) -> String {
    let text = text.replace('\\', "\\e").replace('-', "\\-");
    // a line that begins with a dot or a quote would be a request
    if text.starts_with(['.', '\'']) {
        format!("\\&{text}")
    } else {
        text
    }
}

/// Paragraphs for roff.
fn paragraphs(text: &str) -> String {
    let mut out = String::new();
    let mut standing = false;
    for line in text.lines() {
        if line.starts_with("  ") != standing {
            standing = !standing;
            out += if standing { ".nf\n" } else { ".fi\n" };
        }
        out += &match line {
            "" => ".PP\n".into(),
            _ => format!("{}\n", roff(line)),
        };
    }
    out + if standing { ".fi\n" } else { "" }
}

fn items<'t>(rows: impl Iterator<Item = (String, &'t str)>) -> String {
    rows.map(|(name, text)| format!(".TP\n.B {}\n{}", roff(&name), paragraphs(text))).collect()
}

fn man_options<'c>(choices: impl Iterator<Item = &'c Choice>) -> String {
    items(choices.map(|choice| (choice.written(), choice.text)))
}

/// The man page.
pub fn man() -> String {
    let mut page = format!(
        ".TH DGN 1 \"\" \"dgn {}\" \"User Commands\"\n.SH NAME\ndgn \\- {}\n.SH SYNOPSIS\n.B dgn\nSUBCOMMAND ARGUMENTS\n.br\n\
         .B dgn\nhelp [SUBCOMMAND]\n.br\n.B dgn\nhelp \\-\\-man\n.SH DESCRIPTION\n{}.SH SUBCOMMANDS\n",
        env!("CARGO_PKG_VERSION"),
        roff(ABOUT),
        paragraphs(TEXT)
    );
    for subcommand in SUBCOMMANDS {
        page += &format!(".SS {}\n.nf\n{}.fi\n.PP\n", roff(subcommand.name), roff(&subcommand.usage_lines("")));
        page += &format!("{}.\n.PP\n{}", roff(subcommand.about), paragraphs(subcommand.text));
        page += &man_options(subcommand.choices.iter());
    }
    page += &format!(".SH OPTIONS\n{}", man_options(WHOLE.iter()));
    page += &format!(".PP\nThose of every subcommand:\n{}", man_options(COMMON.iter()));
    page + ".SH EXIT STATUS\n" + &items(STATUS.iter().map(|&(number, text)| (number.to_string(), text)))
}
