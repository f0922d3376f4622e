//! The elements and the cells of a file that the library accepts.

use crate::help::Choice;
use crate::output::{self, Stop};
use dgn::raw::VIEW_NUMBERS;
use dgn::{Dimension, Type, View};
use std::collections::VecDeque;
use std::ffi::OsStr;

/// How many views are fetched at once.
const VIEWS: usize = 4096;

/// The views of an accepted file, in file order, a bounded number of them in memory.
pub struct Walk<'f> {
    bytes: &'f [u8],
    dimension: Dimension,
    next: usize,
    numbers: Vec<i64>,
    ready: VecDeque<View>,
}

/// All views of an accepted file, in file order.
pub fn walk(bytes: &[u8], dimension: Dimension) -> Walk<'_> {
    // an element has two words or more
    let views = VIEWS.min(bytes.len() / 4 + 1);
    Walk { bytes, dimension, next: 0, numbers: vec![0; VIEW_NUMBERS * views], ready: VecDeque::new() }
}

impl Iterator for Walk<'_> {
    type Item = View;

    fn next(&mut self) -> Option<View> {
        if self.ready.is_empty() {
            let views = dgn::views(self.bytes, self.dimension, self.next, &mut self.numbers);
            self.ready.extend(views.expect("a file that was accepted"));
            self.next += self.ready.len();
        }
        self.ready.pop_front()
    }
}

/// A cell.
#[derive(Clone, Debug)]
pub struct Part {
    /// Where it starts.
    pub place: usize,
    /// The word after its extent.
    pub end: usize,
    /// The number of headers above it.
    pub depth: usize,
    /// A cell of a library or of a drawing.
    pub kind: Type,
    /// Marked deleted.
    pub deleted: bool,
    /// Its name.
    pub code: String,
    /// The place of the header it stands under.
    pub header: Option<usize>,
    /// How many elements stand under it, at all depths.
    pub elements: usize,
}

impl Part {
    /// Whether the word is within its extent.
    pub fn holds(&self, place: usize) -> bool {
        self.place <= place && place < self.end
    }
}

/// All cells of an accepted file, in file order. `marker` is the place of its end marker.
pub fn all(bytes: &[u8], dimension: Dimension, marker: usize) -> Vec<Part> {
    let mut parts: Vec<Part> = Vec::new();
    let mut open: Vec<usize> = Vec::new();
    for view in walk(bytes, dimension) {
        // a cell ends where the next element stands that is no deeper
        while let Some(&last) = open.last().filter(|&&last| parts[last].depth >= view.depth) {
            parts[last].end = view.place;
            open.pop();
        }
        for &around in &open {
            parts[around].elements += 1;
        }
        if let Some(code) = code(&view) {
            open.push(parts.len());
            parts.push(Part {
                place: view.place,
                end: marker,
                depth: view.depth,
                kind: view.kind,
                deleted: view.deleted,
                code,
                header: view.header,
                elements: 0,
            });
        }
    }
    parts
}

/// The code of a cell.
pub fn code(view: &View) -> Option<String> {
    view.name.map(|name| dgn::unpack(name).expect("the name of a view"))
}

/// The innermost cell whose extent holds the word.
pub fn around(parts: &[Part], place: usize) -> Option<&Part> {
    parts.iter().rfind(|part| part.holds(place))
}

/// "live" or "deleted".
pub fn state(deleted: bool) -> &'static str {
    if deleted {
        "deleted"
    } else {
        "live"
    }
}

/// The option of those subcommands that pass over deleted cells.
pub const ALL: Choice = Choice { long: "all", short: Some('a'), value: None, text: "Show deleted parts too." };

/// That so many deleted cells were passed over; nothing where there are none.
pub fn passed(deleted: usize) -> String {
    match deleted {
        0 => String::new(),
        1 => "; 1 deleted passed over (--all shows it)".into(),
        _ => format!("; {} deleted passed over (--all shows them)", output::grouped(deleted)),
    }
}

/// A code for a line: as it is, or in quotes where it is empty or has a space.
pub fn shown(code: &str) -> String {
    let mut text = String::new();
    show(&mut text, code);
    text
}

/// Puts it behind a text.
pub fn show(text: &mut String, code: &str) {
    let quote = if code.is_empty() || code.contains(' ') { "'" } else { "" };
    *text += quote;
    *text += code;
    *text += quote;
}

/// What CODE|PLACE names.
#[derive(Clone, PartialEq, Eq, Debug)]
pub enum Which {
    /// The cells of a name.
    Code(String),
    /// The element that begins at a word.
    Place(usize),
}

/// A part code, as it is given.
pub fn code_of(word: &OsStr) -> Result<String, Stop> {
    let wrong = || {
        let name = output::name(word);
        format!("{name} is no part code: up to six of A-Z (no small letters), 0-9, $, . and space, no space at its end")
    };
    match word.to_str() {
        Some(text) if dgn::pack(text).is_ok() => Ok(text.into()),
        _ => Err(Stop::Usage(wrong())),
    }
}

/// CODE|PLACE, as it is given.
pub fn which(word: &OsStr) -> Result<Which, Stop> {
    let Some(place) = word.to_str().and_then(|text| text.strip_prefix('@')) else {
        return code_of(word).map(Which::Code);
    };
    match crate::arguments::decimal(place.as_ref()) {
        Some(place) => Ok(Which::Place(place)),
        None => Err(Stop::Usage(format!("{} is no place: @ and the number of a word", output::name(word)))),
    }
}

/// The place of the one element that is named; else why there is none.
pub fn one(bytes: &[u8], dimension: Dimension, marker: usize, which: &Which) -> Result<usize, String> {
    match which {
        Which::Place(place) => match dgn::extent(bytes, dimension, *place) {
            Ok(extent) => Ok(extent.start),
            Err(_) => Err(format!("no element begins at word {place}; dgn list shows the places")),
        },
        Which::Code(code) => {
            let parts = all(bytes, dimension, marker);
            let same: Vec<_> = parts.iter().filter(|part| part.code == *code).collect();
            match same[..] {
                [part] => Ok(part.place),
                [] => Err(missing(&parts, code)),
                _ => {
                    let places: Vec<_> = same.iter().map(|part| format!("@{}", part.place)).collect();
                    let count = output::count(same.len(), "cell");
                    Err(format!(
                        "{} names {count}, at {}; name one of them by its place",
                        shown(code),
                        places.join(", ")
                    ))
                }
            }
        }
    }
}

/// That no cell has the code, with those that differ from it only in zeros or spaces before.
fn missing(parts: &[Part], code: &str) -> String {
    let mut near: Vec<_> = parts.iter().filter(|part| alike(&part.code, code)).map(|part| shown(&part.code)).collect();
    near.sort();
    near.dedup();
    match near.len() {
        0 => format!("there is no part {}", shown(code)),
        1 => format!("there is no part {}; {} is another code", shown(code), near[0]),
        _ => format!("there is no part {}; {} are other codes", shown(code), near.join(" and ")),
    }
}

/// Whether two codes differ, and only in zeros and spaces before them.
pub fn alike(one: &str, other: &str) -> bool {
    let bare = |code: &str| code.trim_start_matches(['0', ' ']).to_string();
    one != other && bare(one) == bare(other)
}
