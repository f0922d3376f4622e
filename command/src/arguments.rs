//! The arguments of a subcommand, taken apart by its table of options.

use crate::help::{Choice, Subcommand};
use crate::output::{self, Stop};
use dgn::Dimension;
use std::ffi::{OsStr, OsString};
use std::os::unix::ffi::{OsStrExt, OsStringExt};

/// The options that were given and the other words, in their order.
#[derive(Debug, Default)]
pub struct Arguments {
    given: Vec<(&'static str, OsString)>,
    /// What is no option: files, codes and places.
    pub words: Vec<OsString>,
}

/// Whether `--help` stands among the options.
pub fn asks_help(arguments: &[OsString]) -> bool {
    arguments.iter().take_while(|word| *word != "--").any(|word| word == "--help" || word == "-h")
}

impl Arguments {
    /// Takes the arguments behind a subcommand's name apart. An option has its value behind `=` or in the next word, a short
    /// one also directly behind its letter; letters may stand together; `--` ends the options.
    pub fn parse(subcommand: &Subcommand, arguments: Vec<OsString>) -> Result<Arguments, Stop> {
        let mut taken = Arguments::default();
        let mut rest = arguments.into_iter();
        while let Some(word) = rest.next() {
            let bytes = word.as_bytes();
            match bytes {
                b"--" => {
                    taken.words.extend(rest);
                    break;
                }
                [b'-', b'-', long @ ..] => {
                    let (name, value) = match long.iter().position(|&byte| byte == b'=') {
                        Some(at) => (&long[..at], Some(OsString::from_vec(long[at + 1..].to_vec()))),
                        None => (long, None),
                    };
                    let choice = subcommand.choices().find(|choice| choice.long.as_bytes() == name);
                    taken.take(subcommand, choice, &word, value, &mut rest)?;
                }
                [b'-', _, ..] => taken.letters(subcommand, &word, &mut rest)?,
                _ => taken.words.push(word),
            }
        }
        let (least, most) = subcommand.words;
        let wrong = |what: &str| Err(Stop::of(subcommand, what));
        if taken.words.len() < least && !subcommand.instead.is_some_and(|name| taken.has(name)) {
            return wrong("too few arguments");
        }
        if taken.words.len() > most {
            return wrong("too many arguments");
        }
        if taken.has("2d") && taken.has("3d") {
            return wrong("--2d and --3d exclude each other");
        }
        Ok(taken)
    }

    /// Options by their letters, one after another; what stands behind one that takes a value is its value.
    fn letters(
        &mut self,
        subcommand: &Subcommand,
        word: &OsStr,
        rest: &mut impl Iterator<Item = OsString>,
    ) -> Result<(), Stop> {
        let mut letters = &word.as_bytes()[1..];
        while let [letter, behind @ ..] = letters {
            let choice = subcommand.choices().find(|choice| choice.short == Some(char::from(*letter)));
            let takes = choice.is_some_and(|choice| choice.value.is_some()) && !behind.is_empty();
            self.take(subcommand, choice, word, takes.then(|| OsString::from_vec(behind.to_vec())), rest)?;
            letters = if takes { &[] } else { behind };
        }
        Ok(())
    }

    /// One option, with its value.
    fn take(
        &mut self,
        subcommand: &Subcommand,
        choice: Option<&'static Choice>,
        word: &OsStr,
        value: Option<OsString>,
        rest: &mut impl Iterator<Item = OsString>,
    ) -> Result<(), Stop> {
        let wrong = |what: &str| Err(Stop::of(subcommand, &format!("{}: {what}", output::name(word))));
        let Some(choice) = choice else { return wrong("there is no such option") };
        if self.has(choice.long) {
            return wrong("the option is given twice");
        }
        let value = match (choice.value, value) {
            (None, None) => OsString::new(),
            (None, Some(_)) => return wrong("the option takes no value"),
            (Some(_), Some(value)) => value,
            (Some(what), None) => match rest.next() {
                Some(value) => value,
                None => return wrong(&format!("{what} is missing")),
            },
        };
        self.given.push((choice.long, value));
        Ok(())
    }

    /// Whether the option was given.
    pub fn has(&self, long: &str) -> bool {
        self.value(long).is_some()
    }

    /// The value of the option, where it was given.
    pub fn value(&self, long: &str) -> Option<&OsStr> {
        self.given.iter().find(|(name, _)| *name == long).map(|(_, value)| value.as_os_str())
    }

    /// The value of the option as a number of at least `least`.
    pub fn number(&self, long: &str, least: usize) -> Result<Option<usize>, Stop> {
        let Some(value) = self.value(long) else { return Ok(None) };
        match decimal(value).filter(|&number| number >= least) {
            Some(number) => Ok(Some(number)),
            None => Err(Stop::Usage(format!("--{long}: {} is no number from {least} on", output::name(value)))),
        }
    }

    /// The dimension that was asked for.
    pub fn dimension(&self) -> Option<Dimension> {
        match (self.has("2d"), self.has("3d")) {
            (true, _) => Some(Dimension::Two),
            (_, true) => Some(Dimension::Three),
            _ => None,
        }
    }
}

/// The number that a word of digits alone is.
pub fn decimal(word: &OsStr) -> Option<usize> {
    let digits = word.to_str().filter(|text| !text.is_empty() && text.bytes().all(|byte| byte.is_ascii_digit()))?;
    digits.parse().ok()
}
