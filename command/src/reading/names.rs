//! The names of the files to check, in their order: those of a folder sorted, with those of the folders in it.

use crate::output::{self, Stop};
use std::ffi::{OsStr, OsString};
use std::fs;
use std::io::{self, BufRead, BufReader};
use std::os::unix::ffi::{OsStrExt, OsStringExt};
use std::path::{Path, PathBuf};

/// A file to check, or a folder that cannot be read.
pub enum Named {
    /// A file. A name that was given may be a folder's, of which [`Names::within`] gives the files.
    File(PathBuf),
    /// A folder, and why it cannot be read.
    Folder(PathBuf, io::Error),
}

/// The names, one after another. In memory are those of the folder that is being gone through and of the folders around it.
pub struct Names<'a> {
    given: Given<'a>,
    folders: Vec<(PathBuf, Entries)>,
    /// Every file of a folder, whatever its name.
    every: bool,
    /// How many files of folders were passed over for their names.
    pub others: usize,
}

/// Where the names come from.
enum Given<'a> {
    Words(std::slice::Iter<'a, OsString>),
    Lines { from: Box<dyn BufRead>, end: u8, failed: Option<io::Error> },
    Folder(Option<PathBuf>),
}

impl<'a> Names<'a> {
    fn new(given: Given<'a>, every: bool) -> Names<'a> {
        Names { given, folders: Vec::new(), every, others: 0 }
    }

    /// The names that are given.
    pub fn of(words: &'a [OsString], every: bool) -> Names<'a> {
        Names::new(Given::Words(words.iter()), every)
    }

    /// The names that stand in a file, or on standard input where that is `-`, each ended by the byte `end`.
    pub fn from(name: &OsStr, end: u8, every: bool) -> Result<Names<'a>, io::Error> {
        let from: Box<dyn BufRead> = match name == "-" {
            true => Box::new(BufReader::new(io::stdin())),
            false => Box::new(BufReader::new(fs::File::open(name)?)),
        };
        Ok(Names::new(Given::Lines { from, end, failed: None }, every))
    }

    /// The names of a folder.
    pub fn within(folder: PathBuf, every: bool) -> Names<'a> {
        Names::new(Given::Folder(Some(folder)), every)
    }

    /// Why the names could not be read to their end.
    pub fn failed(&self) -> Option<&io::Error> {
        match &self.given {
            Given::Lines { failed, .. } => failed.as_ref(),
            _ => None,
        }
    }

    /// The next name that is given, with whether it is known to be a folder's.
    fn given(&mut self) -> Option<(PathBuf, bool)> {
        match &mut self.given {
            Given::Words(words) => Some((PathBuf::from(words.next()?), false)),
            Given::Folder(folder) => Some((folder.take()?, true)),
            Given::Lines { from, end, failed } => loop {
                let mut line = Vec::new();
                match from.read_until(*end, &mut line) {
                    Ok(0) => return None,
                    Ok(_) => line.truncate(line.len() - usize::from(line.ends_with(&[*end]))),
                    Err(why) => {
                        *failed = Some(why);
                        return None;
                    }
                }
                if !line.is_empty() {
                    return Some((PathBuf::from(OsString::from_vec(line)), false));
                }
            },
        }
    }
}

/// The names that are given, and in place of a folder those of its files.
pub fn each(words: &[OsString], every: bool) -> impl Iterator<Item = Named> + '_ {
    words.iter().flat_map(move |word| match Path::new(word).is_dir() {
        true => Names::within(word.into(), every),
        false => Names::of(std::slice::from_ref(word), every),
    })
}

/// What stands in a folder, by the names, with whether each is a folder. The names stand in one piece of memory, since there may
/// be a million.
struct Entries {
    bytes: Vec<u8>,
    /// Where each name ends, how long it is, and whether it is a folder's; in the order of the names.
    list: std::vec::IntoIter<(usize, u16, bool)>,
}

impl Entries {
    /// Those of a folder, but for links to folders.
    fn of(path: &Path) -> io::Result<Entries> {
        let (mut bytes, mut list) = (Vec::new(), Vec::new());
        for entry in fs::read_dir(path)? {
            let entry = entry?;
            let kind = entry.file_type()?;
            if !(kind.is_symlink() && entry.path().is_dir()) {
                let name = entry.file_name();
                bytes.extend(name.as_bytes());
                // Linux has names of at most 255 bytes
                list.push((bytes.len(), name.len() as u16, kind.is_dir()));
            }
        }
        let name = |&(end, length, _): &(usize, u16, bool)| &bytes[end - usize::from(length)..end];
        list.sort_unstable_by(|one, other| name(one).cmp(name(other)));
        Ok(Entries { bytes, list: list.into_iter() })
    }

    fn next(&mut self) -> Option<(&OsStr, bool)> {
        let (end, length, is_folder) = self.list.next()?;
        Some((OsStr::from_bytes(&self.bytes[end - usize::from(length)..end]), is_folder))
    }
}

/// Whether a file of a folder is taken by its name.
fn is_design(name: &OsStr) -> bool {
    let ending = Path::new(name).extension().and_then(OsStr::to_str).unwrap_or("");
    ending.eq_ignore_ascii_case("dgn") || ending.eq_ignore_ascii_case("cel")
}

impl Iterator for Names<'_> {
    type Item = Named;

    fn next(&mut self) -> Option<Named> {
        loop {
            let (path, is_folder) = match self.folders.last_mut() {
                None => self.given()?,
                Some((folder, entries)) => match entries.next() {
                    None => {
                        self.folders.pop();
                        continue;
                    }
                    Some((name, is_folder)) if is_folder || self.every || is_design(&name) => {
                        (folder.join(name), is_folder)
                    }
                    Some(_) => {
                        self.others += 1;
                        continue;
                    }
                },
            };
            if !is_folder {
                return Some(Named::File(path));
            }
            match Entries::of(&path) {
                Ok(entries) => self.folders.push((path, entries)),
                Err(why) => return Some(Named::Folder(path, why)),
            }
        }
    }
}

/// That a list of names cannot be read.
pub fn unread(name: &OsStr, why: &io::Error) -> String {
    format!("the names in {} cannot be read: {}", output::name(name), output::reason(why))
}

/// The byte that ends a name.
pub fn end_of(null: bool) -> u8 {
    if null {
        0
    } else {
        b'\n'
    }
}

/// `--from` or words, and not both.
pub fn either(words: usize, from: bool) -> Result<(), Stop> {
    if from && words > 0 {
        return Err(Stop::usage("--from and names of files exclude each other"));
    }
    Ok(())
}
