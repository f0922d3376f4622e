//! A file as it is read, and the dimension that it is taken as.

use crate::arguments::Arguments;
use crate::faults;
use crate::output::{self, Output, Stop};
use crate::parts::{self, Part, Which};
use crate::words::{self, Refused};
use dgn::{Dimension, Judged, Refusal, Type, FILE_BYTES};
use std::ffi::OsStr;
use std::fs::{File as Opened, Metadata, OpenOptions};
use std::io::{self, Read};
use std::os::unix::ffi::OsStrExt;
use std::os::unix::fs::{MetadataExt, OpenOptionsExt};

/// Why a file cannot be read.
#[derive(Debug)]
pub enum Unread {
    /// A call of the system failed.
    System(io::Error),
    /// It is a folder.
    Folder,
    /// It is a device, a pipe or a socket.
    Special,
    /// It was changed while it was read.
    Changed,
}

impl std::fmt::Display for Unread {
    fn fmt(&self, f: &mut std::fmt::Formatter) -> std::fmt::Result {
        match self {
            Unread::System(why) => f.write_str(&output::reason(why)),
            Unread::Folder => f.write_str("it is a folder"),
            Unread::Special => f.write_str("it is a device, a pipe or a socket"),
            Unread::Changed => f.write_str("it was changed while it was read; run the command again"),
        }
    }
}

/// To open a pipe without waiting for its other end: O_NONBLOCK of Linux, which means nothing for a file.
const NO_WAITING: i32 = 0o4000;

/// A place for the bytes of one file after another. They begin at a multiple of [`LINE`], where the system copies them faster.
#[derive(Debug, Default)]
pub struct Buffer {
    memory: Vec<u8>,
    start: usize,
    used: usize,
}

/// The bytes of a line of the processor's cache.
const LINE: usize = 64;

/// How many bytes are asked for at once, and by how many the buffer grows.
const STEP: usize = 1 << 17;

impl Buffer {
    /// The bytes of the file that was read last.
    pub fn bytes(&self) -> &[u8] {
        &self.memory[self.start..self.start + self.used]
    }

    /// The same, without the buffer.
    pub fn into_bytes(mut self) -> Vec<u8> {
        self.memory.truncate(self.start + self.used);
        self.memory.drain(..self.start);
        self.memory
    }

    /// The room behind the bytes up to so many in all.
    fn room(&mut self, most: usize) -> &mut [u8] {
        let end = self.start + self.used;
        if self.memory.len() < LINE + most {
            self.memory.resize(LINE + most, 0);
            let start = self.memory.as_ptr().align_offset(LINE);
            self.memory.copy_within(self.start..end, start);
            self.start = start;
        }
        &mut self.memory[self.start + self.used..self.start + most]
    }

    /// Reads a file to its end, or to one byte more than the library takes. The size that it states is used to see whether it
    /// was changed meanwhile, and for nothing else.
    pub fn read(&mut self, path: &OsStr) -> Result<(), Unread> {
        self.used = 0;
        let mut file = OpenOptions::new().read(true).custom_flags(NO_WAITING).open(path).map_err(Unread::System)?;
        let before = file.metadata().map_err(Unread::System)?;
        if before.is_dir() {
            return Err(Unread::Folder);
        }
        if !before.is_file() {
            return Err(Unread::Special);
        }
        self.take(&mut file).map_err(Unread::System)?;
        let after = file.metadata().map_err(Unread::System)?;
        let state = |metadata: &Metadata| (metadata.len(), metadata.mtime(), metadata.mtime_nsec());
        // a file that the system makes as it is read states no size
        let stated = (after.len() > 0).then(|| after.len().min(FILE_BYTES as u64 + 1));
        if state(&before) != state(&after) || stated.is_some_and(|stated| self.used as u64 != stated) {
            self.used = 0;
            return Err(Unread::Changed);
        }
        Ok(())
    }

    /// The bytes up to the end, or to one more than the library takes.
    fn take(&mut self, file: &mut Opened) -> io::Result<()> {
        while self.used <= FILE_BYTES {
            match file.read(self.room((self.used + STEP).min(FILE_BYTES + 1))) {
                Ok(0) => break,
                Ok(more) => self.used += more,
                Err(why) if why.kind() == io::ErrorKind::Interrupted => {}
                Err(why) => return Err(why),
            }
        }
        Ok(())
    }
}

/// Refuses a name to write to that the log of a file has, or would have.
pub fn free_of_logs(out: &OsStr) -> Result<(), Stop> {
    match has_log_name(out) {
        true => Err(Stop::Usage(format!("{}: this name is that of a log; give another", output::name(out)))),
        false => Ok(()),
    }
}

/// Whether a name is one that a log, or what a step writes, has.
pub fn has_log_name(path: &OsStr) -> bool {
    let name = std::path::Path::new(path).file_name().unwrap_or_default();
    name.as_bytes().windows(7).any(|part| part == b".dgnlog")
}

/// Why a dimension was taken.
#[derive(Clone, Copy, PartialEq, Eq, Debug)]
pub enum How {
    /// `--2d` or `--3d`.
    Asked,
    /// The file's first element says it.
    Told,
    /// The file fits this one alone.
    Fits,
    /// It fits both.
    Both,
    /// It fits neither: the one that refuses it later, or 2D.
    Neither,
}

impl How {
    /// Its word in a column.
    pub fn word(self) -> &'static str {
        match self {
            How::Asked => "asked",
            How::Told => "told",
            How::Fits => "fits",
            How::Both => "both",
            How::Neither => "neither",
        }
    }
}

/// What the first element of a design file says: bit 6 of byte 1214, where it is of type 9. This is all that the command knows
/// of the format; the library does not tell it.
fn told(bytes: &[u8]) -> Option<Dimension> {
    let [_, kind, ..] = bytes else { return None };
    if Type::of(kind & 0x7f) != Type::Raw(9) {
        return None;
    }
    Some(if bytes.get(1214)? & 0x40 != 0 { Dimension::Three } else { Dimension::Two })
}

/// A dimension, why it was taken, and what judging the file so answers.
#[derive(Clone, Copy, Debug)]
pub struct Taken {
    /// The dimension.
    pub dimension: Dimension,
    /// Why.
    pub how: How,
    /// What the file says, where it says it.
    pub told: Option<Dimension>,
    /// The answer.
    pub judged: Result<Judged, Refusal>,
}

/// "2D" or "3D".
pub fn shown(dimension: Dimension) -> &'static str {
    match dimension {
        Dimension::Two => "2D",
        Dimension::Three => "3D",
    }
}

impl Taken {
    /// Takes the dimension that was asked for, or that the file says or fits.
    pub fn of(bytes: &[u8], asked: Option<Dimension>) -> Taken {
        Taken::by(bytes, asked, |dimension| dgn::judge(bytes, dimension))
    }

    /// The same with a judge that keeps more of the file. Of the dimensions that it accepts the one that is taken comes last.
    pub fn by(
        bytes: &[u8],
        asked: Option<Dimension>,
        mut judge: impl FnMut(Dimension) -> Result<Judged, Refusal>,
    ) -> Taken {
        let told = told(bytes);
        let mut one = |dimension, how| Taken { dimension, how, told, judged: judge(dimension) };
        if let Some(dimension) = asked {
            return one(dimension, How::Asked);
        }
        if let Some(dimension) = told {
            return one(dimension, How::Told);
        }
        let three = one(Dimension::Three, How::Fits);
        let two = one(Dimension::Two, How::Fits);
        match (&two.judged, &three.judged) {
            (Ok(_), Ok(_)) => Taken { how: How::Both, ..two },
            (Ok(_), Err(_)) => two,
            (Err(_), Ok(_)) => three,
            (Err(flat), Err(solid)) if solid.place > flat.place => Taken { how: How::Neither, ..three },
            (Err(_), Err(_)) => Taken { how: How::Neither, ..two },
        }
    }

    /// What there is to warn of.
    pub fn warning(&self) -> Option<String> {
        match (self.how, self.told) {
            (How::Both, _) => Some(words::BOTH_FIT.into()),
            (How::Asked, Some(told)) if told != self.dimension => Some(words::says(told)),
            _ => None,
        }
    }
}

/// A file that the library accepts.
#[derive(Debug)]
pub struct File<'n> {
    /// Its name.
    pub name: &'n OsStr,
    /// Its bytes, with those behind the end marker.
    pub bytes: Vec<u8>,
    /// Its dimension.
    pub dimension: Dimension,
    /// Why it is taken as that.
    pub how: How,
    /// What it holds.
    pub judged: Judged,
}

impl<'n> File<'n> {
    /// Reads and judges a file. Where that cannot be done a message says why, and the status is set.
    pub fn open(name: &'n OsStr, arguments: &Arguments, output: &mut Output) -> Option<File<'n>> {
        File::take(name, arguments, output, |bytes, taken, refusal| {
            let fault = faults::of(bytes, taken.dimension, refusal);
            Refused { length: bytes.len(), taken, refusal, fault: &fault }.line(name)
        })
    }

    /// The same for one among many: of a file that is refused the message has number and word.
    pub fn look(name: &'n OsStr, arguments: &Arguments, output: &mut Output) -> Option<File<'n>> {
        File::take(name, arguments, output, |_, _, refusal| {
            let (number, place) = (refusal.number, refusal.place);
            let numbers = format!("{} {}, word {place}", number as u8, number.name());
            format!("{}: refused ({numbers}) and not looked into; dgn check says more", output::name(name))
        })
    }

    fn take(
        name: &'n OsStr,
        arguments: &Arguments,
        output: &mut Output,
        refused: impl Fn(&[u8], &Taken, Refusal) -> String,
    ) -> Option<File<'n>> {
        let mut buffer = Buffer::default();
        if let Err(why) = buffer.read(name) {
            output.message(format_args!("{} cannot be read: {why}", output::name(name)));
            output.unread();
            return None;
        }
        let bytes = buffer.into_bytes();
        let taken = Taken::of(&bytes, arguments.dimension());
        let Taken { dimension, how, .. } = taken;
        match taken.judged {
            Ok(judged) => {
                if let Some(warning) = taken.warning() {
                    output.warning(format_args!("{}: {}: {warning}", output::name(name), shown(dimension)));
                }
                Some(File { name, bytes, dimension, how, judged })
            }
            Err(refusal) => {
                output.message(refused(&bytes, &taken, refusal));
                output.refused();
                None
            }
        }
    }

    /// All its cells.
    pub fn parts(&self) -> Vec<Part> {
        parts::all(&self.bytes, self.dimension, self.judged.marker)
    }

    /// The place of the one element that CODE|PLACE names. Where there is none, or several, a message says so, and the status
    /// is set.
    pub fn one(&self, which: &Which, output: &mut Output) -> Option<usize> {
        match parts::one(&self.bytes, self.dimension, self.judged.marker, which) {
            Ok(place) => Some(place),
            Err(why) => {
                output.message(format_args!("{}: {}: {why}", output::name(self.name), shown(self.dimension)));
                output.refused();
                None
            }
        }
    }

    /// Its name, its dimension and why that was taken, for the first line of an output.
    pub fn heading(&self) -> String {
        let why = match (self.how, self.dimension) {
            (How::Asked, _) => " (asked for)",
            (How::Fits, Dimension::Two) => " (it does not fit 3D)",
            (How::Fits, Dimension::Three) => " (it does not fit 2D)",
            (How::Both, _) => " (it fits 3D too)",
            (How::Told | How::Neither, _) => "",
        };
        format!("{}: {}{why}", output::name(self.name), shown(self.dimension))
    }
}
