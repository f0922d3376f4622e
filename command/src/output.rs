//! What is printed: results on standard output, messages on standard error, and the status.

use crate::arguments::Arguments;
use crate::help::Subcommand;
use std::ffi::OsStr;
use std::fmt::Display;
use std::io::{self, BufWriter, IsTerminal, Write};
use std::os::unix::ffi::OsStrExt;

/// All good.
pub const GOOD: u8 = 0;
/// A file is refused, or nothing was found.
pub const REFUSED: u8 = 1;
/// Wrong usage.
pub const USAGE: u8 = 2;
/// A file cannot be read or written, or standard output cannot be written. Wins over [`REFUSED`].
pub const UNREAD: u8 = 3;

/// Why a subcommand ends before its end.
#[derive(Debug)]
pub enum Stop {
    /// The arguments are wrong: what of them.
    Usage(String),
    /// Standard output cannot be written.
    Output(io::Error),
}

impl Stop {
    /// Wrong usage.
    pub fn usage(what: &str) -> Stop {
        Stop::Usage(what.into())
    }

    /// Wrong usage of a subcommand; its usage is shown too.
    pub fn of(subcommand: &Subcommand, what: &str) -> Stop {
        Stop::Usage(format!("{what}\n{}dgn {} --help says more", subcommand.usage_lines("usage: "), subcommand.name))
    }
}

/// Where results and messages go.
pub struct Output {
    out: Box<dyn Write>,
    status: u8,
    /// Lines of columns with tabs between them, for machines.
    pub tsv: bool,
    /// No warnings, no progress, no totals.
    pub quiet: bool,
    progress: bool,
    shown: bool,
}

impl Output {
    /// Standard output and standard error.
    pub fn standard() -> Output {
        let out = Box::new(BufWriter::with_capacity(1 << 16, io::stdout()));
        Output { out, status: GOOD, tsv: false, quiet: false, progress: io::stderr().is_terminal(), shown: false }
    }

    /// Takes over `--tsv` and `-q`.
    pub fn obey(&mut self, arguments: &Arguments) {
        self.tsv = arguments.has("tsv");
        self.quiet = arguments.has("quiet");
    }

    /// Text as it is.
    pub fn text(&mut self, text: &str) -> Result<(), Stop> {
        self.clear();
        self.out.write_all(text.as_bytes()).map_err(Stop::Output)
    }

    /// A line.
    pub fn line(&mut self, line: impl Display) -> Result<(), Stop> {
        self.clear();
        writeln!(self.out, "{line}").map_err(Stop::Output)
    }

    /// A line of columns with tabs between them.
    pub fn row(&mut self, columns: &[&dyn Display]) -> Result<(), Stop> {
        let mut line = String::new();
        for (k, column) in columns.iter().enumerate() {
            line += if k == 0 { "" } else { "\t" };
            line += &column.to_string();
        }
        self.line(line)
    }

    /// Puts out what was printed so far.
    pub fn flush(&mut self) -> Result<(), Stop> {
        self.out.flush().map_err(Stop::Output)
    }

    /// A message, on standard error. What was printed before it comes first.
    pub fn message(&mut self, message: impl Display) {
        let _ = self.out.flush();
        self.clear();
        // nobody can be told where standard error cannot be written
        let _ = writeln!(io::stderr(), "dgn: {message}");
    }

    /// A message that `-q` leaves out.
    pub fn warning(&mut self, message: impl Display) {
        if !self.quiet {
            self.message(format_args!("warning: {message}"));
        }
    }

    /// How far the work is: on a terminal alone, each time over the last, below what was printed.
    pub fn progress(&mut self, text: impl Display) {
        if self.progress && !self.quiet {
            self.clear();
            let _ = self.out.flush();
            let _ = write!(io::stderr(), "\r\x1b[K{text}");
            self.shown = true;
        }
    }

    /// Takes the progress away.
    pub fn clear(&mut self) {
        if self.shown {
            let _ = write!(io::stderr(), "\r\x1b[K");
            self.shown = false;
        }
    }

    /// A file is refused, or nothing was found.
    pub fn refused(&mut self) {
        self.status = self.status.max(REFUSED);
    }

    /// A file cannot be read or written.
    pub fn unread(&mut self) {
        self.status = self.status.max(UNREAD);
    }

    /// Puts everything out; the status. A pipe that its reader closed ends the command without a word.
    pub fn end(mut self, ended: Result<(), Stop>) -> u8 {
        self.clear();
        let ended = match ended {
            Err(Stop::Output(why)) => Err(Stop::Output(why)),
            other => self.flush().and(other),
        };
        match ended {
            Ok(()) => self.status,
            Err(Stop::Usage(what)) => {
                self.message(what);
                USAGE
            }
            Err(Stop::Output(why)) => {
                if why.kind() != io::ErrorKind::BrokenPipe {
                    let _ = writeln!(io::stderr(), "dgn: standard output cannot be written: {}", reason(&why));
                }
                UNREAD
            }
        }
    }
}

/// Why a call of the system failed, without its number.
pub fn reason(why: &io::Error) -> String {
    let text = why.to_string();
    match text.find(" (os error") {
        Some(at) => text[..at].into(),
        None => text,
    }
}

/// Bytes as printable text: a backslash is doubled, a byte that does not print is \x and two hexadecimal digits. Letters of
/// other scripts stay where the bytes are UTF-8.
pub fn escaped(bytes: &[u8]) -> String {
    let mut text = String::with_capacity(bytes.len());
    for chunk in bytes.utf8_chunks() {
        for letter in chunk.valid().chars() {
            match letter {
                '\\' => text += "\\\\",
                ' '..='~' => text.push(letter),
                _ if letter.escape_debug().len() == 1 => text.push(letter),
                _ => push_bytes(&mut text, letter.encode_utf8(&mut [0; 4]).as_bytes()),
            }
        }
        push_bytes(&mut text, chunk.invalid());
    }
    text
}

fn push_bytes(text: &mut String, bytes: &[u8]) {
    for byte in bytes {
        *text += &format!("\\x{byte:02x}");
    }
}

/// The characters of a text: ASCII as it is, a backslash doubled, every other byte as \x and two hexadecimal digits.
pub fn characters(bytes: &[u8]) -> String {
    let mut text = String::with_capacity(bytes.len());
    for &byte in bytes {
        match byte {
            b'\\' => text += "\\\\",
            b' '..=b'~' => text.push(byte.into()),
            _ => push_bytes(&mut text, &[byte]),
        }
    }
    text
}

/// A word as a shell takes it: as it is where no letter of it is special, else in quotes.
pub fn name(word: &(impl AsRef<OsStr> + ?Sized)) -> String {
    let bytes = word.as_ref().as_bytes();
    let shown = escaped(bytes);
    let plain = |letter: char| letter.is_alphanumeric() || "/._-+,:@%=".contains(letter);
    if !shown.is_empty() && shown.chars().all(plain) {
        shown
    } else if !shown.contains(['\\', '\'']) {
        format!("'{shown}'")
    } else {
        format!("$'{}'", shown.replace('\'', "\\'"))
    }
}

/// A file's name as a column: as it is, but for what [`escaped`] changes.
pub fn column(word: &(impl AsRef<OsStr> + ?Sized)) -> String {
    escaped(word.as_ref().as_bytes())
}

/// Puts a number behind a text.
pub fn push_number(text: &mut String, number: usize) {
    if number > 9 {
        push_number(text, number / 10);
    }
    text.push(char::from(b'0' + (number % 10) as u8));
}

/// The same with commas between groups of three digits.
pub fn push_grouped(text: &mut String, number: usize) {
    if number < 1000 {
        return push_number(text, number);
    }
    push_grouped(text, number / 1000);
    *text += &format!(",{:03}", number % 1000);
}

/// A number with commas between groups of three digits.
pub fn grouped(number: usize) -> String {
    let mut text = String::new();
    push_grouped(&mut text, number);
    text
}

/// A number with what is counted, in its plural where it is not one.
pub fn count(number: usize, what: &str) -> String {
    let plural = if number == 1 { "" } else { "s" };
    format!("{} {what}{plural}", grouped(number))
}
