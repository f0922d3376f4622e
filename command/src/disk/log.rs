//! The log's bytes. All of it stands in the blocks of a stored journal, 512 bytes each, in five parts, each with blocks of its own:
//!
//! - the head, one block: "DGNLOG 1", the seal, dimension, number of steps, lengths of the other parts;
//! - the digests, 8 bytes for each block of the three parts behind them, made of its bytes and its number;
//! - the texts of the steps, with a zero behind them where their length is odd;
//! - the journal;
//! - the image: the file's bytes as the last step left them.
//!
//! The seal is the digest of the head behind it and of all digests. So a block that is damaged is seen by its sum, and one that
//! is whole but stands elsewhere or is of another log by its digest.

use crate::disk::session::undone;
use crate::output;
use dgn::{blocks_of_journal, journal_of_blocks, Dimension, History, FILE_BYTES};
use std::ffi::OsString;
use std::os::unix::ffi::{OsStrExt, OsStringExt};

const MAGIC: &[u8; 8] = b"DGNLOG 1";

/// The bytes of a block, and how many of them are a part's.
const BLOCK: usize = 512;
const HELD: usize = 508;

/// The bytes of the head.
const HEAD: usize = 40;

/// What is told of a step.
#[derive(Clone, PartialEq, Debug)]
pub struct Step {
    /// When it was made, in seconds since the start of 1970 (UTC).
    pub time: u64,
    /// The number of the user.
    pub user: u32,
    /// The user's name, empty where the system had none.
    pub name: OsString,
    /// How many edits an undo took back; 0 for an edit.
    pub undone: u32,
    /// The words of the command, without the file's name.
    pub words: Vec<OsString>,
}

/// A file's history.
#[derive(Clone, PartialEq, Debug)]
pub struct Log {
    /// The file's dimension.
    pub dimension: Dimension,
    /// All steps, undone ones and undos too.
    pub steps: Vec<Step>,
    /// The library's journal: a record for each edit that is not undone.
    pub journal: Vec<u8>,
    /// The file as the last step left it.
    pub image: Vec<u8>,
}

/// What became of a step.
#[derive(Clone, Copy, PartialEq, Eq, Debug)]
pub enum State {
    /// An edit that stands.
    Made,
    /// An edit that was undone, by the step with this number, from 1.
    UndoneBy(usize),
    /// An undo.
    Undo,
}

/// A number made of bytes and of another number: each word of the bytes changes it.
fn digest(start: u64, bytes: &[u8]) -> u64 {
    let words = bytes.chunks(8).map(|part| {
        let mut word = [0; 8];
        word[..part.len()].copy_from_slice(part);
        u64::from_le_bytes(word)
    });
    words.fold(start ^ 0xcbf2_9ce4_8422_2325, |sum, word| {
        let mixed = (sum ^ word).wrapping_mul(0x9e37_79b9_7f4a_7c15);
        mixed ^ mixed >> 29
    })
}

/// The digests of blocks, the first of which has this number in the log.
fn digests(first: usize, blocks: &[u8]) -> impl Iterator<Item = u64> + '_ {
    blocks.chunks(BLOCK).enumerate().map(move |(k, block)| digest((first + k) as u64, block))
}

/// How many blocks a part of this length has.
fn count(length: usize) -> usize {
    length.div_ceil(HELD)
}

impl Log {
    /// A history without steps.
    pub fn new(dimension: Dimension, image: Vec<u8>) -> Log {
        Log { dimension, steps: Vec::new(), journal: Vec::new(), image }
    }

    /// The log's bytes; none where the texts of the steps have no room, which is the same as for the journal.
    pub fn encode(&self) -> Option<Vec<u8>> {
        let mut texts = Vec::new();
        self.steps.iter().for_each(|step| step.put(&mut texts));
        let length = texts.len();
        texts.resize(length.next_multiple_of(2), 0);
        let parts: Option<Vec<_>> =
            [&texts, &self.journal, &self.image].iter().map(|part| blocks_of_journal(part).ok()).collect();
        let behind = parts?.concat();
        let table = 8 * (behind.len() / BLOCK);
        let first = 1 + count(table);
        let table: Vec<u8> = digests(first, &behind).flat_map(u64::to_le_bytes).collect();
        let numbers =
            [self.dimension as usize, self.steps.len(), table.len(), length, self.journal.len(), self.image.len()];
        let mut head: Vec<u8> = numbers.iter().flat_map(|&number| (number as u32).to_le_bytes()).collect();
        let seal = digest(0, &[&head[..], &table].concat());
        head.splice(0..0, [&MAGIC[..], &seal.to_le_bytes()].concat());
        let front = [blocks_of_journal(&head).ok()?, blocks_of_journal(&table).ok()?].concat();
        Some([front, behind].concat())
    }

    /// Whether bytes begin as a log does, or a part of one that was cut off: with nothing, or with a sector not yet written.
    pub fn begins(bytes: &[u8]) -> bool {
        let first = &bytes[..bytes.len().min(MAGIC.len())];
        MAGIC.starts_with(first) || bytes.iter().take(BLOCK).all(|&byte| byte == 0)
    }

    /// The log of its bytes, or what is damaged.
    pub fn decode(bytes: &[u8]) -> Result<Log, String> {
        let all = bytes.len() / BLOCK;
        if bytes.len() % BLOCK != 0 || all == 0 {
            return Err(format!("block {all} is cut off"));
        }
        let wrong = |block: usize| format!("the check of block {block} is wrong");
        let head = journal_of_blocks(&bytes[..BLOCK]).map_err(|_| wrong(0))?;
        if head.len() != HEAD || &head[..8] != MAGIC {
            return Err("block 0 is not the first block of a log".into());
        }
        let seal = u64::from_le_bytes(head[8..16].try_into().expect("8 bytes"));
        let numbers = head[16..].chunks(4).map(|part| u32::from_le_bytes(part.try_into().expect("4 bytes")) as usize);
        let [dimension, steps, lengths @ ..]: [usize; 6] = numbers.collect::<Vec<_>>().try_into().expect("6 numbers");
        let behind: usize = lengths[1..].iter().map(|&length| count(length)).sum();
        if lengths.iter().any(|&length| length > FILE_BYTES) || lengths[0] != 8 * behind {
            return Err("block 0 is not the first block of a log".into());
        }
        let wanted = 1 + lengths.iter().map(|&length| count(length)).sum::<usize>();
        if all != wanted {
            return Err(format!(
                "it has {all} blocks and should have {wanted}: block {} is the first bad one",
                all.min(wanted)
            ));
        }
        let mut first = 1;
        let mut parts = Vec::new();
        for length in lengths {
            let blocks = &bytes[BLOCK * first..][..BLOCK * count(length)];
            let part = journal_of_blocks(blocks).map_err(|refusal| wrong(first + refusal.place))?;
            if part.len() != length.next_multiple_of(2) {
                return Err(wrong(first + count(length) - 1));
            }
            parts.push(part);
            first += count(length);
        }
        let [table, texts, journal, image]: [Vec<u8>; 4] = parts.try_into().expect("4 parts");
        if digest(0, &[&head[16..], &table].concat()) != seal {
            return Err(format!("its seal is broken: one of the blocks 0 to {} is of another log", count(table.len())));
        }
        let behind = 1 + count(table.len());
        let stored = table.chunks(8).map(|part| u64::from_le_bytes(part.try_into().unwrap_or_default()));
        if let Some(k) = digests(behind, &bytes[BLOCK * behind..]).zip(stored).position(|(a, b)| a != b) {
            return Err(format!("block {} is whole, but is not the one that was written there", behind + k));
        }
        let dimension = match dimension {
            2 => Dimension::Two,
            3 => Dimension::Three,
            _ => return Err("block 0 has a wrong dimension".into()),
        };
        let unfit = || "its parts do not fit".to_string();
        let steps = Step::all(&texts[..lengths[1]], steps).ok_or_else(unfit)?;
        let log = Log { dimension, steps, journal, image };
        match log.states() {
            Some(states) if Some(states.iter().filter(|&&state| state == State::Made).count()) == log.records() => {
                Ok(log)
            }
            _ => Err(unfit()),
        }
    }

    /// How many records the journal has; none where it is ill-formed.
    fn records(&self) -> Option<usize> {
        History::new(&self.journal, self.journal.len()).try_fold(0, |count, record| record.ok().map(|_| count + 1))
    }

    /// What became of each step; none where more was undone than was made.
    pub fn states(&self) -> Option<Vec<State>> {
        let mut states = Vec::new();
        let mut made = Vec::new();
        for (k, step) in self.steps.iter().enumerate() {
            states.push(if step.undone == 0 { State::Made } else { State::Undo });
            if step.undone == 0 {
                made.push(k);
            }
            for _ in 0..step.undone {
                states[made.pop()?] = State::UndoneBy(k + 1);
            }
        }
        Some(states)
    }

    /// How many edits stand, and can be undone.
    pub fn standing(&self) -> usize {
        self.states().map_or(0, |states| states.iter().filter(|&&state| state == State::Made).count())
    }

    /// Whether the other log is this one with exactly one step more: the library's undo of an edit leads back, and that of an
    /// undo leads on.
    pub fn followed_by(&self, next: &Log) -> bool {
        let Some((last, before)) = next.steps.split_last() else { return false };
        if next.dimension != self.dimension || before != self.steps {
            return false;
        }
        let (from, to, count) = if last.undone == 0 { (next, self, 1) } else { (self, next, last.undone as usize) };
        undone(&from.image, &from.journal, self.dimension, count)
            .is_ok_and(|(file, journal)| (&file, &journal) == (&to.image, &to.journal))
    }

    /// The file before the first step; none where the journal does not lead back.
    pub fn original(&self) -> Option<Vec<u8>> {
        undone(&self.image, &self.journal, self.dimension, self.records()?).ok().map(|pair| pair.0)
    }
}

fn put_bytes(to: &mut Vec<u8>, bytes: &[u8]) {
    to.extend((bytes.len() as u32).to_le_bytes());
    to.extend(bytes);
}

/// Takes that many bytes from the front.
fn take<'a>(from: &mut &'a [u8], length: usize) -> Option<&'a [u8]> {
    let (front, rest) = from.split_at_checked(length)?;
    *from = rest;
    Some(front)
}

fn take_number(from: &mut &[u8]) -> Option<u32> {
    take(from, 4)?.try_into().ok().map(u32::from_le_bytes)
}

fn take_bytes(from: &mut &[u8]) -> Option<OsString> {
    let length = take_number(from)? as usize;
    take(from, length).map(|bytes| OsString::from_vec(bytes.to_vec()))
}

impl Step {
    fn put(&self, to: &mut Vec<u8>) {
        to.extend(self.time.to_le_bytes());
        to.extend(self.user.to_le_bytes());
        to.extend(self.undone.to_le_bytes());
        put_bytes(to, self.name.as_bytes());
        to.extend((self.words.len() as u32).to_le_bytes());
        self.words.iter().for_each(|word| put_bytes(to, word.as_bytes()));
    }

    fn take(from: &mut &[u8]) -> Option<Step> {
        let time = u64::from_le_bytes(take(from, 8)?.try_into().ok()?);
        let (user, undone, name) = (take_number(from)?, take_number(from)?, take_bytes(from)?);
        let words = (0..take_number(from)?).map(|_| take_bytes(from)).collect::<Option<_>>()?;
        Some(Step { time, user, name, undone, words })
    }

    /// The steps of their texts, all of which are used.
    fn all(mut texts: &[u8], count: usize) -> Option<Vec<Step>> {
        let steps = (0..count).map(|_| Step::take(&mut texts)).collect::<Option<_>>()?;
        texts.is_empty().then_some(steps)
    }

    /// The words of the command as a shell takes them.
    pub fn shown(&self) -> String {
        self.words.iter().map(|word| output::name(word)).collect::<Vec<_>>().join(" ")
    }

    /// The same as a column, where nothing is quoted.
    pub fn column(&self) -> String {
        self.words.iter().map(|word| output::column(word)).collect::<Vec<_>>().join(" ")
    }
}
