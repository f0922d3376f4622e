//! Places for the calls, and a plain scan of the elements of a file.

use super::random::Random;
use super::tree::is_header;
use crate::words::words_of;

/// An element as the scan meets it.
#[derive(Debug, Clone, Copy)]
pub struct Start {
    pub place: u64,
    pub depth: u64,
    pub kind: u64,
    pub deleted: bool,
    pub header: Option<u64>,
    pub end: u64,
}

/// The elements of a valid file in file order, and the marker's place. In
/// another file the scan stops where it can go no further.
pub fn scan(file: &[u8]) -> (Vec<Start>, u64) {
    let words = words_of(file);
    let mut starts: Vec<Start> = Vec::new();
    let mut open: Vec<(u64, u64)> = Vec::new();
    let mut place = 0;
    loop {
        while open.last().is_some_and(|&(_, end)| end <= place as u64) {
            open.pop();
        }
        if open.is_empty() && words.get(place) == Some(&65535) || place + 2 > words.len() {
            return (starts, place as u64);
        }
        let first = words[place];
        let kind = u64::from(first >> 8 & 127);
        let size = usize::from(words[place + 1]) + 2;
        let total = match words.get(place + 18) {
            Some(&total) if is_header(kind) => usize::from(total) + 19,
            _ => size,
        };
        let end = (place + total) as u64;
        starts.push(Start {
            place: place as u64,
            depth: open.len() as u64,
            kind,
            deleted: first >> 15 == 1,
            header: open.last().map(|&(header, _)| header),
            end,
        });
        if end > (place + size) as u64 {
            open.push((place as u64, end));
        }
        place += size;
    }
}

/// A place for a call: mostly the start of an element.
pub fn place(random: &mut Random, file: &[u8]) -> u64 {
    let (starts, marker) = scan(file);
    place_among(random, &starts, marker, (file.len() / 2) as u64)
}

/// The same over a scan already made.
pub fn place_among(random: &mut Random, starts: &[Start], marker: u64, words: u64) -> u64 {
    match random.below(20) {
        0 => marker,
        1 => random.below(words + 1),
        2 => words + random.below(4),
        3 => huge(random),
        4 if !starts.is_empty() => {
            let start = starts[random.index(starts.len())];
            start.place + 1 + random.below(3)
        }
        5 if !starts.is_empty() => starts[random.index(starts.len())].end,
        _ if !starts.is_empty() => starts[random.index(starts.len())].place,
        _ => 0,
    }
}

/// A number far beyond any file.
pub fn huge(random: &mut Random) -> u64 {
    let low = random.below(600);
    random.pick(&[
        524_288,
        1 << 20,
        (1 << 31) - 1,
        1 << 31,
        (1 << 32) - 1,
        1 << 32,
        (1 << 32) + low,
        (1 << 63) + low,
        u64::MAX - 1,
        u64::MAX,
    ])
}

/// All places worth asking for in a file: each word, the end, and beyond it.
pub fn places(file: &[u8]) -> Vec<u64> {
    let words = (file.len() / 2) as u64;
    let mut all: Vec<u64> = (0..=words + 1).collect();
    all.extend([
        524_287,
        524_288,
        1 << 31,
        (1 << 32) - 1,
        1 << 32,
        1 << 63,
        u64::MAX,
    ]);
    all
}
