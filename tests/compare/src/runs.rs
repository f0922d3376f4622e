//! Both readers on the same inputs: every answer of the library must be the second reader's, every number, place and
//! byte of it.

use crate::edited::Edited;
use crate::guard::Side;
use crate::library::{self, TextCall};
use crate::seen::Seen;
use crate::whole;
use reader::generate::indexes::bytes_of_entries;
use reader::generate::text_writes::TextWrite;
use reader::generate::writes::Write;
use reader::generate::{place, places, texts, Random};
use reader::{FindRefusal, Found, Index, Judged, Refusal, Text, View};

/// What was run so far.
#[derive(Default)]
pub struct Runs {
    pub files: u64,
    pub calls: u64,
    pub seen: Seen,
    pub edits: Edited,
}

/// The numbers of a view at a place, in the order of include/dgn.h.
pub fn view_numbers(v: &View, place: u64) -> [i64; 32] {
    let number = |n: Option<u64>| [u64::from(n.is_some()), n.unwrap_or(0)];
    let range = v.range.unwrap_or([0; 6]).map(|end| end as u64);
    let display = v.display.as_ref().map_or([0; 6], |d| {
        [d.graphic_group, d.attribute_index, d.properties, d.style, d.weight, d.colour]
    });
    let name = v.name.map_or([0; 2], |(first, second)| [u64::from(first), u64::from(second)]);
    let mut all = vec![v.level, u64::from(v.c), v.kind, u64::from(v.deleted), v.size, v.depth];
    all.extend(number(v.header));
    all.push(u64::from(v.range.is_some()));
    all.extend(range);
    all.push(u64::from(v.display.is_some()));
    all.extend(display);
    all.extend(number(v.n));
    all.push(u64::from(v.name.is_some()));
    all.extend(name);
    all.extend(number(v.total));
    all.extend(number(v.count));
    all.push(place);
    let mut numbers = [0; 32];
    for (slot, value) in numbers.iter_mut().zip(all) {
        *slot = value as i64;
    }
    numbers
}

/// A point as three numbers; the third is 0 in a 2D file.
pub fn point_numbers(point: &[i32]) -> [i64; 3] {
    let mut numbers = [0; 3];
    for (slot, &value) in numbers.iter_mut().zip(point) {
        *slot = i64::from(value);
    }
    numbers
}

/// The text at a place as 15 numbers.
pub fn text_numbers(text: &Text, p: u64, dim: u64) -> [i64; 15] {
    let mut turn = [0; 4];
    for (slot, &long) in turn.iter_mut().zip(&text.rotation) {
        *slot = i64::from(long);
    }
    let [x, y, z] = point_numbers(&text.origin);
    let odd = (text.characters + 3 * text.fields) % 2 == 1;
    [
        text.font.into(),
        text.justification.into(),
        text.length_multiplier.into(),
        text.height_multiplier.into(),
        turn[0],
        turn[1],
        turn[2],
        turn[3],
        x,
        y,
        z,
        text.characters as i64,
        text.fields as i64,
        if odd { text.spare.into() } else { -1 },
        (2 * p + if dim == 2 { 60 } else { 76 }) as i64,
    ]
}

/// The twelve numbers that the writer of a text takes: 0 for what a dimension does not have, and for an odd byte where there
/// is none.
pub fn written_numbers(text: &reader::TextFields) -> [i64; 12] {
    let mut numbers = [0; 12];
    let first = [text.font, text.justification, text.length_multiplier, text.height_multiplier];
    for (slot, &value) in numbers.iter_mut().zip(&first) {
        *slot = value as i64;
    }
    for (slot, &long) in numbers[4..8].iter_mut().zip(&text.rotation) {
        *slot = long as i64;
    }
    for (slot, &axis) in numbers[8..11].iter_mut().zip(&text.origin) {
        *slot = axis;
    }
    // -1 may stand where there is no odd byte
    numbers[11] = i64::try_from(text.spare).unwrap_or(i64::MAX);
    numbers
}

/// A text as seven bytes, zeros behind it.
fn text_bytes(text: &[u8]) -> [u8; 7] {
    let mut bytes = [0; 7];
    bytes[..text.len()].copy_from_slice(text);
    bytes
}

/// The sixteen fields of the writer, in the order of include/dgn.h.
pub fn field_numbers(f: &reader::Fields) -> [i64; 16] {
    let mut all = vec![f.kind, f.level, f.c, f.deleted];
    all.extend(f.range.map(|end| end as u64));
    all.extend([f.graphic_group, f.attribute_index, f.properties, f.style, f.weight, f.colour]);
    let mut numbers = [0; 16];
    for (slot, value) in numbers.iter_mut().zip(all) {
        *slot = value as i64;
    }
    numbers
}

/// Each field of a header by its number in include/dgn.h, with values at its limits and past them; the type with those around this one.
pub fn field_limits(kind: i64) -> Vec<(usize, i64)> {
    let ends = [i64::MIN, -(1 << 31) - 1, -(1 << 31), -1, 0, 1, (1 << 31) - 1, 1 << 31, (1 << 32) - 1, 1 << 32, i64::MAX];
    let mut all: Vec<_> = (4..10).flat_map(|i| ends.map(|end| (i, end))).collect();
    let words = [(0, kind), (1, 63), (2, 1), (3, 1), (10, 65535), (11, 65535), (12, 65535), (13, 7), (14, 31), (15, 255)];
    all.extend(words.into_iter().flat_map(|(i, most)| [0, 1, 2, 3, most - 1, most, most + 1, -1].map(|value| (i, value))));
    all
}

/// Sets a field by its number; below 0 it is far above every limit.
pub fn set_field(f: &mut reader::Fields, i: usize, value: i64) {
    let slot = match i {
        0 => &mut f.kind,
        1 => &mut f.level,
        2 => &mut f.c,
        3 => &mut f.deleted,
        4..=9 => {
            f.range[i - 4] = value;
            return;
        }
        10 => &mut f.graphic_group,
        11 => &mut f.attribute_index,
        12 => &mut f.properties,
        13 => &mut f.style,
        14 => &mut f.weight,
        _ => &mut f.colour,
    };
    *slot = value as u64;
}

/// A small number, now and then a huge one.
pub fn small_or_huge(random: &mut Random) -> u64 {
    if random.one_in(20) {
        random.draw()
    } else {
        random.below(6)
    }
}

impl Runs {
    pub fn judge(&mut self, file: &[u8], dim: u64) -> Result<Judged, Refusal> {
        let ours = library::judge(file, dim);
        assert_eq!(ours, reader::judge(file, dim), "judge, {dim}D, {file:02x?}");
        self.files += 1;
        self.calls += 1;
        ours
    }

    pub fn find(&mut self, file: &[u8], dim: u64, text: &[u8]) {
        assert_eq!(library::find(file, dim, text), reader::find(file, dim, text), "find {text:?}, {dim}D, {file:02x?}");
        let theirs = reader::find_with_deleted(file, dim, text);
        assert_eq!(library::find_with_deleted(file, dim, text), theirs, "find with deleted {text:?}, {dim}D, {file:02x?}");
        self.calls += 2;
    }

    /// The index of a file, and its cells in file order, each in a buffer of so many bytes: all bytes of both.
    pub fn index(&mut self, file: &[u8], dim: u64, room: usize) {
        let what = || format!("{room} bytes, {dim}D, {file:02x?}");
        let (mut ours, mut theirs) = (vec![0xa5; room], vec![0xa5; room]);
        let answer = library::build(file, dim, &mut ours);
        assert_eq!(answer, reader::build_index(file, dim, &mut theirs), "index, {}", what());
        assert!(ours == theirs, "index, {}", what());

        let mut listed = vec![0xa5; room];
        let answer = library::cells(file, dim, &mut listed);
        let mut entries = reader::index::entries(file, dim);
        if let Ok(entries) = &mut entries {
            entries.sort_by_key(|entry| entry.place);
        }
        let expected = entries.clone().and_then(|entries| Ok((entries.len() as u64, reader::judge(file, dim)?)));
        assert_eq!(answer, expected, "cells, {}", what());
        let entries = entries.unwrap_or_default();
        let bytes = bytes_of_entries(&entries[..entries.len().min(room / 8)]);
        assert!(listed.starts_with(&bytes) && listed[bytes.len()..].iter().all(|&byte| byte == 0xa5), "cells, {}", what());
        self.calls += 2;
    }

    /// A name looked up in an index alone, which may be any bytes.
    pub fn look_up_with_deleted(&mut self, index: &Index, text: &[u8]) -> Result<Found, FindRefusal> {
        let ours = library::look_up_with_deleted(&index.buffer, index.used, text);
        let theirs = reader::look_up_with_deleted(&index.buffer, index.used, text);
        assert_eq!(ours, theirs, "look up {text:?} in {index:02x?}");
        self.calls += 1;
        ours
    }

    /// The same with a file, which may be any: live cells alone.
    pub fn look_up(&mut self, file: &[u8], dim: u64, index: &Index, text: &[u8]) -> Result<Found, FindRefusal> {
        let ours = library::look_up(file, dim, &index.buffer, index.used, text);
        let theirs = reader::look_up(file, dim, &index.buffer, index.used, text);
        assert_eq!(ours, theirs, "look up {text:?} in {index:02x?}, {dim}D, {file:02x?}");
        self.calls += 1;
        ours
    }

    /// The calls on one element, each with a number from 0.
    pub fn at(&mut self, file: &[u8], dim: u64, p: u64, k: u64) {
        assert_eq!(library::extent(file, dim, p), reader::extent(file, dim, p), "extent at {p}, {dim}D, {file:02x?}");
        assert_eq!(
            library::view(file, dim, p),
            reader::view(file, dim, p).map(|v| view_numbers(&v, p)),
            "view at {p}, {dim}D, {file:02x?}"
        );
        assert_eq!(
            library::text(file, dim, p),
            reader::read_text(file, dim, p).map(|t| text_numbers(&t, p, dim)),
            "text at {p}, {dim}D, {file:02x?}"
        );
        assert_eq!(
            library::characters(file, dim, p),
            reader::text_characters(file, dim, p),
            "characters at {p}, {dim}D, {file:02x?}"
        );
        self.calls += 4;
        self.curve(file, dim, p);
        let _ = self.in_range(file, dim, p);
        self.plate(file, dim, p);
        self.numbered(file, dim, p, k);
    }

    /// A point, a linkage and a field by number.
    pub fn numbered(&mut self, file: &[u8], dim: u64, p: u64, k: u64) {
        assert_eq!(
            library::point(file, dim, p, k),
            reader::point(file, dim, p, k).map(|v| point_numbers(&v)),
            "point {k} at {p}, {dim}D, {file:02x?}"
        );
        assert_eq!(
            library::linkage(file, dim, p, k),
            reader::linkage(file, dim, p, k),
            "linkage {k} at {p}, {dim}D, {file:02x?}"
        );
        assert_eq!(
            library::field(file, dim, p, k),
            reader::text_field(file, dim, p, k),
            "field {k} at {p}, {dim}D, {file:02x?}"
        );
        self.calls += 3;
    }

    /// Every call: at a place that is mostly an element's start, and with a text that is mostly a name.
    pub fn all(&mut self, random: &mut Random, file: &[u8], dim: u64) -> Result<Judged, Refusal> {
        library::lend_at(if random.one_in(2) { Side::Before } else { Side::Behind }, false);
        let judged = self.judge(file, dim);
        let p = place(random, file);
        let k = small_or_huge(random);
        self.at(file, dim, p, k);
        let text = texts::any_text(random);
        self.find(file, dim, &text);
        whole::any_part(random, self, file, dim);
        judged
    }

    /// Every call at every place of a file, beyond its end too: most are no element.
    pub fn everywhere(&mut self, file: &[u8], dim: u64) {
        for p in places(file) {
            self.at(file, dim, p, 0);
            self.numbered(file, dim, p, 1);
        }
    }

    pub fn pack(&mut self, text: &[u8]) {
        assert_eq!(library::pack(text), reader::pack(text), "pack {text:?}");
        self.calls += 1;
    }

    pub fn unpack(&mut self, first: u16, second: u16) {
        let ours = library::unpack(u64::from(first), u64::from(second));
        assert_eq!(ours, reader::unpack(first, second).map(|t| text_bytes(&t)), "unpack {first} {second}");
        self.calls += 1;
    }

    /// One call of the writer: its answer and every byte of the buffer. Gives the buffer where it was made.
    pub fn write(&mut self, w: &Write) -> Option<Vec<u8>> {
        let mut ours = vec![w.fill; w.room];
        let mut theirs = ours.clone();
        let answer = library::write(&field_numbers(&w.fields), &w.points, &w.tail, w.dim, &mut ours);
        let expected = reader::write(&w.fields, &w.points, &w.tail, w.dim, &mut theirs);
        assert_eq!(answer, expected, "{w:?}");
        assert_eq!(ours, theirs, "{w:?}");
        self.calls += 1;
        answer.ok().map(|words| {
            ours.truncate(2 * words as usize);
            ours
        })
    }

    /// One call of the writer of texts, in the same way.
    pub fn write_text(&mut self, w: &TextWrite) -> Option<Vec<u8>> {
        let mut ours = vec![w.fill; w.room];
        let mut theirs = ours.clone();
        let (fields, numbers) = (field_numbers(&w.text.header), written_numbers(&w.text));
        let TextWrite { characters, fields: triples, tail, dim, .. } = w;
        let call = TextCall { fields: &fields, numbers: &numbers, characters, triples, tail, dim: *dim };
        let answer = call.write(&mut ours);
        let expected = reader::write_text(&w.text, characters, triples, tail, *dim, &mut theirs);
        assert_eq!(answer, expected, "{w:?}");
        assert_eq!(ours, theirs, "{w:?}");
        self.calls += 1;
        answer.ok().map(|words| {
            ours.truncate(2 * words as usize);
            ours
        })
    }
}
