//! The index: building it, and looking names up in it.

mod common;
use common::*;
use reader::generate::cells::{cells, text_for};
use reader::generate::indexes::{any_index, bytes_of_entries, room};
use reader::generate::{self, changes, large, Random};
use reader::index::{entries, ENTRY};
use reader::words::{bytes_of, words_of};
use reader::*;

fn found(place: u64, looked: u64) -> Result<Found, FindRefusal> {
    Ok(Found { place, looked })
}

fn not_found(number: u32, count: u64) -> Result<Found, FindRefusal> {
    Err(FindRefusal {
        number,
        place: 0,
        count,
    })
}

fn entry(first: u16, second: u16, place: u32) -> Entry {
    Entry {
        first,
        second,
        place,
    }
}

/// A cell of another name, deleted or not.
fn named(first: u16, second: u16, deleted: bool) -> Vec<u16> {
    let mut words = cell(false, &[]);
    words[19..21].copy_from_slice(&[first, second]);
    words[0] |= u16::from(deleted) << 15;
    words
}

/// Builds into a buffer of that length; a refusal leaves every byte.
fn build(file: &[u8], dim: u64, length: usize) -> Result<(Vec<u8>, u64), Refusal> {
    let mut buffer = vec![0xA5; length];
    match build_index(file, dim, &mut buffer) {
        Ok(used) => Ok((buffer, used)),
        Err(refusal) => {
            assert!(buffer.iter().all(|&byte| byte == 0xA5));
            Err(refusal)
        }
    }
}

// "an index of all type 1 and 2 cells: two name words and place as a long,
// ordered by the words, unsigned, then place."
#[test]
fn entries_and_order() {
    // 0 line, 26 cell 00417, 72 cell in it, 118 cell, 164, 210, 256 library
    // cell 417, 291 marker.
    let inner = {
        let mut words = cell(true, &[]);
        words[19..21].copy_from_slice(&[1600, 2]);
        words
    };
    let elements = [
        line(false),
        cell(false, &[inner]),
        named(63999, 0, true),
        named(1600, 1, false),
        named(1600, 2, true),
        library_cell(&[]),
    ];
    let file = file(&elements);
    let wanted = [
        [1600, 1, 0, 164],
        [1600, 2, 0, 72],
        [1600, 2, 0, 210],
        [49234, 51080, 0, 26],
        [55677, 0, 0, 256],
        [63999, 0, 0, 118],
    ];
    let (buffer, used) = build(&file, 2, 48).unwrap();
    assert_eq!((words_of(&buffer), used), (wanted.concat(), 48));
    assert_eq!(buffer[..8], [0x40, 6, 1, 0, 0, 0, 164, 0]);
    assert_eq!(entries(&file, 2).unwrap()[1], entry(1600, 2, 72));
}

// A place above 65,535 is a long, high word first.
#[test]
fn far_places() {
    let far = file(&[element(5, false, 65_535), line(false), named(1, 2, false)]);
    let (buffer, _) = build(&far, 2, 8).unwrap();
    assert_eq!(words_of(&buffer), [1, 2, 1, 25]);
    assert_eq!(
        look_up_with_deleted(&buffer, 8, b"  A  B"),
        found(65_561, 2)
    );
}

// "A call that writes an index zeroes its buffer past it", "too small a buffer
// for the final index is 15", "the buffer may have any length".
#[test]
fn room_for_the_index() {
    let file = file(&[named(1, 1, false), named(2, 2, true), library_cell(&[])]);
    for length in 0..60 {
        match build(&file, 2, length) {
            Ok((buffer, used)) => {
                assert!(length >= 24);
                assert_eq!((used, buffer.len()), (24, length));
                assert!(buffer[24..].iter().all(|&byte| byte == 0));
            }
            Err(found) => {
                assert!(length < 24);
                assert_eq!(found, refusal(15, 0));
            }
        }
    }
    let (buffer, used) = build(&file, 2, 3_000_001).unwrap();
    assert_eq!(used, 24);
    assert!(buffer[24..].iter().all(|&byte| byte == 0));
    // A file without cells has an index of no entries.
    let none = common::file(&[line(false)]);
    assert_eq!(build(&none, 2, 0), Ok((vec![], 0)));
    assert_eq!(build(&none, 2, 3), Ok((vec![0; 3], 0)));
}

// 1 and the file's own refusals come before 15; words behind the marker are
// not looked at.
#[test]
fn refusals_of_building() {
    for (number, place, file) in faulty() {
        assert_eq!(build(&file, 2, 0), refused(number, place));
        assert_eq!(build(&file, 2, 800), refused(number, place));
    }
    let good = file(&[cell(false, &[])]);
    assert_eq!(build(&good, 4, 0), refused(1, 0));
    assert_eq!(build(&good[1..], 2, 0), refused(1, 0));
    assert_eq!(build(&good, 2, 7), refused(15, 0));
    let mut longer = good.clone();
    longer.extend(bytes_of(&named(1, 1, false)));
    longer.extend([255, 255]);
    assert_eq!(build(&longer, 2, 8), build(&good, 2, 8));
}

// "with low 0 and high that number, while low < high look at the middle,
// rounded down; a smaller name sets low past it, another sets high to it; at
// last look at entry low, if there." Worked by hand.
#[test]
fn looks_by_hand() {
    let index = |names: &[u16]| {
        let list: Vec<Entry> = names
            .iter()
            .enumerate()
            .map(|(k, &name)| entry(name, 0, 100 + k as u32))
            .collect();
        bytes_of_entries(&list)
    };
    let look = |names: &[u16], text: &[u8]| {
        let bytes = index(names);
        look_up_with_deleted(&bytes, bytes.len() as u64, text)
    };
    let [a, b, c, d] = [1600, 3200, 4800, 6400];
    assert_eq!(look(&[], b"A"), not_found(13, 0));
    assert_eq!(look(&[a], b"A"), found(100, 2));
    assert_eq!(look(&[b], b"A"), not_found(13, 2));
    assert_eq!(look(&[a], b"B"), not_found(13, 1));
    // The middle of two is the second one.
    assert_eq!(look(&[a, b], b"A"), found(100, 3));
    assert_eq!(look(&[a, b], b"B"), found(101, 3));
    assert_eq!(look(&[a, b], b"C"), not_found(13, 1));
    assert_eq!(look(&[a, b, c], b"B"), found(101, 3));
    assert_eq!(look(&[a, b, c], b"C"), found(102, 3));
    assert_eq!(look(&[a, b, c], b"A"), found(100, 3));
    // Equal names: the first of them, which has the least place.
    assert_eq!(look(&[a, a, a, a], b"A"), found(100, 4));
    assert_eq!(look(&[a, b, b, b], b"B"), found(101, 4));
    assert_eq!(look(&[a, b, c, d], b"D"), found(103, 3));
    assert_eq!(look(&[a, b, c, d], b"E"), not_found(13, 2));
    assert_eq!(look(&[a, b, c, d], b""), not_found(13, 4));
    // In no order: the rule's answer all the same.
    assert_eq!(look(&[d, c, b, a], b"A"), not_found(13, 4));
    assert_eq!(look(&[d, a, b, c], b"A"), not_found(13, 4));
    assert_eq!(look(&[d, a, b, c], b"D"), not_found(13, 2));
    assert_eq!(look(&[a, b, d, c], b"D"), found(102, 3));
}

// "a used index length not whole entries is 1, but the buffer may have any
// length"; then 12, then 13.
#[test]
fn refusals_of_looking_up() {
    let mut bytes = bytes_of_entries(&[entry(0, 0, 5), entry(1600, 0, 7)]);
    bytes.extend([1; 7]);
    for used in [
        1,
        2,
        4,
        7,
        9,
        12,
        23,
        24,
        32,
        1 << 32,
        u64::MAX - 7,
        u64::MAX,
    ] {
        assert_eq!(look_up_with_deleted(&bytes, used, b"A"), not_found(1, 0));
        assert_eq!(
            look_up_with_deleted(&bytes, used, b"bad text"),
            not_found(1, 0)
        );
    }
    assert_eq!(look_up_with_deleted(&bytes, 16, b"A"), found(7, 3));
    assert_eq!(look_up_with_deleted(&bytes, 16, b""), found(5, 3));
    assert_eq!(look_up_with_deleted(&bytes, 8, b"A"), not_found(13, 1));
    assert_eq!(look_up_with_deleted(&bytes, 16, b"A "), not_found(12, 0));
    assert_eq!(look_up_with_deleted(&bytes, 0, b"abc"), not_found(12, 0));
    assert_eq!(look_up_with_deleted(&[], 0, b"A"), not_found(13, 0));
    // The place is what the entry says, as an unsigned long.
    let far = bytes_of_entries(&[entry(1600, 0, u32::MAX)]);
    assert_eq!(
        look_up_with_deleted(&far, 8, b"A"),
        found(u64::from(u32::MAX), 2)
    );
}

// "Over bytes that are no built index the look-up still ends, with the halving
// rule's answer", "at most one more than the binary digits in the number of
// entries".
#[test]
fn looking_up_in_any_bytes() {
    let mut random = Random::new(30);
    let (mut hits, mut misses, mut calls) = (0, 0, 0);
    for _ in 0..20_000 {
        let dim = generate::files::dimension(&mut random);
        let made = cells(&mut random, dim);
        let index = any_index(&mut random, &made.file, dim);
        let text = text_for(&mut random, &made.file);
        let answer = look_up_with_deleted(&index.buffer, index.used, &text);
        if index.used % ENTRY != 0 || index.used > index.buffer.len() as u64 {
            assert_eq!(answer, not_found(1, 0));
            calls += 1;
            continue;
        }
        let Ok(wanted) = pack(&text) else {
            assert_eq!(answer, not_found(12, 0));
            continue;
        };
        let list = entries_in(&index.buffer[..index.used as usize]);
        let (low, looks) = halved(&list, 0, list.len(), wanted);
        let looks = looks + u64::from(low < list.len());
        assert!(looks <= binary_digits(list.len()) + 1);
        match list.get(low) {
            Some(last) if last.name() == wanted => {
                assert_eq!(answer, found(u64::from(last.place), looks));
                hits += 1;
            }
            _ => {
                assert_eq!(answer, not_found(13, looks));
                misses += 1;
            }
        }
    }
    assert!(hits > 5000 && misses > 2000 && calls > 500);
}

// "Looking up answers as the finder does for the place".
#[test]
fn as_the_finder() {
    let mut random = Random::new(31);
    let mut hits = 0;
    for _ in 0..5000 {
        let dim = generate::files::dimension(&mut random);
        let made = cells(&mut random, dim);
        let number = entries(&made.file, dim).unwrap().len();
        let mut buffer = room(&mut random, number);
        let before = buffer.clone();
        let used = match build_index(&made.file, dim, &mut buffer) {
            Ok(used) => used,
            Err(refusal) => {
                assert_eq!(refusal, common::refusal(15, 0));
                assert!(buffer == before && buffer.len() < 8 * number);
                continue;
            }
        };
        assert_eq!(used as usize, 8 * number);
        let text = text_for(&mut random, &made.file);
        let looked = look_up_with_deleted(&buffer, used, &text);
        match (find_with_deleted(&made.file, dim, &text), looked) {
            (Ok(first), Ok(second)) => {
                assert_eq!(first.place, second.place);
                hits += 1;
            }
            (Err(first), Err(second)) => assert_eq!(first.number, second.number),
            (first, second) => panic!("{first:?} {second:?}"),
        }
    }
    assert!(hits > 1500, "{hits}");
}

// Any bytes as a file: the refusals of judging, and no byte changed.
#[test]
fn building_of_any_bytes() {
    let mut random = Random::new(32);
    for _ in 0..5000 {
        let dim = 1 + random.below(4);
        let mut made = cells(&mut random, 2).file;
        match random.below(3) {
            0 => changes::change_word(&mut random, &mut made),
            1 => made = changes::soup(&mut random),
            _ => {}
        }
        let built = build(&made, dim, 10_000);
        assert_eq!(built.err(), judge(&made, dim).err());
    }
}

// The most cells that a file can hold, with many names and with one.
#[test]
fn most_cells() {
    for names in [1, 7, 1000, 14_979] {
        let made = large::most_cells(names);
        let number = 14_979;
        let (buffer, used) = build(&made.file, 2, 8 * number).unwrap();
        assert_eq!(used as usize, 8 * number);
        assert_eq!(build(&made.file, 2, 8 * number - 1), refused(15, 0));
        let words = words_of(&buffer);
        let list: Vec<&[u16]> = words.chunks(4).collect();
        assert!(list.windows(2).all(|two| two[0] < two[1]));
        for k in (0..names).step_by(101) {
            let at = made.file[35 * 2 * k + 32..35 * 2 * k + 36].to_vec();
            let name = words_of(&at);
            let text = unpack(name[0], name[1]).unwrap();
            let answer = look_up_with_deleted(&buffer, used, &text).unwrap();
            assert_eq!(
                answer.place,
                find_with_deleted(&made.file, 2, &text).unwrap().place
            );
            assert!((14..=15).contains(&answer.looked));
        }
    }
}
