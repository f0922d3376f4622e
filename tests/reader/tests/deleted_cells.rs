//! The finder and the look-up pass over deleted cells unless asked.

mod common;
use common::*;
use reader::generate::cells::{cells, text_for};
use reader::generate::indexes::{any_index, built, bytes_of_entries};
use reader::generate::places::scan;
use reader::generate::{self, Random};
use reader::*;

fn found(place: u64, looked: u64) -> Result<Found, FindRefusal> {
    Ok(Found { place, looked })
}

fn refused_with(number: u32, place: u64, count: u64) -> Result<Found, FindRefusal> {
    Err(FindRefusal {
        number,
        place,
        count,
    })
}

fn not_found(count: u64) -> Result<Found, FindRefusal> {
    refused_with(13, 0, count)
}

fn dead(mut words: Vec<u16>) -> Vec<u16> {
    words[0] |= 1 << 15;
    words
}

/// A cell of 46 words named A.
fn named_a(c: bool) -> Vec<u16> {
    let mut words = cell(c, &[]);
    words[19..21].copy_from_slice(&[1600, 0]);
    words
}

/// The index of a file as it is built.
fn index_of(file: &[u8], cells: usize) -> Vec<u8> {
    let mut index = vec![0; 8 * cells];
    assert_eq!(build_index(file, 2, &mut index), Ok(8 * cells as u64));
    index
}

/// The default look-up over all of an index.
fn look(file: &[u8], index: &[u8], text: &[u8]) -> Result<Found, FindRefusal> {
    look_up(file, 2, index, index.len() as u64, text)
}

// "By default the finder ... now pass over deleted cells; the count still
// includes them", "13 now also when only deleted cells match, unless asked."
#[test]
fn the_finder() {
    // 0 deleted 00417, 46 line, 72 deleted library cell 417 with 107 a live
    // 00417 in it, 153 A, 199 deleted A, 245 marker.
    let file = file(&[
        dead(cell(false, &[])),
        line(false),
        dead(library_cell(&[cell(true, &[])])),
        named_a(false),
        dead(named_a(false)),
    ]);
    assert_eq!(find(&file, 2, b"00417"), found(107, 4));
    assert_eq!(find_with_deleted(&file, 2, b"00417"), found(0, 1));
    assert_eq!(find(&file, 2, b"417"), not_found(6));
    assert_eq!(find_with_deleted(&file, 2, b"417"), found(72, 3));
    assert_eq!(find(&file, 2, b"A"), found(153, 5));
    assert_eq!(find(&file, 2, b"B"), not_found(6));
    assert_eq!(find_with_deleted(&file, 2, b"B"), not_found(6));
}

// "At the rule's end, while the entry has that name and is deleted, the look-up
// goes on to the next, counted if of that name".
#[test]
fn going_on() {
    let a = || named_a(false);
    // Three of one name, the first two deleted, and another.
    let three = file(&[dead(a()), dead(a()), a(), library_cell(&[])]);
    let index = index_of(&three, 4);
    assert_eq!(look_up_with_deleted(&index, 32, b"A"), found(0, 4));
    assert_eq!(look(&three, &index, b"A"), found(92, 6));
    assert_eq!(look(&three, &index, b"417"), found(138, 3));
    assert_eq!(look(&three, &index, b"B"), not_found(3));
    // The next entry is of another name, or there is none: not counted.
    let two = file(&[dead(a()), dead(a()), library_cell(&[])]);
    let index = index_of(&two, 3);
    assert_eq!(look_up_with_deleted(&index, 24, b"A"), found(0, 3));
    assert_eq!(look(&two, &index, b"A"), not_found(4));
    let one = file(&[dead(a())]);
    let index = index_of(&one, 1);
    assert_eq!(look_up_with_deleted(&index, 8, b"A"), found(0, 2));
    assert_eq!(look(&one, &index, b"A"), not_found(2));
    // All deleted but the last, all deleted, and a live one first.
    for number in 1..40 {
        for live in [0, number / 2, number - 1, number] {
            let elements: Vec<Vec<u16>> = (0..number)
                .map(|k| if k == live { a() } else { dead(a()) })
                .collect();
            let file = file(&elements);
            let index = index_of(&file, number);
            let first = look_up_with_deleted(&index, index.len() as u64, b"A").unwrap();
            assert_eq!(first.place, 0);
            let wanted = if live < number {
                found(46 * live as u64, first.looked + live as u64)
            } else {
                not_found(first.looked + number as u64 - 1)
            };
            assert_eq!(look(&file, &index, b"A"), wanted);
        }
    }
}

// "one whose place starts no cell counts as deleted"; a live cell of another
// name is taken.
#[test]
fn stale_entries() {
    // 0 line, 26 deleted A, 72 chain, 92 cell 00417, 138 marker and a cell
    // behind it.
    let mut bytes = file(&[
        line(false),
        dead(named_a(false)),
        header(12, false, 20, &[]),
        cell(false, &[]),
    ]);
    let marker = bytes.len() as u32 / 2 - 1;
    bytes.extend(file(&[named_a(false)]));
    let a = |place: u32| Entry {
        first: 1600,
        second: 0,
        place,
    };
    for place in [0, 1, 26, 27, 72, marker, marker + 1, 1 << 31, u32::MAX] {
        let index = bytes_of_entries(&[a(place)]);
        assert_eq!(look(&bytes, &index, b"A"), not_found(2), "{place}");
        let index = bytes_of_entries(&[a(place), a(92)]);
        assert_eq!(look(&bytes, &index, b"A"), found(92, 4), "{place}");
    }
    let index = bytes_of_entries(&[a(92)]);
    assert_eq!(look(&bytes, &index, b"A"), found(92, 2));
    assert_eq!(look(&bytes, &index, b"00417"), not_found(1));
}

// 1, of the index too, the file's own, 12, 13.
#[test]
fn refusals_of_the_look_up() {
    let index = bytes_of_entries(&[Entry {
        first: 1600,
        second: 0,
        place: 0,
    }]);
    for (number, place, file) in faulty() {
        assert_eq!(look(&file, &index, b"A"), refused_with(number, place, 0));
        assert_eq!(look(&file, &index, b"A "), refused_with(number, place, 0));
        for used in [1, 7, 9, 16, u64::MAX] {
            let answer = look_up(&file, 2, &index, used, b"A ");
            assert_eq!(answer, refused_with(1, 0, 0));
        }
    }
    let good = file(&[cell(false, &[])]);
    assert_eq!(look_up(&good, 4, &index, 8, b"A "), refused_with(1, 0, 0));
    assert_eq!(look(&good[1..], &index, b"A"), refused_with(1, 0, 0));
    assert_eq!(look(&good, &index, b"A "), refused_with(12, 0, 0));
    assert_eq!(look(&good, &[], b"A "), refused_with(12, 0, 0));
    assert_eq!(look(&good, &[], b"A"), not_found(0));
}

// Against a plain search over the elements.
#[test]
fn finder_against_a_scan() {
    let mut random = Random::new(40);
    let (mut differ, mut missing) = (0, 0);
    for _ in 0..6000 {
        let dim = generate::files::dimension(&mut random);
        let made = cells(&mut random, dim);
        let text = text_for(&mut random, &made.file);
        let Ok(wanted) = pack(&text) else {
            continue;
        };
        let (starts, _) = scan(&made.file);
        let taken = starts.iter().position(|start| {
            let name = view(&made.file, dim, start.place).unwrap().name;
            !start.deleted && name == Some(wanted)
        });
        let answer = match taken {
            Some(at) => found(starts[at].place, at as u64 + 1),
            None => not_found(made.elements),
        };
        assert_eq!(find(&made.file, dim, &text), answer);
        let asked = find_with_deleted(&made.file, dim, &text);
        differ += u32::from(answer.is_ok() && asked != answer);
        missing += u32::from(answer.is_err() && asked.is_ok());
    }
    assert!(differ > 300 && missing > 300, "{differ} {missing}");
}

// Over any bytes: the looks of the halving rule, then one for each further
// entry of that name; "CR 4's bound grows by the entries of that name".
#[test]
fn look_up_over_any_bytes() {
    let mut random = Random::new(41);
    let (mut further, mut gone, mut same) = (0, 0, 0);
    for _ in 0..20_000 {
        let dim = generate::files::dimension(&mut random);
        let made = cells(&mut random, dim);
        let index = any_index(&mut random, &made.file, dim);
        let text = text_for(&mut random, &made.file);
        let asked = look_up_with_deleted(&index.buffer, index.used, &text);
        let answer = look_up(&made.file, dim, &index.buffer, index.used, &text);
        let looks = match &asked {
            Ok(found) => found.looked,
            Err(refusal) if refusal.number == 13 => refusal.count,
            Err(_) => {
                assert_eq!(answer, asked);
                continue;
            }
        };
        let wanted = pack(&text).unwrap();
        let list = entries_in(&index.buffer[..index.used as usize]);
        let (low, _) = halved(&list, 0, list.len(), wanted);
        let run: Vec<u64> = list[low..]
            .iter()
            .take_while(|entry| entry.name() == wanted)
            .map(|entry| u64::from(entry.place))
            .collect();
        let (starts, _) = scan(&made.file);
        let live = |place: &u64| {
            starts.iter().any(|start| {
                start.place == *place && (start.kind == 1 || start.kind == 2) && !start.deleted
            })
        };
        let expected = match run.iter().position(live) {
            Some(j) => found(run[j], looks + j as u64),
            None => not_found(looks + run.len().saturating_sub(1) as u64),
        };
        assert_eq!(answer, expected);
        let of_name = list.iter().filter(|entry| entry.name() == wanted).count();
        let most = binary_digits(list.len()) + 1 + of_name as u64;
        assert!(answer.as_ref().map_or_else(|r| r.count, |f| f.looked) <= most);
        match (&asked, &answer) {
            (Ok(first), Ok(second)) if first.place != second.place => further += 1,
            (Ok(_), Err(_)) => gone += 1,
            _ => same += 1,
        }
    }
    assert!(further > 500 && gone > 500 && same > 5000);
}

// Over the built index the look-up answers as the finder for the place, asked
// and by default.
#[test]
fn as_the_finder() {
    let mut random = Random::new(42);
    let mut hits = 0;
    for _ in 0..5000 {
        let dim = generate::files::dimension(&mut random);
        let made = cells(&mut random, dim);
        let index = built(&mut random, &made.file, dim);
        let text = text_for(&mut random, &made.file);
        let place =
            |answer: Result<Found, FindRefusal>| answer.map(|f| f.place).map_err(|r| r.number);
        let looked = look_up(&made.file, dim, &index.buffer, index.used, &text);
        assert_eq!(place(find(&made.file, dim, &text)), place(looked.clone()));
        let asked = look_up_with_deleted(&index.buffer, index.used, &text);
        let old = find_with_deleted(&made.file, dim, &text);
        assert_eq!(place(old), place(asked));
        hits += u32::from(looked.is_ok());
    }
    assert!(hits > 1500, "{hits}");
}
