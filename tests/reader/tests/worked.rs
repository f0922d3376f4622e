//! The worked cases of the document, both sides of each.

mod common;
use common::*;
use reader::words::{bytes_of, long};
use reader::*;

// "Empty file: 2 at 0. Only `FF FF`: accepted, 0 elements. One byte: 1."
#[test]
fn smallest_files() {
    assert_eq!(judge(&[], 2), refused(2, 0));
    assert_eq!(judge(&[], 3), refused(2, 0));
    let accepted = Judged {
        elements: 0,
        deepest: 0,
        marker: 0,
    };
    assert_eq!(judge(&[0xFF, 0xFF], 2), Ok(accepted));
    assert_eq!(judge(&[0xFF], 2), refused(1, 0));
}

// "`01 00 02 00` is 65538, `FF FF FE FF` is -2 when signed."
#[test]
fn both_longs() {
    assert_eq!(long(&[1, 0, 2, 0], 0), 65538);
    assert_eq!(long(&[0xFF, 0xFF, 0xFE, 0xFF], 0) as i32, -2);
    let mut words = line(false);
    words[18..22].copy_from_slice(&[1, 2, 0xFFFF, 0xFFFE]);
    words[2..4].copy_from_slice(&[0xFFFF, 0xFFFE]);
    let file = file(&[words]);
    assert_eq!(point(&file, 2, 0, 0), Ok(vec![65538, -2]));
    // "the coordinate is the unsigned number less 2,147,483,648."
    let mut range = [i32::MIN; 6];
    range[0] = i32::MAX - 1;
    assert_eq!(view(&file, 2, 0).unwrap().range, Some(range));
}

// "00417 is 49234, 51080; 417 is 55677, 0." and "Word 64000: 12."
#[test]
fn both_names() {
    assert_eq!(pack(b"00417"), Ok((49234, 51080)));
    assert_eq!(unpack(49234, 51080), Ok(b"00417".to_vec()));
    assert_eq!(pack(b"417"), Ok((55677, 0)));
    assert_eq!(unpack(55677, 0), Ok(b"417".to_vec()));
    assert_eq!(unpack(64000, 0), refused(12, 0));
    assert_eq!(unpack(0, 64000), refused(12, 0));
    assert_eq!(unpack(63999, 63999), Ok(b"999999".to_vec()));
}

// "2D line of 26 words: accepted; of 25: 7."
#[test]
fn shortest_line() {
    let accepted = Judged {
        elements: 1,
        deepest: 0,
        marker: 26,
    };
    assert_eq!(judge(&file(&[line(false)]), 2), Ok(accepted));
    assert_eq!(judge(&file(&[element(3, false, 25)]), 2), refused(7, 0));
}

// "2D type 4 with N=2 needs 27 words; N=1 and N=102: 7; N=101 needs 423."
#[test]
fn number_of_points() {
    let with = |n: u16, size: usize| {
        let mut words = element(4, false, size);
        words[18] = n;
        judge(&file(&[words]), 2).map(|judged| judged.elements)
    };
    assert_eq!(with(2, 27), Ok(1));
    assert_eq!(with(2, 26), refused(7, 0));
    assert_eq!(with(1, 27), refused(7, 0));
    assert_eq!(with(0, 27), refused(7, 0));
    assert_eq!(with(101, 423), Ok(1));
    assert_eq!(with(101, 422), refused(7, 0));
    assert_eq!(with(102, 427), refused(7, 0));
    assert_eq!(with(102, 1000), refused(7, 0));
}

// "2D cell of 46 words with one 26-word line: T=53 accepted; 52: 3 at the
// line; 54: 3 at the marker's word, when the marker is followed by nothing."
#[test]
fn total_of_a_cell() {
    let with = |total: u16| {
        let mut words = cell(false, &[line(true)]);
        words[18] = total;
        judge(&file(&[words]), 2)
    };
    assert_eq!(
        with(53),
        Ok(Judged {
            elements: 2,
            deepest: 1,
            marker: 72
        })
    );
    assert_eq!(with(52), refused(3, 46));
    assert_eq!(with(54), refused(3, 72));
}

// The other side of T=54, words behind the marker: its word is then judged as
// a component, cut at the extent's end or with bit 6 set.
#[test]
fn total_over_the_marker() {
    let mut words = cell(false, &[line(true)]);
    words.extend([MARKER, 1, MARKER]);
    for (total, second, number) in [(54, 1, 3), (55, 1, 3), (55, 0, 4), (56, 1, 4)] {
        words[18] = total;
        words[73] = second;
        assert_eq!(judge(&bytes_of(&words), 2), refused(number, 72));
    }
    words[18] = 57;
    assert_eq!(judge(&bytes_of(&words), 2), refused(8, 0));
}

// "T=65,517: 8."
#[test]
fn total_too_large() {
    let mut words = cell(false, &[]);
    words.resize(70_000, 0);
    words[18] = 65_517;
    assert_eq!(judge(&bytes_of(&words), 2), refused(8, 0));
    let largest = generate::large::largest_extent();
    let judged = judge(&largest.file, 2).unwrap();
    assert_eq!(judged.marker, 65_535);
    assert_eq!(extent(&largest.file, 2, 0), Ok((0, 65_535)));
}

// "Marking twice: 14."
#[test]
fn marking_twice() {
    let mut state = session(&file(&[line(false)]), 0, 28);
    let marked = Call::Mark {
        place: 0,
        deleted: true,
    };
    assert_eq!(state.run(&marked), Ok(()));
    let before = state.clone();
    assert_eq!(state.run(&marked), refused(14, 0));
    assert_eq!(state, before);
    assert_eq!(
        state.run(&Call::Mark {
            place: 0,
            deleted: false
        }),
        Ok(())
    );
    assert_eq!(
        state.run(&Call::Mark {
            place: 0,
            deleted: false
        }),
        refused(14, 0)
    );
}

// "For that cell, named 00417, and its line marked deleted it prints all of:"
#[test]
fn the_printed_list() {
    let mut words = cell(false, &[line(true)]);
    words[46] |= 1 << 15;
    let printed = celllist(&file(&[words]));
    let wanted = "PLACE DEPTH TYPE WORDS STATE NAME\n\
                  0 0 2 46 live 00417\n\
                  46 1 3 26 dead\n\
                  END 72\n";
    assert_eq!(String::from_utf8(printed).unwrap(), wanted);
}
