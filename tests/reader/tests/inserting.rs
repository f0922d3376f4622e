//! Inserting: what it changes, and what it refuses in which order.

mod common;
use common::*;
use reader::words::bytes_of;
use reader::*;

// "Insert and remove move the rest and correct the total of every header on
// the path from the top down to the place, and the direct header's count."
#[test]
fn inserting() {
    let shape = header(14, true, 20, &[line(true)]);
    let start = [
        line(false),
        cell(false, &[cell(true, &[shape])]),
        line(false),
    ];
    let mut state = session(&file(&start), 60, 12);
    // 0 line, 26 cell, 72 cell, 118 shape, 138 line, 164 line, 190 marker.
    let piece = text(true);
    let mut wanted = used_words(&state);
    wanted.splice(164..164, piece.clone());
    wanted[26 + 18] += 30;
    wanted[72 + 18] += 30;
    wanted[118 + 18] += 30;
    wanted[118 + 19] += 1;
    let call = Call::Insert {
        header: Some(118),
        place: 164,
        piece: bytes_of(&piece),
    };
    assert_eq!(state.run(&call), Ok(()));
    assert_eq!(used_words(&state), wanted);
    assert_eq!((state.used, state.jused), (191 * 2 + 60, 12));
    assert_eq!(trailer(&state), [3, 0, 118, 0, 164, 0]);
    assert!(judge(state.used_file(), 2).is_ok());
    // The same place under the outer header: its own totals only.
    let mut state = session(&file(&start), 60, 12);
    let mut wanted = used_words(&state);
    wanted.splice(164..164, piece.clone());
    wanted[26 + 18] += 30;
    let call = Call::Insert {
        header: Some(26),
        place: 164,
        piece: bytes_of(&piece),
    };
    assert_eq!(state.run(&call), Ok(()));
    assert_eq!(used_words(&state), wanted);
    // At the top, at the list's end.
    let mut state = session(&file(&start), 60, 12);
    let call = Call::Insert {
        header: None,
        place: 190,
        piece: bytes_of(&text(false)),
    };
    assert_eq!(state.run(&call), Ok(()));
    assert_eq!(trailer(&state), [3, 0xFFFF, 0xFFFF, 0, 190, 0]);
    assert_eq!(used_words(&state)[220], MARKER);
    assert!(judge(state.used_file(), 2).is_ok());
}

// "the piece's own 3 to 12 and 9 (place within the piece, judged at its new
// depth and header; words left over last, at the first of them)".
#[test]
fn pieces_refused() {
    let deep = nest(7, &[]);
    let node = header(7, false, 35, &[]);
    let state = session(&file(&[cell(false, &[]), node, deep]), 0, 0);
    // 0 cell, 46 text node, 81 the nest, its innermost cell at 81+7*46.
    let insert = |header: u64, end: u64, piece: &[u16]| Call::Insert {
        header: Some(header),
        place: end,
        piece: bytes_of(piece),
    };
    let under_cell = |piece: &[u16]| insert(0, 46, piece);
    refuse(&state, &under_cell(&[]), 3, 0);
    refuse(&state, &under_cell(&[5 << 8]), 3, 0);
    refuse(&state, &under_cell(&line(true)[..25]), 3, 0);
    let mut words = line(true);
    words[0] |= 1 << 6;
    refuse(&state, &under_cell(&words), 4, 0);
    refuse(&state, &under_cell(&line(false)), 5, 0);
    let top = Call::Insert {
        header: None,
        place: 0,
        piece: bytes_of(&line(true)),
    };
    refuse(&state, &top, 5, 0);
    let last = 81 + 7 * 46;
    let end = last + 46;
    refuse(
        &state,
        &insert(last, end, &cell(true, &[line(true)])),
        10,
        46,
    );
    refuse(&state, &insert(last, end, &line(true)), 15, 0);
    let mut library = library_cell(&[]);
    library[0] |= 1 << 7;
    refuse(&state, &under_cell(&library), 6, 0);
    refuse(&state, &insert(46, 81, &line(true)), 6, 0);
    refuse(&state, &insert(46, 81, &text(true)), 15, 0);
    refuse(
        &state,
        &under_cell(&header(12, true, 20, &[cell(true, &[])])),
        6,
        20,
    );
    refuse(&state, &under_cell(&element(3, true, 25)), 7, 0);
    let mut words = cell(true, &[]);
    words[18] += 1;
    refuse(&state, &under_cell(&words), 8, 0);
    let mut words = line(true);
    words[16] = 1 << 11;
    refuse(&state, &under_cell(&words), 11, 0);
    let mut words = cell(true, &[]);
    words[19] = 64000;
    refuse(&state, &under_cell(&words), 12, 0);
    let mut words = header(12, true, 20, &[line(true)]);
    words[19] = 2;
    refuse(&state, &under_cell(&words), 9, 0);
    // Words left over come after all of these.
    words.push(0);
    refuse(&state, &under_cell(&words), 9, 0);
    words[19] = 1;
    refuse(&state, &under_cell(&words), 3, 46);
    let mut two = line(true);
    two.extend(line(true));
    refuse(&state, &under_cell(&two), 3, 26);
    // A piece that begins with the marker's word has bit 6 set.
    let top = Call::Insert {
        header: None,
        place: 0,
        piece: vec![255, 255, 0, 0],
    };
    refuse(&state, &top, 4, 0);
}

// "8 at the outermost enclosing header that would grow too large, 15, 16".
#[test]
fn inserting_too_much() {
    let raw = bytes_of(&element(5, true, 2));
    // Extents of 65,535 and of 65,489 words at 26 and 72.
    let big = element(5, true, 65_535 - 92);
    let nested = [line(false), cell(false, &[cell(true, &[big])])];
    let state = session(&file(&nested), 0, 0);
    for (header, place) in [(26, 72), (72, 118), (72, 26 + 65_535)] {
        let call = Call::Insert {
            header: Some(header),
            place,
            piece: raw.clone(),
        };
        refuse(&state, &call, 8, 26);
    }
    // Two words below the limit: exactly full.
    let big = element(5, true, 65_535 - 92 - 2);
    let nested = [line(false), cell(false, &[cell(true, &[big])])];
    let mut state = session(&file(&nested), 4, 12);
    let call = Call::Insert {
        header: Some(72),
        place: 118,
        piece: raw.clone(),
    };
    assert_eq!(state.run(&call), Ok(()));
    assert_eq!(extent(state.used_file(), 2, 26), Ok((26, 26 + 65_535)));
    let call = Call::Insert {
        header: Some(72),
        place: 118,
        piece: raw.clone(),
    };
    refuse(&state, &call, 8, 26);
    // 15 before 16, and each alone.
    let place = 46;
    let call = Call::Insert {
        header: Some(0),
        place,
        piece: raw,
    };
    let start = file(&[cell(false, &[])]);
    refuse(&session(&start, 0, 0), &call, 15, 0);
    refuse(&session(&start, 2, 12), &call, 15, 0);
    refuse(&session(&start, 4, 10), &call, 16, 0);
    assert_eq!(session(&start, 4, 12).run(&call), Ok(()));
}
