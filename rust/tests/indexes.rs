//! An index of the samples' cells: built, looked up in, and over bytes that are none.

mod common;

use common::{cell, sample, TWO};
use dgn::{index_room, Dimension, Entry, Index, LookedUp, Number, Refusal};

fn refused<T>(number: Number, place: usize, count: usize) -> Result<T, Refusal> {
    Err(Refusal { number, place, count })
}

fn entry(name: &str, place: usize) -> Entry {
    Entry { name: dgn::pack(name).unwrap(), place }
}

#[test]
fn built() {
    let index = Index::of(&sample("seals.cel"), TWO).unwrap();
    // by the words of the names: letters before digits
    let wanted = [entry("EMPTY", 386), entry("PUMP.1", 286), entry("00417", 0), entry("417", 181)];
    assert!(index.entries().eq(wanted) && wanted.is_sorted());
    assert_eq!((index.used(), index.entries().len()), (32, 4));

    // nested cells too, and the place as a long, high word first
    let file = sample("nested.dgn");
    let index = Index::of(&file, TWO).unwrap();
    assert!(index.entries().eq([entry("PUMP.1", 26), entry("RING", 183), entry("00417", 111)]));
    assert_eq!(index.bytes()[4..8], [0, 0, 26, 0]);
    // that of a deleted cell stays
    let (used, mut deleted) = (file.len(), file.clone());
    let mut session = dgn::Session::resume(&mut deleted[..], used, vec![0; 100], 0, TWO);
    session.mark(26, true).unwrap();
    assert_eq!(Index::of(session.file(), TWO), Ok(index));

    // no cell
    assert_eq!(Index::of(&sample("empty.dgn"), TWO).map(|index| index.used()), Ok(0));
    // the most that there can be, all of the empty name: by place
    let mut words = [0u16; 35];
    (words[0], words[1], words[18]) = (1 << 8, 33, 16);
    let mut most: Vec<u8> = words.iter().flat_map(|word| word.to_le_bytes()).collect::<Vec<u8>>().repeat(14_979);
    most.extend(dgn::END_MARKER);
    assert!(most.len() + 70 > dgn::FILE_BYTES && most.len() <= dgn::FILE_BYTES);
    let index = Index::of(&most, TWO).unwrap();
    assert_eq!(index.used(), index_room(most.len()));
    assert!(index.entries().map(|entry| entry.place).eq((0..14_979).map(|k| 35 * k)));
    assert_eq!(index_room(dgn::FILE_BYTES), index_room(usize::MAX));
}

#[test]
fn in_file_order() {
    let file = sample("nested.dgn");
    let wanted = [entry("PUMP.1", 26), entry("00417", 111), entry("RING", 183)];
    assert_eq!(dgn::all_cells(&file, TWO), Ok(wanted.to_vec()));
    // the same cells as the views have
    let views = dgn::all_views(&file, TWO).unwrap();
    let named = views.iter().filter_map(|view| Some(Entry { name: view.name?, place: view.place }));
    assert!(named.eq(wanted));

    // as many as a buffer holds, and the bytes behind them stay
    for length in 0..40 {
        let mut buffer = vec![0xa7; length];
        let cells = dgn::cells(&file, TWO, &mut buffer).unwrap();
        assert_eq!((cells.count, Ok(cells.judged)), (3, dgn::judge(&file, TWO)));
        let held = length.min(24) / 8;
        assert!(cells.entries().eq(wanted[..held].iter().copied()));
        assert!(buffer[8 * held..].iter().all(|&byte| byte == 0xa7));
    }
    let mut buffer = [0xa7; 40];
    assert_eq!(dgn::cells(&file[..7], TWO, &mut buffer).map(|_| ()), refused(Number::Call, 0, 0));
    assert_eq!(dgn::cells(&sample("shortened.cel"), TWO, &mut buffer).map(|_| ()), refused(Number::Cut, 155, 0));
    assert_eq!(buffer, [0xa7; 40]);
}

#[test]
fn lent_buffers() {
    let file = sample("seals.cel");
    let whole = Index::of(&file, TWO).unwrap();
    for length in 0..50 {
        let mut buffer = vec![0xa7; length];
        let built = Index::build(&file, TWO, &mut buffer[..]).map(|index| index.used());
        if length < 32 {
            assert_eq!(built, refused(Number::Room, 0, 0));
            assert_eq!(buffer, vec![0xa7; length]);
        } else {
            assert_eq!(built, Ok(32));
            assert!(buffer[..32] == *whole.bytes() && buffer[32..].iter().all(|&byte| byte == 0));
        }
    }
    let mut buffer = vec![0xa7; 40];
    assert_eq!(Index::build(&file[..843], TWO, &mut buffer).map(|_| ()), refused(Number::Call, 0, 0));
    assert_eq!(Index::build(&sample("shortened.cel"), TWO, &mut buffer).map(|_| ()), refused(Number::Cut, 155, 0));
    assert_eq!(Index::of(&cell(), Dimension::Three).map(|_| ()), refused(Number::Short, 0, 0));
    assert_eq!(buffer, vec![0xa7; 40]);
    assert_eq!(Index::build(&file, TWO, buffer).map(|index| index.into_buffer().len()), Ok(40));
}

#[test]
fn looked_up() {
    let file = sample("seals.cel");
    let index = Index::of(&file, TWO).unwrap();
    // entries EMPTY, PUMP.1, 00417, 417
    for (text, place, looks) in [("EMPTY", 386, 4), ("PUMP.1", 286, 4), ("00417", 0, 3), ("417", 181, 3)] {
        assert_eq!(index.look_up_with_deleted(text), Ok(LookedUp { place, looks }), "{text}");
        assert_eq!(index.look_up(&file, TWO, text), Ok(LookedUp { place, looks }), "{text}");
        assert_eq!(dgn::find(&file, TWO, text).map(|found| found.place), Ok(place));
    }
    for (text, looks) in [("A", 4), ("PUMP", 4), ("PUMP.2", 3), ("9", 2)] {
        assert_eq!(index.look_up_with_deleted(text), refused(Number::NoSuch, 0, looks), "{text}");
        assert_eq!(index.look_up(&file, TWO, text), refused(Number::NoSuch, 0, looks), "{text}");
    }
    assert_eq!(index.look_up_with_deleted("small"), refused(Number::Name, 0, 0));

    // no entry, and one: two looks, or one where its name is smaller
    let none = Index::of(&sample("empty.dgn"), TWO).unwrap();
    assert_eq!(none.look_up_with_deleted("417"), refused(Number::NoSuch, 0, 0));
    let one = Index::resume(&index.bytes()[8..16], 8);
    assert_eq!(one.look_up_with_deleted("PUMP.1"), Ok(LookedUp { place: 286, looks: 2 }));
    assert_eq!(
        (one.look_up_with_deleted("A"), one.look_up_with_deleted("Z")),
        (refused(Number::NoSuch, 0, 2), refused(Number::NoSuch, 0, 1))
    );
}

#[test]
fn other_bytes() {
    let index = Index::of(&sample("seals.cel"), TWO).unwrap();
    for used in 0..40 {
        let part = Index::resume(index.bytes(), used);
        let is_call = part.look_up_with_deleted("417").is_err_and(|refusal| refusal.number == Number::Call);
        assert_eq!(is_call, used % 8 != 0 || used > 32, "{used}");
    }
    // beyond the buffer there are no entries; of a part of one none
    assert_eq!(Index::resume(index.bytes(), 40).entries().len(), 0);
    assert_eq!(Index::resume(index.bytes(), 15).entries().len(), 1);
    // any bytes: the place that stands where the search ends, unsigned
    let any = [0xff; 16];
    assert_eq!(Index::resume(&any, 16).look_up_with_deleted("417"), refused(Number::NoSuch, 0, 3));
    let mut far = index.bytes()[24..].to_vec();
    far[4..].fill(0xff);
    assert_eq!(Index::resume(far, 8).look_up_with_deleted("417"), Ok(LookedUp { place: 0xffff_ffff, looks: 2 }));
}

/// The worked cell so many times, those of the list deleted.
fn cells(count: usize, deleted: &[usize]) -> Vec<u8> {
    let one = &cell()[..144];
    let mut file = one.repeat(count);
    deleted.iter().for_each(|&k| file[144 * k + 1] |= 128);
    file.extend(dgn::END_MARKER);
    file
}

/// Entries of 00417 at places, in this order.
fn entries(places: &[usize]) -> Vec<u8> {
    let name = dgn::pack("00417").unwrap();
    let words = places.iter().flat_map(|&place| [name.first, name.second, (place >> 16) as u16, place as u16]);
    words.flat_map(u16::to_le_bytes).collect()
}

/// Deleted cells are passed over, a look for each entry of the name; all places are those of the file.
#[test]
fn live_looked_up() {
    let file = cells(3, &[0, 1]);
    let index = Index::of(&file, TWO).unwrap();
    assert_eq!(index.look_up_with_deleted("00417"), Ok(LookedUp { place: 0, looks: 3 }));
    assert_eq!(index.look_up(&file, TWO, "00417"), Ok(LookedUp { place: 144, looks: 5 }));
    assert_eq!(dgn::find(&file, TWO, "00417").map(|found| found.place), Ok(144));
    // none is live
    let gone = cells(3, &[0, 1, 2]);
    assert_eq!(index.look_up(&gone, TWO, "00417"), refused(Number::NoSuch, 0, 5));
    assert_eq!(index.look_up(&gone, TWO, "417"), refused(Number::NoSuch, 0, 2));
    // the index, the file, the text
    assert_eq!(Index::resume(index.bytes(), 7).look_up(&[], TWO, "small"), refused(Number::Call, 0, 0));
    assert_eq!(index.look_up(&file[..1], TWO, "small"), refused(Number::Call, 0, 0));
    assert_eq!(index.look_up(&[], TWO, "small"), refused(Number::NoEnd, 0, 0));
    assert_eq!(index.look_up(&file, TWO, "small"), refused(Number::Name, 0, 0));
    assert_eq!(index.look_up(&file, Dimension::Three, "00417"), refused(Number::Short, 0, 0));
}

/// Places that start no cell are passed over, in whatever order they stand.
#[test]
fn stale() {
    let file = cells(2, &[]);
    let at = |places: &[usize]| {
        let bytes = entries(places);
        Index::resume(&bytes, bytes.len()).look_up(&file, TWO, "00417")
    };
    for stale in [1, 46, 71, 73, 144, 145, 524_287, 524_288, 0xffff_ffff] {
        assert_eq!(at(&[stale, 72]), Ok(LookedUp { place: 72, looks: 4 }), "{stale}");
        assert_eq!(at(&[stale]), refused(Number::NoSuch, 0, 2), "{stale}");
    }
    assert_eq!(at(&[72, 0]), Ok(LookedUp { place: 72, looks: 3 }));
    // many of them, falling: each costs one look
    let falling: Vec<usize> = (1..100_000).rev().map(|k| 144 + k).chain([0]).collect();
    assert_eq!(at(&falling).map(|found| found.place), Ok(0));
}
