//! Viewing an element, its points, its extent and its linkages.

mod common;
use common::*;
use reader::generate::{self, Random};
use reader::*;

// "Every call on a file answers 1, then the file's own refusals, then the
// rest." Each number of judging, and 13 behind them, for each call.
#[test]
fn refusals_of_the_file() {
    type Ask = fn(&[u8], u64, u64) -> Option<Refusal>;
    let calls: [Ask; 4] = [
        |file, dim, place| view(file, dim, place).err(),
        |file, dim, place| point(file, dim, place, 0).err(),
        |file, dim, place| extent(file, dim, place).err(),
        |file, dim, place| linkage(file, dim, place, 0).err(),
    ];
    let good = file(&[line(false)]);
    for call in calls {
        for place in [0, 7, u64::MAX] {
            for (number, at, file) in faulty() {
                assert_eq!(call(&file, 2, place), Some(refusal(number, at)));
            }
            assert_eq!(call(&good, 4, place), Some(refusal(1, 0)));
            assert_eq!(call(&good[1..], 2, place), Some(refusal(1, 0)));
        }
        // "13 NO SUCH: place ... not there": inner words, the marker, the end.
        for place in [1, 25, 26, 27, 1 << 31, 1 << 32, u64::MAX] {
            assert_eq!(call(&good, 2, place), Some(refusal(13, 0)));
        }
    }
}

// "Word 0: bits 0-5 level, bit 6 reserved (zero), bit 7 C, bits 8-14 type,
// bit 15 deleted." and "The symbology word has style in bits 0-2, weight in
// 3-7, colour in 8-15."
#[test]
fn fields_of_an_element() {
    let mut inner = points(11, true, 3);
    inner[0] |= 1 << 15 | 41;
    inner[2..14].copy_from_slice(&[1, 2, 3, 4, 5, 6, 7, 8, 9, 10, 0xFFFF, 0xFFFF]);
    inner[14..18].copy_from_slice(&[77, 88, 0xF7FF, 200 << 8 | 17 << 3 | 5]);
    let file = file(&[line(false), cell(false, &[line(true), inner])]);
    let wanted = View {
        level: 41,
        c: true,
        kind: 11,
        deleted: true,
        size: 31,
        depth: 1,
        header: Some(26),
        range: Some([
            i32::MIN + 65538,
            i32::MIN + (3 << 16 | 4),
            i32::MIN + (5 << 16 | 6),
            i32::MIN + (7 << 16 | 8),
            i32::MIN + (9 << 16 | 10),
            i32::MAX,
        ]),
        display: Some(Display {
            graphic_group: 77,
            attribute_index: 88,
            properties: 0xF7FF,
            style: 5,
            weight: 17,
            colour: 200,
        }),
        n: Some(3),
        name: None,
        total: None,
        count: None,
    };
    assert_eq!(view(&file, 2, 98), Ok(wanted));
    let seen = view(&file, 2, 26).unwrap();
    assert_eq!(
        (seen.kind, seen.size, seen.depth, seen.header),
        (2, 46, 0, None)
    );
    assert_eq!(
        (seen.total, seen.count, seen.n),
        (Some(27 + 26 + 31), None, None)
    );
    assert_eq!(seen.name, Some((49234, 51080)));
}

// "Known types other than 1 have words 14-17" and "1 library cell: name in
// words 16-17".
#[test]
fn fields_by_type() {
    let raw = element(5, false, 13);
    let longer = element(5, false, 14);
    let file = file(&[
        library_cell(&[]),
        raw,
        longer,
        header(7, false, 35, &[text(true)]),
    ]);
    let library = view(&file, 2, 0).unwrap();
    assert_eq!((library.display, library.name), (None, Some((55677, 0))));
    assert_eq!((library.total, library.count), (Some(16), None));
    let raw = view(&file, 2, 35).unwrap();
    assert_eq!(
        (raw.range, raw.display, raw.total, raw.n),
        (None, None, None, None)
    );
    let longer = view(&file, 2, 48).unwrap();
    assert_eq!((longer.range, longer.display), (Some([i32::MIN; 6]), None));
    let node = view(&file, 2, 62).unwrap();
    assert_eq!(
        (node.total, node.count, node.name),
        (Some(46), Some(1), None)
    );
    assert!(node.display.is_some());
    assert_eq!(view(&file, 2, 97).unwrap().header, Some(62));
}

// "3 line: two points from word 18", "4, 6, 11, 21: N in word 18" and
// "Coordinates are signed longs."
#[test]
fn points_of_elements() {
    for kind in [4, 6, 11, 21] {
        let mut flat = points(kind, false, 2);
        flat[23..27].copy_from_slice(&[0xFFFF, 0xFFFE, 0, 9]);
        let file = file(&[flat]);
        assert_eq!(point(&file, 2, 0, 0), Ok(vec![0, 0]));
        assert_eq!(point(&file, 2, 0, 1), Ok(vec![-2, 9]));
        for k in [2, 3, 1 << 32, u64::MAX] {
            assert_eq!(point(&file, 2, 0, k), refused(13, 0));
        }
    }
    let mut solid = element(3, false, 30);
    solid[24..30].copy_from_slice(&[1, 2, 0x8000, 0, 0x7FFF, 0xFFFF]);
    let file3 = file(&[solid]);
    assert_eq!(point(&file3, 3, 0, 0), Ok(vec![0, 0, 0]));
    assert_eq!(point(&file3, 3, 0, 1), Ok(vec![65538, i32::MIN, i32::MAX]));
    assert_eq!(point(&file3, 3, 0, 2), refused(13, 0));
    let others = file(&[text(false), element(5, false, 40), cell(false, &[])]);
    for place in [0, 30, 70] {
        assert_eq!(point(&others, 2, place, 0), refused(13, 0));
    }
}

// "The extent ends 19+T words after the header's start" and "The extent of an
// element without a total is the element itself."
#[test]
fn extents() {
    let file = file(&[
        line(false),
        cell(false, &[cell(true, &[line(true)]), text(true)]),
    ]);
    assert_eq!(extent(&file, 2, 0), Ok((0, 26)));
    assert_eq!(extent(&file, 2, 26), Ok((26, 26 + 46 + 46 + 26 + 30)));
    assert_eq!(extent(&file, 2, 72), Ok((72, 72 + 46 + 26)));
    assert_eq!(extent(&file, 2, 118), Ok((118, 144)));
    assert_eq!(extent(&file, 2, 144), Ok((144, 174)));
}

// "The walk gives linkage k, counted from 0: its kind, place, size and id."
#[test]
fn linkages() {
    let tail = [
        9, 0x1003, 501, 1, 2, 0, 5, 6, 7, 32768, 8, 9, 10, 0xF001, 65535,
    ];
    let mut words = element(17, true, 30 + tail.len());
    words[15] = 15;
    words[16] = 1 << 11;
    words[30..].copy_from_slice(&tail);
    let file = file(&[cell(false, &[words]), line(false)]);
    let wanted = [
        (LinkageKind::User, 46 + 31, 4, 501),
        (LinkageKind::Other, 46 + 35, 4, 0),
        (LinkageKind::Other, 46 + 39, 4, 0),
        (LinkageKind::User, 46 + 43, 2, 65535),
    ];
    for (k, (kind, place, size, id)) in wanted.into_iter().enumerate() {
        assert_eq!(
            linkage(&file, 2, 46, k as u64),
            Ok(Linkage {
                kind,
                place,
                size,
                id
            })
        );
    }
    for k in [4, 5, u64::MAX] {
        assert_eq!(linkage(&file, 2, 46, k), refused(13, 0));
    }
    // With A clear there are none.
    assert_eq!(linkage(&file, 2, 0, 0), refused(13, 0));
    assert_eq!(linkage(&file, 2, 91, 0), refused(13, 0));
    let many = generate::large::most_linkages();
    assert_eq!(
        linkage(&many.file, 2, 0, 16_376).unwrap().place,
        26 + 16_376 * 4
    );
    assert_eq!(linkage(&many.file, 2, 0, 16_377), refused(13, 0));
}

// "A place is a word index from 0": every place of small files. Exactly the
// elements' starts are answered, and the linkages fill their part.
#[test]
fn every_place() {
    let mut random = Random::new(4);
    for _ in 0..300 {
        let dim = generate::files::dimension(&mut random);
        let made = generate::valid(&mut random, dim);
        let (starts, _) = generate::places::scan(&made.file);
        assert_eq!(starts.len() as u64, made.elements);
        for place in generate::places(&made.file) {
            let seen = view(&made.file, dim, place);
            match starts.iter().find(|start| start.place == place) {
                None => assert_eq!(seen, refused(13, 0)),
                Some(start) => {
                    let seen = seen.unwrap();
                    assert_eq!((seen.depth, seen.header), (start.depth, start.header));
                    assert_eq!(extent(&made.file, dim, place), Ok((place, start.end)));
                    let mut end = None;
                    let mut k = 0;
                    while let Ok(found) = linkage(&made.file, dim, place, k) {
                        assert!(end.is_none() || end == Some(found.place));
                        end = Some(found.place + found.size);
                        k += 1;
                    }
                    assert!(end.is_none() || end == Some(place + seen.size));
                }
            }
        }
    }
}
