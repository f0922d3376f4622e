//! The bindings' own structs, errors and sessions against the second reader.

use crate::runs::{text_numbers, Runs};
use dgn::{
    Bounds, Dimension, DisplayHeader, Fields, Index, LinkageKind, Point, Session, TextAt, TextFields, Turn, Type, View,
};
use reader::generate::indexes::built;
use reader::generate::places::scan;
use reader::generate::sessions::fresh_state;
use reader::generate::text_writes::good_text;
use reader::generate::{aimed, texts, valid, Random, ORDER};
use reader::{Call, Refusal, State};

fn dimension(dim: u64) -> Dimension {
    if dim == 2 {
        Dimension::Two
    } else {
        Dimension::Three
    }
}

/// A refusal of the bindings as the second reader's, but for the count.
fn plain(r: dgn::Refusal) -> Refusal {
    Refusal { number: r.number as u32, place: r.place as u64 }
}

/// Every field of a view.
fn same(ours: &View, theirs: &reader::View, place: u64) {
    let number = |n: Option<u64>| n.map(|n| n as usize);
    assert_eq!(ours.place as u64, place);
    assert_eq!((u64::from(ours.level), ours.component), (theirs.level, theirs.c));
    assert_eq!((u64::from(ours.kind.number()), ours.deleted), (theirs.kind, theirs.deleted));
    assert_eq!(ours.kind, Type::of(theirs.kind as u8));
    assert_eq!((ours.size as u64, ours.depth as u64), (theirs.size, theirs.depth));
    assert_eq!(ours.header, number(theirs.header));
    let bounds = ours.bounds.map(|b| [b.low, b.high].concat());
    assert_eq!(bounds, theirs.range.map(|range| range.to_vec()));
    let display = ours.display.map(|d| reader::Display {
        graphic_group: d.graphic_group.into(),
        attribute_index: d.attribute_index.into(),
        properties: d.properties.into(),
        style: d.style.into(),
        weight: d.weight.into(),
        colour: d.colour.into(),
    });
    assert_eq!(display, theirs.display);
    assert_eq!(ours.points, number(theirs.n));
    assert_eq!(ours.name.map(|n| (n.first, n.second)), theirs.name);
    assert_eq!((ours.total, ours.components), (number(theirs.total), number(theirs.count)));
}

/// A point as the second reader has it.
fn coordinates(point: Point, dim: u64) -> Vec<i32> {
    [point.x, point.y, point.z][..dim as usize].to_vec()
}

/// The text at a place, or why there is none.
fn text(file: &[u8], dim: u64, place: u64) {
    let (d, at) = (dimension(dim), place as usize);
    let ours = dgn::text(file, d, at).map_err(plain);
    let theirs = reader::read_text(file, dim, place);
    assert_eq!(ours.clone().map(|t| text_numbers_of(&t)), theirs.clone().map(|t| text_numbers(&t, place, dim)));
    let part = dgn::characters(file, d, at).map_err(plain);
    let bytes = reader::text_characters(file, dim, place);
    assert_eq!(part, bytes.map(|(start, length)| &file[start as usize..(start + length) as usize]));
    if let Ok(text) = ours {
        assert_eq!(part, Ok(&file[text.characters]));
    }
}

/// The numbers of dgn.h that a text of the bindings stands for.
fn text_numbers_of(text: &dgn::Text) -> [i64; 15] {
    let turn = match text.turn {
        Turn::Flat(rotation) => [rotation, 0, 0, 0],
        Turn::Solid(longs) => longs,
    };
    let [a, b, c, d] = turn.map(i64::from);
    let Point { x, y, z } = text.origin;
    let [x, y, z] = [x, y, z].map(i64::from);
    let first = [text.font.into(), text.justification.into(), text.length.into(), text.height.into()];
    let odd = text.odd.map_or(-1, i64::from);
    let last = [text.characters.len() as i64, text.fields.into(), odd, text.characters.start as i64];
    [first[0], first[1], first[2], first[3], a, b, c, d, x, y, z, last[0], last[1], last[2], last[3]]
}

/// The cells of a file in file order and by its index, and names looked up in that.
fn cells(file: &[u8], dim: u64) {
    let d = dimension(dim);
    let of = |entry: dgn::Entry| reader::Entry {
        first: entry.name.first,
        second: entry.name.second,
        place: entry.place as u32,
    };
    let entries = reader::index::entries(file, dim);
    let index = Index::of(file, d).map_err(plain);
    assert_eq!(index.clone().map(|index| index.entries().map(of).collect()), entries);
    let listed = dgn::all_cells(file, d).map_err(plain);
    let in_order = entries.clone().map(|mut entries| {
        entries.sort_by_key(|entry| entry.place);
        entries
    });
    assert_eq!(listed.map(|cells| cells.into_iter().map(of).collect()), in_order);
    let Ok(index) = index else { return };
    assert_eq!(index.used(), 8 * entries.map_or(0, |entries| entries.len()));
    for text in [&b"00417"[..], b"417", b"ABC", b"", b"small"] {
        for with_deleted in [true, false] {
            let ours = if with_deleted { index.look_up_with_deleted(text) } else { index.look_up(file, d, text) };
            let ours = ours.map(|found| (found.place as u64, found.looks as u64));
            let ours = ours.map_err(|r| (r.number as u32, r.place as u64, r.count as u64));
            let (bytes, used) = (index.bytes(), index.used() as u64);
            let theirs = if with_deleted {
                reader::look_up_with_deleted(bytes, used, text)
            } else {
                reader::look_up(file, dim, bytes, used, text)
            };
            assert_eq!(ours, theirs.map(|found| (found.place, found.looked)).map_err(|r| (r.number, r.place, r.count)));
        }
    }
}

/// Every reading call on a file.
pub fn file(runs: &mut Runs, file: &[u8], dim: u64) {
    let d = dimension(dim);
    runs.calls += 1;
    let judged = reader::judge(file, dim);
    let ours = dgn::judge(file, d).map(|j| (j.elements as u64, j.deepest as u64, j.marker as u64));
    assert_eq!(ours.map_err(plain), judged.clone().map(|j| (j.elements, j.deepest, j.marker)));
    cells(file, dim);
    for text in [&b"00417"[..], b"417", b"", b"small"] {
        for with_deleted in [true, false] {
            let ours = if with_deleted { dgn::find_with_deleted(file, d, text) } else { dgn::find(file, d, text) };
            let ours = ours.map(|f| (f.place as u64, f.looked_at as u64));
            let ours = ours.map_err(|r| (r.number as u32, r.place as u64, r.count as u64));
            let theirs =
                if with_deleted { reader::find_with_deleted(file, dim, text) } else { reader::find(file, dim, text) };
            assert_eq!(ours, theirs.map(|f| (f.place, f.looked)).map_err(|r| (r.number, r.place, r.count)));
        }
    }
    if let Err(refusal) = judged {
        assert_eq!(dgn::all_texts(file, d).map(|_| ()).map_err(plain), Err(refusal.clone()));
        assert_eq!(dgn::all_views(file, d).map(|_| ()).map_err(plain), Err(refusal.clone()));
        assert_eq!(dgn::all_points(file, d).map(|_| ()).map_err(plain), Err(refusal.clone()));
        assert_eq!(dgn::all_ranges(file, d).map(|_| ()).map_err(plain), Err(refusal.clone()));
        assert_eq!(Session::open(file.to_vec(), file.len(), vec![], d).map(|_| ()).map_err(plain), Err(refusal));
        return;
    }
    let starts = scan(file).0;
    let views: Vec<View> = dgn::all_views(file, d).expect("an accepted file");
    assert_eq!(views.len(), starts.len());
    let mut drawn = dgn::all_points(file, d).expect("an accepted file").into_iter();
    let mut texts = dgn::all_texts(file, d).expect("an accepted file").into_iter();
    let mut outside = dgn::all_ranges(file, d).expect("an accepted file").into_iter();
    for (view, start) in views.iter().zip(&starts) {
        let place = start.place as usize;
        same(view, &reader::view(file, dim, start.place).expect("an element"), start.place);
        assert_eq!(dgn::view(file, d, place), Ok(*view));
        let extent = dgn::extent(file, d, place).expect("an element");
        assert_eq!((extent.start as u64, extent.end as u64), (start.place, start.end));
        for k in 0..3 {
            let ours = dgn::point(file, d, place, k).map(|p| coordinates(p, dim)).map_err(plain);
            assert_eq!(ours, reader::point(file, dim, start.place, k as u64));
            let ours = dgn::linkage(file, d, place, k).map(|l| {
                let user = l.kind == LinkageKind::User;
                (user, l.place as u64, l.size as u64, l.id)
            });
            let theirs = reader::linkage(file, dim, start.place, k as u64).map(|l| {
                let user = l.kind == reader::LinkageKind::User;
                (user, l.place, l.size, l.id)
            });
            assert_eq!(ours.map_err(plain), theirs);
            let ours = dgn::field(file, d, place, k);
            let ours = ours.map(|f| (u64::from(f.first), u64::from(f.length), i64::from(f.justification)));
            let theirs = reader::text_field(file, dim, start.place, k as u64);
            assert_eq!(ours.map_err(plain), theirs.map(|f| (f.first, f.length, f.justification)));
        }
        text(file, dim, start.place);
        if view.kind == Type::Text {
            let text = dgn::text(file, d, place).expect("a text");
            let found = TextAt { place, deleted: view.deleted, depth: view.depth, text };
            assert_eq!(texts.next(), Some(found));
        }
        let held = dgn::in_range(file, d, place).map_err(plain);
        assert_eq!(held, reader::points_in_range(file, dim, start.place));
        if held == Ok(false) {
            assert_eq!(outside.next(), Some(place));
        }
        let points: Vec<_> = (0..).map_while(|k| reader::point(file, dim, start.place, k).ok()).collect();
        if !points.is_empty() {
            let ours = drawn.next().expect("an element with points");
            assert_eq!(ours.place, place);
            assert_eq!(ours.points.into_iter().map(|p| coordinates(p, dim)).collect::<Vec<_>>(), points);
        }
    }
    assert_eq!(drawn.next(), None);
    assert_eq!(texts.next(), None);
    assert_eq!(outside.next(), None);
}

/// All views, points and texts of an accepted file are those that its numbers say.
pub fn all(file: &[u8], dim: u64, views: &[i64], points: &[i64], texts: &[i64]) {
    let given = dgn::all_views(file, dimension(dim)).expect("an accepted file");
    assert!(given.into_iter().eq(views.chunks(32).map(|view| View::of(view.try_into().expect("32 numbers")))));
    let mut given = Vec::new();
    for drawn in dgn::all_points(file, dimension(dim)).expect("an accepted file") {
        given.extend([drawn.place as i64, drawn.points.len() as i64]);
        given.extend(drawn.points.into_iter().flat_map(|point| coordinates(point, dim)).map(i64::from));
    }
    assert!(given == points);
    let mut given = Vec::new();
    for found in dgn::all_texts(file, dimension(dim)).expect("an accepted file") {
        given.extend([found.place as i64, i64::from(found.deleted), found.depth as i64]);
        given.extend(text_numbers_of(&found.text));
    }
    assert!(given == texts);
}

/// A call of the writer of texts that the bindings' structs can hold: the same answer and bytes.
fn written(random: &mut Random, runs: &mut Runs) {
    let w = good_text(random);
    let f = &w.text.header;
    let [low, high] = [0, 3].map(|first| [0, 1, 2].map(|axis| f.range[first + axis] as i32));
    let fields = Fields {
        kind: Type::Text,
        level: f.level as u8,
        component: f.c == 1,
        deleted: f.deleted == 1,
        bounds: Bounds { low, high },
        display: DisplayHeader {
            graphic_group: f.graphic_group as u16,
            attribute_index: f.attribute_index as u16,
            properties: f.properties as u16,
            style: f.style as u8,
            weight: f.weight as u8,
            colour: f.colour as u8,
        },
    };
    let longs: Vec<u32> = w.text.rotation.iter().map(|&long| long as u32).collect();
    let axis = |k: usize| w.text.origin.get(k).map_or(0, |&axis| axis as i32);
    let text = TextFields {
        font: w.text.font as u8,
        justification: w.text.justification as u8,
        length: w.text.length_multiplier as u32,
        height: w.text.height_multiplier as u32,
        turn: longs[..].try_into().map_or(Turn::Flat(longs[0]), Turn::Solid),
        origin: Point { x: axis(0), y: axis(1), z: axis(2) },
        odd: Some(w.text.spare as u8),
    };
    let mut enter_data: Vec<dgn::Field> = w
        .fields
        .chunks(3)
        .map(|three| dgn::Field { first: three[0], length: three[1], justification: three[2] as i8 })
        .collect();
    let mut triples = w.fields.clone();
    if random.one_in(4) {
        // a field behind the characters
        enter_data.push(dgn::Field { first: 255, length: 2, justification: -1 });
        triples.extend([255, 2, 255]);
    }
    let (mut ours, mut theirs) = (vec![w.fill; w.room], vec![w.fill; w.room]);
    let answer = dgn::write_text(&fields, &text, &w.characters, &enter_data, &w.tail, dimension(w.dim), &mut ours);
    let expected = reader::write_text(&w.text, &w.characters, &triples, &w.tail, w.dim, &mut theirs);
    assert_eq!(answer.map(|words| words as u64).map_err(plain), expected, "{w:?}");
    assert_eq!(ours, theirs, "{w:?}");
    runs.calls += 1;
}

/// One call of a session.
fn made(session: &mut Session, call: &Call) -> Result<(), Refusal> {
    match call {
        Call::Mark { place, deleted } => session.mark(*place as usize, *deleted),
        Call::Rename { place, text } => session.rename(*place as usize, text),
        Call::Insert { header, place, piece } => session.insert(header.map(|h| h as usize), *place as usize, piece),
        Call::Remove { place } => session.remove(*place as usize),
        Call::Undo => session.undo(),
    }
    .map_err(plain)
}

/// A session of some calls: the answers, the used lengths, the history, and at the end both whole buffers.
fn session(random: &mut Random, runs: &mut Runs, start: State) {
    let State { file, journal, dim, .. } = start.clone();
    let read = file.len();
    let mut ours = Session::open(file, read, journal, dimension(dim)).expect("an accepted file");
    let mut theirs = start;
    // every other one with an index
    let mut index = random.one_in(2).then(|| built(random, theirs.used_file(), dim));
    if let Some(index) = &index {
        ours.index_with(vec![7; index.buffer.len()]).expect("room for the index");
    }
    let mut listed: Vec<usize> = Vec::new();
    for _ in 0..20 {
        let call = reader::generate::next_call(random, theirs.used_file(), dim);
        let before = theirs.jused as usize;
        let answer = made(&mut ours, &call);
        let expected = match &mut index {
            Some(index) => theirs.run_indexed(index, &call),
            None => theirs.run(&call),
        };
        assert_eq!(answer, expected, "{call:?}");
        let kept = ours.index().map(|index| (index.clone().into_buffer(), index.used() as u64));
        assert_eq!(kept, index.clone().map(|index| (index.buffer, index.used)));
        assert_eq!((ours.used() as u64, ours.journal_used() as u64), (theirs.used, theirs.jused));
        assert_eq!(ours.file(), theirs.used_file());
        match (&call, answer) {
            (Call::Undo, Ok(())) => {
                listed.pop();
            }
            (_, Ok(())) => listed.push(before),
            _ => {}
        }
        let history: Vec<usize> = ours.history().map(|r| r.expect("a record").before).collect();
        assert!(history.iter().rev().eq(&listed), "newest first");
        runs.calls += 1;
    }
    assert_eq!(ours.into_buffers(), (theirs.file, theirs.journal));
}

/// Files that are accepted and refused, names, and sessions.
pub fn generated(random: &mut Random, runs: &mut Runs, times: u64) {
    for _ in 0..times {
        for dim in [2, 3] {
            file(runs, &valid(random, dim).file, dim);
            let number = random.pick(&ORDER);
            let depth = random.below(9);
            file(runs, &aimed(random, dim, number, depth).file, dim);
        }
        written(random, runs);
        let text = texts::any_text(random);
        let name = dgn::pack(&text).map_err(plain);
        assert_eq!(name.clone().map(|n| (n.first, n.second)), reader::pack(&text));
        if let Ok(name) = name {
            assert_eq!(dgn::unpack(name).map(String::into_bytes), Ok(text));
        }
        let start = fresh_state(random);
        session(random, runs, start);
    }
}
