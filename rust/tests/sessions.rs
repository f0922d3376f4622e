//! Sessions: edits of the worked cell, their records, and all undone.

mod common;

use common::{cell, fields, line, sample, TWO};
use dgn::{Edit, Fields, Index, Number, Record, Refusal, Session, Type};

fn refused(number: Number, place: usize) -> Result<(), Refusal> {
    Err(Refusal { number, place, count: 0 })
}

/// A session with room for more.
fn session() -> Session {
    let mut file = cell();
    let read = file.len();
    file.resize(1000, 0xa7);
    Session::open(file, read, vec![0x5c; 1000], TWO).unwrap()
}

#[test]
fn edited_and_undone() {
    let mut session = session();
    let original = session.file().to_vec();
    assert_eq!((session.used(), session.journal_used()), (146, 0));
    let top = line(&Fields { component: false, ..fields() });

    session.mark(46, false).unwrap();
    session.rename(0, "417").unwrap();
    session.insert(Some(0), 72, &line(&fields())).unwrap();
    session.insert(None, 0, &top).unwrap();
    let removed = session.file()[144..196].to_vec();
    session.remove(72).unwrap();
    assert_eq!(dgn::judge(session.file(), TWO).map(|j| (j.elements, j.marker)), Ok((3, 98)));
    assert_eq!(dgn::find(session.file(), TWO, "417").map(|f| f.place), Ok(26));
    assert_eq!(dgn::view(session.file(), TWO, 72).map(|v| (v.kind, v.deleted)), Ok((Type::Line, true)));

    let history: Vec<Record> = session.history().collect::<Result<_, _>>().unwrap();
    let edits: Vec<_> = history.iter().map(|r| (r.edit, r.header, r.place, r.payload.len() / 2)).collect();
    let wanted = [
        (Edit::Remove, Some(26), 72, 26),
        (Edit::Insert, None, 0, 0),
        (Edit::Insert, Some(0), 72, 0),
        (Edit::Rename, None, 0, 2),
        (Edit::Mark, None, 46, 1),
    ];
    assert_eq!(edits, wanted);
    assert_eq!(history.iter().map(|r| r.before).collect::<Vec<_>>(), [54, 42, 30, 14, 0]);
    let old = dgn::pack("00417").unwrap();
    let payload = [old.first.to_le_bytes(), old.second.to_le_bytes()].concat();
    assert_eq!(history.iter().map(|r| r.payload).collect::<Vec<_>>(), [&removed[..], &[], &[], &payload, &[1, 0]]);

    for _ in 0..5 {
        session.undo().unwrap();
    }
    assert_eq!(session.file(), original);
    assert_eq!(session.undo(), refused(Number::Nothing, 0));
    assert_eq!(session.history().count(), 0);
    let (file, journal) = session.into_buffers();
    assert_eq!((file.len(), journal.len()), (1000, 1000));
}

#[test]
fn refusals_leave_all() {
    let mut session = session();
    session.mark(46, false).unwrap();
    let before = session.clone();
    let mut cut = line(&fields());
    cut.truncate(50);
    let answers = [
        session.mark(46, false),
        session.mark(1, true),
        session.rename(46, "417"),
        session.rename(0, "small"),
        session.insert(None, 1, &line(&fields())),
        session.insert(Some(usize::MAX), 72, &line(&fields())),
        session.insert(Some(0), 72, &cut),
        session.insert(Some(0), 72, &[0]),
        session.remove(417),
    ];
    let numbers = [
        Number::Already,
        Number::NoSuch,
        Number::NotACell,
        Number::Name,
        Number::NoSuch,
        Number::NoSuch,
        Number::Cut,
        Number::Call,
        Number::NoSuch,
    ];
    for (answer, number) in answers.into_iter().zip(numbers) {
        assert_eq!(answer, refused(number, 0));
    }
    assert_eq!((session.used(), session.journal_used()), (before.used(), before.journal_used()));
    assert_eq!(session.into_buffers(), before.into_buffers());
}

#[test]
fn borrowed_buffers_and_room() {
    let mut file = cell();
    let mut journal = [0u8; 14];
    let mut session = Session::open(&mut file[..], 146, &mut journal[..], TWO).unwrap();
    assert_eq!(session.insert(Some(0), 72, &line(&fields())), refused(Number::Room, 0));
    assert_eq!(session.rename(0, "417"), refused(Number::Journal, 0));
    session.mark(0, true).unwrap();
    assert_eq!(session.mark(0, false), refused(Number::Journal, 0));
    let (used, journal_used) = (session.used(), session.journal_used());
    assert_eq!((used, journal_used), (146, 14));
    assert_ne!(file, cell());

    // left and taken up again
    let mut session = Session::resume(&mut file[..], used, &mut journal[..], journal_used, TWO);
    session.undo().unwrap();
    assert_eq!(file, cell());
}

#[test]
fn opened_and_resumed_wrongly() {
    let shortened = sample("shortened.cel");
    let read = shortened.len();
    let refusal = Session::open(shortened, read, vec![], TWO).unwrap_err();
    assert_eq!((refusal.number, refusal.place), (Number::Cut, 155));
    // what was not read is not judged, and the buffers are looked at
    for (read, journal) in [(144, 0), (145, 0), (148, 0), (146, 1)] {
        assert!(Session::open(cell(), read, vec![0; journal], TWO).is_err());
    }
    for (used, journal_used) in [(144, 0), (148, 0), (145, 0), (146, 2000), (0, 0)] {
        let mut session = Session::resume(cell(), used, vec![0; 100], journal_used, TWO);
        assert_eq!(session.mark(0, true), refused(Number::Call, 0), "{used} {journal_used}");
        assert_eq!(session.into_buffers(), (cell(), vec![0; 100]));
    }
}

#[test]
fn records() {
    fn number(journal: &[u8], used: usize) -> Result<Record<'_>, (Number, usize)> {
        dgn::record(journal, used).map_err(|r| (r.number, r.place))
    }
    assert_eq!(number(&[], 0), Err((Number::Nothing, 0)));
    assert_eq!(number(&[0; 3], 0), Err((Number::Call, 0)));
    assert_eq!(number(&[0; 20], 22), Err((Number::Call, 0)));
    assert_eq!(number(&[0; 20], 11), Err((Number::Call, 0)));
    assert_eq!(number(&[0; 20], 10), Err((Number::BadJournal, 0)));
    assert_eq!(number(&[0; 20], 12), Err((Number::BadJournal, 0)));
    let mut session = session();
    session.mark(46, false).unwrap();
    let mut journal = session.journal().to_vec();
    assert_eq!(number(&journal, 14).map(|r| (r.edit, r.place, r.before)), Ok((Edit::Mark, 46, 0)));
    // the number of payload words
    journal[12] = 0;
    assert_eq!(number(&journal, 14), Err((Number::BadJournal, 0)));
}

/// The cell with its line as a piece, for the top and under a header.
fn piece(component: bool) -> Vec<u8> {
    let mut piece = cell();
    piece.truncate(144);
    piece[0] |= u8::from(component) << 7;
    piece
}

/// A session with an index of so many bytes.
fn indexed(bytes: usize) -> Session {
    let mut session = session();
    session.index_with(vec![0xb3; bytes]).unwrap();
    session
}

/// The index is that of the file, and zeros stand behind it.
fn in_step(session: &Session) {
    let index = session.index().expect("an index");
    assert_eq!(index.bytes(), Index::of(session.file(), TWO).unwrap().bytes());
    assert!(index.clone().into_buffer()[index.used()..].iter().all(|&byte| byte == 0));
}

#[test]
fn with_an_index() {
    let mut session = indexed(101);
    let mut plain = self::session();
    let original = session.clone();
    in_step(&session);
    let both = |session: &mut Session, plain: &mut Session, call: &dyn Fn(&mut Session) -> Result<(), Refusal>| {
        assert_eq!(call(session), call(plain));
        assert_eq!((session.file(), session.journal()), (plain.file(), plain.journal()));
        in_step(session);
    };
    both(&mut session, &mut plain, &|s| s.mark(46, false));
    both(&mut session, &mut plain, &|s| s.rename(0, "417"));
    both(&mut session, &mut plain, &|s| s.insert(Some(0), 72, &piece(true)));
    both(&mut session, &mut plain, &|s| s.insert(None, 0, &piece(false)));
    both(&mut session, &mut plain, &|s| s.mark(0, true));
    assert_eq!(session.index().map(Index::used), Some(24));
    assert_eq!(session.index().unwrap().look_up_with_deleted("417").map(|found| found.place), Ok(72));
    assert_eq!(session.index().unwrap().look_up_with_deleted("00417").map(|found| found.place), Ok(0));
    let live = session.index().unwrap().look_up(session.file(), TWO, "00417").map(|found| found.place);
    assert_eq!(live.ok(), dgn::find(session.file(), TWO, "00417").map(|found| found.place).ok());
    both(&mut session, &mut plain, &|s| s.remove(0));
    both(&mut session, &mut plain, &|s| s.remove(1));
    both(&mut session, &mut plain, &|s| s.rename(46, "417"));
    both(&mut session, &mut plain, &|s| s.insert(Some(0), 72, &[0; 4]));
    for _ in 0..plain.history().count() {
        both(&mut session, &mut plain, &|s| s.undo());
    }
    assert_eq!(session.undo(), refused(Number::Nothing, 0));
    assert_eq!(session.file(), original.file());
    assert_eq!(session.index(), original.index());
    assert_eq!(session.take_index(), original.index().cloned());
    assert!(session.index().is_none() && session.mark(46, false).is_ok());
}

#[test]
fn room_for_the_index() {
    let four = [piece(true), piece(true)].concat();
    // room for one entry, then for two, with some bytes that are none
    for bytes in 8..24 {
        let mut session = indexed(bytes);
        let before = session.clone();
        let inserted = session.insert(None, 0, &piece(false));
        if bytes < 16 {
            assert_eq!(inserted, refused(Number::Room, 0));
            assert_eq!((session.file(), session.journal()), (before.file(), before.journal()));
            assert_eq!(session.index(), before.index());
            assert_eq!(session.insert(None, 0, &four), refused(Number::Place, 0));
        } else {
            assert_eq!(inserted, Ok(()));
            assert_eq!(session.insert(Some(0), 46, &piece(true)), refused(Number::Room, 0));
        }
        // told before 16, and after the call's own refusals
        let full = Session::resume(cell(), 146, vec![], 0, TWO);
        let mut full = full.with_index(Some(Index::resume(vec![0; bytes - 8], 0)));
        let number = if bytes < 16 { Number::Room } else { Number::Journal };
        assert_eq!(full.mark(0, true), refused(number, 0));
        assert_eq!(full.mark(46, true), refused(Number::Already, 0));
    }
    let mut session = self::session();
    assert_eq!(session.index_with(vec![0; 7]), refused(Number::Room, 0));
    assert!(session.index().is_none());
}

#[test]
fn any_index_lent() {
    for (bytes, used) in [(0, 0), (8, 0), (8, 8), (40, 40), (41, 16), (1000, 992)] {
        let index = Index::resume((0..bytes).map(|k| (k * 37) as u8).collect::<Vec<u8>>(), used);
        let mut session = session().with_index(Some(index.clone()));
        let made = session.rename(0, "417");
        if bytes < 8 {
            assert_eq!((made, session.index()), (refused(Number::Room, 0), Some(&index)));
            continue;
        }
        assert_eq!(made, Ok(()));
        in_step(&session);
        let mut session = session.with_index(Some(index));
        assert_eq!(session.undo(), Ok(()));
        in_step(&session);
    }
    for used in [1, 7, 12, 48, usize::MAX, usize::MAX - 7] {
        let mut session = session().with_index(Some(Index::resume(vec![3; 40], used)));
        for call in [|s: &mut Session| s.mark(46, false), |s: &mut Session| s.undo(), |s: &mut Session| s.remove(9)] {
            assert_eq!(call(&mut session), refused(Number::Call, 0), "{used}");
        }
        assert_eq!(session.index().map(|index| index.used()), Some(used));
    }
    // borrowed
    let (mut file, mut journal, mut room) = (cell(), [0; 100], [0; 20]);
    let mut session =
        Session::resume(&mut file[..], 146, &mut journal[..], 0, TWO).with_index(None::<Index<&mut [u8]>>);
    session.index_with(&mut room[..]).unwrap();
    session.rename(0, "A").unwrap();
    assert_eq!(room[..8], [64, 6, 0, 0, 0, 0, 0, 0]);
}
