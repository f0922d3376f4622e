//! Every call answers, whatever is handed in, and in time that grows with the
//! file's length.

mod common;
use common::*;
use reader::generate::{self, changes, large, sessions, Random};
use reader::*;

/// All reading calls at some places. A refusal of judging is the refusal of
/// every call.
fn read_all(random: &mut Random, file: &[u8], dim: u64) {
    let judged = judge(file, dim);
    let _ = celllist(file);
    let _ = textlist(file, dim);
    let _ = platelist(file);
    assert_eq!(texts_from(file, dim, 0).err(), judged.clone().err());
    assert_eq!(ellipses_from(file, dim, 0).err(), judged.clone().err());
    let text = generate::texts::any_text(random);
    let found = find(file, dim, &text);
    let k = random.pick(&[0, 1, 2, 3, 1 << 32, u64::MAX]);
    for _ in 0..3 {
        let place = generate::place(random, file);
        let answers = [
            view(file, dim, place).err(),
            point(file, dim, place, k).err(),
            extent(file, dim, place).err(),
            linkage(file, dim, place, k).err(),
        ];
        let plate = plate(file, dim, place).err();
        match (&judged, plate) {
            (Ok(_), Some(other)) => assert!([13, 18].contains(&other.number)),
            (Ok(_), None) => assert!(view(file, dim, place).unwrap().name.is_some()),
            (Err(own), plate) => assert_eq!(plate.as_ref(), Some(own)),
        }
        let texts = [
            read_text(file, dim, place).err(),
            text_characters(file, dim, place).err(),
            text_field(file, dim, place, k).err(),
        ];
        let ellipse = read_ellipse(file, dim, place).err();
        let in_range = points_in_range(file, dim, place).err();
        let others = [(ellipse, &[15, 16][..]), (in_range, &[3, 4, 6, 11][..])];
        let by_type = texts.map(|answer| (answer, &[17][..]));
        for (answer, kinds) in by_type.into_iter().chain(others) {
            match (&judged, answer) {
                (Ok(_), Some(other)) if other.number == 6 => {
                    assert_eq!(other.place, place);
                    assert!(!kinds.contains(&view(file, dim, place).unwrap().kind));
                }
                (Ok(_), answer) => assert!(answer.is_none() || answer == Some(refusal(13, 0))),
                (Err(own), answer) => assert_eq!(answer.as_ref(), Some(own)),
            }
        }
        for answer in answers {
            match &judged {
                Ok(_) => assert!(answer.is_none() || answer == Some(refusal(13, 0))),
                Err(own) => assert_eq!(answer.as_ref(), Some(own)),
            }
        }
    }
    if let Err(own) = judged {
        let own = FindRefusal {
            number: own.number,
            place: own.place,
            count: 0,
        };
        assert_eq!(found, Err(own));
    }
}

// "Every call on a file answers 1, then the file's own refusals, then the
// rest."
#[test]
fn reading_any_bytes() {
    let mut random = Random::new(13);
    for _ in 0..4000 {
        let dim = generate::files::dimension(&mut random);
        let mut made = generate::valid(&mut random, dim).file;
        read_all(&mut random, &made, dim);
        for _ in 0..3 {
            changes::change_word(&mut random, &mut made);
            changes::change_float(&mut random, &mut made, dim);
            read_all(&mut random, &made, dim);
        }
        if random.one_in(20) {
            let all: Vec<Vec<u8>> = changes::each_word_changed(&mut random, &made).collect();
            for changed in all {
                read_all(&mut random, &changed, dim);
            }
        }
        let bytes = changes::random_bytes(&mut random);
        read_all(&mut random, &bytes, dim);
        let soup = changes::soup(&mut random);
        read_all(&mut random, &soup, dim);
    }
}

// "3 CUT" and "2 NO END": a file cut before each word is refused at or before
// the cut, unless the cut is behind the marker.
#[test]
fn cut_at_every_word() {
    let mut random = Random::new(14);
    for _ in 0..300 {
        let dim = generate::files::dimension(&mut random);
        let made = generate::valid(&mut random, dim);
        for cut in changes::cuts(&made.file) {
            let words = cut.len() as u64 / 2;
            match judge(cut, dim) {
                Ok(judged) => assert!(words > made.marker && judged.marker == made.marker),
                Err(refusal) => {
                    assert!(words <= made.marker && refusal.place <= words);
                    assert!([2, 3, 8].contains(&refusal.number));
                }
            }
        }
    }
}

// "A refusal changes no lent byte and no length", for states of all sorts.
#[test]
fn editing_any_state() {
    let mut random = Random::new(15);
    let mut seen = std::collections::BTreeSet::new();
    for _ in 0..30_000 {
        let mut state = sessions::rough_state(&mut random);
        for _ in 0..3 {
            let call = generate::next_call(&mut random, state.used_file(), state.dim);
            let before = state.clone();
            if let Err(refusal) = state.run(&call) {
                assert_eq!(state, before);
                seen.insert(refusal.number);
            }
        }
    }
    for _ in 0..2000 {
        let script = generate::rough_session(&mut random, 10);
        let mut state = script.start;
        for call in &script.calls {
            let before = state.clone();
            if state.run(call).is_err() {
                assert_eq!(state, before);
            }
        }
    }
    let all: Vec<u32> = (1..=21).collect();
    assert_eq!(seen.into_iter().collect::<Vec<_>>(), all);
}

// "A file is a lent slice of 0 to 1,048,576 bytes": the largest files.
#[test]
fn largest_files() {
    let files = [
        large::most_elements(),
        large::longest_file(),
        large::longest_file_of_cells(),
    ];
    for made in files {
        let wanted = Judged {
            elements: made.elements,
            deepest: made.deepest,
            marker: made.marker,
        };
        assert_eq!(judge(&made.file, 2), Ok(wanted));
        assert_eq!(extent(&made.file, 2, 0).unwrap().0, 0);
        assert_eq!(find(&made.file, 2, b"A").unwrap_err().count, made.elements);
    }
    assert_eq!(judge(&large::total_too_large(), 2), refused(8, 0));
    let mut random = Random::new(16);
    for dim in [2, 3] {
        let made = large::most_points(&mut random, dim);
        assert_eq!(judge(&made.file, dim).unwrap().elements, 4);
        assert!(point(&made.file, dim, 0, 100).is_ok());
        assert_eq!(point(&made.file, dim, 0, 101), refused(13, 0));
    }
}

// The generator makes small files quickly, and the same from the same seed.
#[test]
fn generator_repeats() {
    let one = |seed| {
        let mut random = Random::new(seed);
        let dim = generate::files::dimension(&mut random);
        let file = generate::valid(&mut random, dim).file;
        let session = generate::session(&mut random, 5);
        (file, session.start, session.calls)
    };
    let mut words = 0;
    for seed in 0..2000 {
        let (file, start, calls) = one(seed);
        words += file.len() / 2;
        let again = one(seed);
        assert!(file == again.0 && start == again.1 && calls == again.2);
    }
    assert!(
        (40..400).contains(&(words / 2000)),
        "{} words on average",
        words / 2000
    );
}
