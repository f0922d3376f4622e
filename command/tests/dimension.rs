//! The dimension that is taken: that of the table on every real file, by what the file says or by what it fits.

use dgn::Dimension;
use dgn_command::files::{How, Taken};

const ROOT: &str = concat!(env!("CARGO_MANIFEST_DIR"), "/..");

/// The real files with the dimension of their table.
fn real() -> Vec<(String, Vec<u8>, Dimension)> {
    let mut files = Vec::new();
    for folder in ["tests/real", "tests/real/texts", "tests/real/curves"] {
        let table = std::fs::read_to_string(format!("{ROOT}/{folder}/TABLE.tsv")).expect("a table");
        for line in table.lines().skip(1) {
            let columns: Vec<&str> = line.split('\t').collect();
            let bytes = std::fs::read(format!("{ROOT}/{folder}/{}", columns[0])).expect("a file");
            let dimension = if columns[1] == "3" { Dimension::Three } else { Dimension::Two };
            files.push((columns[0].to_string(), bytes, dimension));
        }
    }
    files
}

#[test]
fn real_files() {
    let mut told = 0;
    for (name, bytes, dimension) in real() {
        let taken = Taken::of(&bytes, None);
        assert_eq!(taken.dimension, dimension, "{name}");
        assert_eq!(taken.judged, dgn::judge(&bytes, dimension), "{name}");
        assert!(matches!(taken.how, How::Told | How::Fits), "{name}: {:?}", taken.how);
        told += usize::from(taken.how == How::Told);
    }
    assert!(told > 40, "{told} files say it");
}

#[test]
fn asked() {
    for (name, bytes, dimension) in real() {
        for asked in [Dimension::Two, Dimension::Three] {
            let taken = Taken::of(&bytes, Some(asked));
            assert_eq!((taken.dimension, taken.how), (asked, How::Asked), "{name}");
            let warns = taken.told.is_some() && asked != dimension;
            assert_eq!(taken.warning().is_some(), warns, "{name}");
        }
    }
}

#[test]
fn without_its_first_element() {
    let mut tried = 0;
    for (name, bytes, dimension) in real() {
        if dgn::judge(&bytes, dimension).is_err() || Taken::of(&bytes, None).how != How::Told {
            continue;
        }
        let first = dgn::extent(&bytes, dimension, 0).expect("an element");
        let taken = Taken::of(&bytes[2 * first.end..], None);
        // the other elements of some fit both, and those are read as 2D
        let other = dgn::judge(&bytes[2 * first.end..], Dimension::Three);
        match taken.how {
            How::Fits => assert_eq!(taken.dimension, dimension, "{name}"),
            how => assert!(how == How::Both && taken.dimension == Dimension::Two && other.is_ok(), "{name}: {how:?}"),
        }
        tried += 1;
    }
    assert!(tried > 10, "{tried} files");
}

#[test]
fn few_bytes() {
    // a first element of type 9 that does not reach to the byte that says it
    let short = [[8, 9, 0, 0].to_vec(), vec![0xff, 0xff]].concat();
    let taken = Taken::of(&short, None);
    assert_eq!((taken.dimension, taken.how, taken.told), (Dimension::Two, How::Both, None));
    for bytes in [&[][..], &[9], &[8, 9]] {
        let taken = Taken::of(bytes, None);
        assert_eq!((taken.dimension, taken.how), (Dimension::Two, How::Neither));
    }
}
