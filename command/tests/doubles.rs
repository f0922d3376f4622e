//! Codes that several cells have: found as by counting each name, told in order and in bounded length, of the dimension that is
//! taken.

use dgn::{Dimension, Entry, Name, Type, END_MARKER};
use dgn_command::files::{How, Taken};
use dgn_command::output::Output;
use dgn_command::reading::checked::Worker;
use dgn_command::reading::doubles::Finder;
use dgn_command::reading::names::Named;
use std::collections::BTreeMap;

/// Library cells of 35 words that hold nothing, by their names, one after another, and the end marker.
fn library(names: impl IntoIterator<Item = Name>) -> Vec<u8> {
    let mut file = Vec::new();
    for name in names {
        let mut words = [0u16; 35];
        (words[0], words[1], words[16], words[17], words[18]) = (1 << 8, 33, name.first, name.second, 16);
        file.extend(words.iter().flat_map(|word| word.to_le_bytes()));
    }
    file.extend(END_MARKER);
    file
}

fn name(code: &str) -> Name {
    dgn::pack(code).expect("a code")
}

/// What `check` prints of a file.
fn checked(file: &[u8], tsv: bool, quiet: bool) -> String {
    let path = std::env::temp_dir().join(format!("dgn-doubles-{}-{tsv}-{quiet}.dgn", std::process::id()));
    std::fs::write(&path, file).expect("a file");
    let mut output = Output::standard();
    (output.tsv, output.quiet) = (tsv, quiet);
    let lines = Worker::new(Some(Dimension::Two), false, &output).check(&Named::File(path.clone())).lines;
    std::fs::remove_file(&path).expect("the file");
    lines.replace(path.to_str().expect("a name"), "FILE")
}

#[test]
fn as_by_counting() {
    let mut finder = Finder::default();
    let mut state = 417u32;
    for round in 0..400 {
        let cells: Vec<Entry> = (0..round)
            .map(|place| {
                state = state.wrapping_mul(1_664_525).wrapping_add(1_013_904_223);
                let few = if round % 3 == 0 { 7 } else { 40_000 };
                let name = Name { first: (state >> 16) as u16 % 39, second: (state >> 8) as u16 % few };
                // code 29 is no letter's
                let letter = |code: u16| if code % 40 == 29 { code + 1 } else { code };
                let second = letter(name.second % 40) + 40 * letter(name.second / 40 % 40);
                Entry { name: Name { first: letter(name.first), second }, place: 35 * place }
            })
            .collect();
        let mut all: BTreeMap<Name, Vec<usize>> = BTreeMap::new();
        for cell in &cells {
            all.entry(cell.name).or_default().push(cell.place);
        }
        all.retain(|_, places| places.len() > 1);
        let found = finder.find(cells.into_iter());
        assert_eq!(found.len(), all.len());
        for (double, (name, places)) in found.iter().zip(all) {
            assert_eq!((double.code(), double.cells()), (dgn::unpack(name).unwrap(), places.len()));
            assert_eq!(double.places(), &places[..places.len().min(8)]);
        }
    }
}

#[test]
fn told_in_bounds() {
    // eight cells are all shown, of nine the last is counted, and so are thousands; a code with spaces is in quotes
    let codes = ["A", " B", "", "C"].map(name);
    let counts = [8, 9, 2, 1_300];
    let all = codes.iter().zip(counts).flat_map(|(&name, count)| std::iter::repeat_n(name, count));
    assert_eq!(
        checked(&library(all), false, false),
        "FILE: warning, 2D: 2 cells have the code '': @595, @630\n\
         FILE: warning, 2D: 9 cells have the code ' B': @280, @315, @350, @385, @420, @455, @490, @525, and 1 more\n\
         FILE: warning, 2D: 8 cells have the code A: @0, @35, @70, @105, @140, @175, @210, @245\n\
         FILE: warning, 2D: 1,300 cells have the code C: @665, @700, @735, @770, @805, @840, @875, @910, and 1,292 more\n"
    );
    // eight codes are shown
    for (codes, last) in [(8, ""), (9, "1 more code"), (20, "12 more codes")] {
        let file = library((0..2 * codes).map(|k| name(&format!("P{:03}", k % codes))));
        let lines = checked(&file, false, false);
        assert_eq!(lines.matches("2 cells have the code P").count(), 8);
        assert_eq!(lines.lines().count(), 8 + usize::from(codes > 8));
        assert!(lines.contains(&format!("{last} that several cells have")) == (codes > 8), "{lines}");
        // for machines all of them, in one column
        let row = checked(&file, true, false);
        let columns: Vec<&str> = row.split('\t').collect();
        assert_eq!((columns.len(), columns[15].split(',').count()), (17, codes));
        assert!(
            columns[16].starts_with("2 cells have the code P000: @0, @")
                && row.matches("; ").count() == 7 + usize::from(codes > 8)
        );
        // which -q leaves out; words behind the end marker it does not
        assert_eq!(checked(&file, false, true), "");
        let quiet = checked(&[&file[..], &[0; 6]].concat(), true, true);
        assert!(quiet.split('\t').nth(14) == Some("3") && quiet.split('\t').nth(15) == Some(""), "{quiet}");
    }
}

/// The judge that is asked last, of those that accept, is that of the dimension taken.
#[test]
fn of_the_dimension_taken() {
    let root = concat!(env!("CARGO_MANIFEST_DIR"), "/..");
    let (mut fits, mut both) = ([0; 2], 0);
    for folder in ["samples", "tests/real", "tests/real/texts"] {
        for entry in std::fs::read_dir(format!("{root}/{folder}")).expect("a folder") {
            let path = entry.expect("an entry").path();
            if !path.extension().is_some_and(|ending| ending == "dgn" || ending == "cel") {
                continue;
            }
            let whole = std::fs::read(&path).expect("a file");
            // and without its first element, which says the dimension
            let first = dgn::extent(&whole, Taken::of(&whole, None).dimension, 0).map_or(0, |extent| 2 * extent.end);
            for bytes in [&whole[..], &whole[first..]] {
                let mut last = None;
                let taken = Taken::by(bytes, None, |dimension| {
                    let judged = dgn::judge(bytes, dimension)?;
                    last = Some(dimension);
                    Ok(judged)
                });
                assert_eq!(last, taken.judged.is_ok().then_some(taken.dimension), "{path:?}");
                let like = Taken::of(bytes, None);
                assert_eq!(
                    (like.dimension, like.how, like.judged),
                    (taken.dimension, taken.how, taken.judged),
                    "{path:?}"
                );
                both += usize::from(taken.how == How::Both);
                fits[usize::from(taken.dimension == Dimension::Three)] += usize::from(taken.how == How::Fits);
            }
        }
    }
    assert!(fits.iter().all(|&fits| fits > 3) && both > 0, "{fits:?} {both}");
}

/// A file that fits 3D alone, with a code that stands twice, has its cells told as they are in 3D.
#[test]
fn in_three_dimensions() {
    let mut solid = vec![0; 60];
    assert_eq!(dgn::write(&dgn::Fields::new(Type::Line), &[0; 6], &[], Dimension::Three, &mut solid), Ok(30));
    // type 19, which 2D files do not have: 21 words and no component
    let mut words = [0u16; 21];
    (words[0], words[1], words[18]) = (19 << 8, 19, 2);
    solid.extend(words.iter().flat_map(|word| word.to_le_bytes()));
    solid.extend(library([name("417"), name("417")]));
    let path = std::env::temp_dir().join(format!("dgn-doubles-{}-solid.cel", std::process::id()));
    std::fs::write(&path, &solid).expect("a file");
    let lines = Worker::new(None, false, &Output::standard()).check(&Named::File(path.clone())).lines;
    std::fs::remove_file(&path).expect("the file");
    assert!(lines.ends_with(": warning, 3D: 2 cells have the code 417: @51, @86\n"), "{lines}");
}
