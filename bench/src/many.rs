//! Many files: `dgn check` on one core and on all, against a C program that reads and judges them in one process.

use crate::inputs::{make_after, Kind, KIB};
use crate::programs::program;
use crate::tables::{heading, row};
use crate::timing::measure;
use crate::ROOT;
use reader::words::words_of;

const FILES: usize = 9000;

/// How many of them differ.
const DIFFERENT: usize = 90;

/// Files of 100 KiB behind the first element of a real file, which says that they are 2D.
pub fn table(folder: &str, rounds: usize) {
    let head = "`dgn check`, 9,000 files of 100 KiB";
    heading(&[head, "C: read and judge, ms", "`-q` on one core, to C", "with warnings, to C", "`-q` on all cores, to C"]);
    let real = words_of(&std::fs::read(format!("{ROOT}/tests/real/a02_lines_2d.dgn")).expect("a real file"));
    let front = &real[..2 + real[1] as usize];
    let names = format!("{folder}/names");
    let files = format!("{folder}/many");
    for kind in [Kind::Lines, Kind::Cells, Kind::Mixed, Kind::Texts] {
        write(&files, &names, front, kind);
        let check = |options| {
            let path = format!("{ROOT}/target/command/release/dgn");
            Box::new(program(&path, &["check", options, "--from", &names], folder, "/dev/null"))
        };
        let c = Box::new(program(&format!("{ROOT}/target/bench/many"), &[&names], folder, "/dev/null"));
        assert!(check("-qj1").listed().is_empty() && c.listed() == format!("{FILES}\n").into_bytes(), "{}", kind.name());
        let times = measure(&mut [c, check("-qj1"), check("-j1"), check("-q")], rounds);
        row(&[
            kind.name().to_string(),
            format!("{:.0}", times.time(0) * 1e3),
            times.ratio(1, 0).to_string(),
            times.ratio(2, 0).to_string(),
            times.ratio(3, 0).to_string(),
        ]);
    }
    std::fs::remove_dir_all(&files).expect("the files");
}

/// Writes the files and their names.
fn write(files: &str, names: &str, front: &[u16], kind: Kind) {
    std::fs::create_dir_all(files).expect("a folder");
    let mut list = String::new();
    for seed in 0..DIFFERENT {
        let input = make_after(front, kind, 100 * KIB, seed as u64 + 1);
        for k in (seed..FILES).step_by(DIFFERENT) {
            let name = format!("{files}/{k:04}.dgn");
            std::fs::write(&name, &input.file).expect("a file");
            list += &name;
            list.push('\n');
        }
    }
    std::fs::write(names, list).expect("the names");
}
