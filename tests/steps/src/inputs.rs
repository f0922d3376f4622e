//! What is handed in: odd names, pieces, other libraries, 3D files, files and logs as large as they can be.

use crate::book::{self, words};
use crate::command::{Cut, Ran};
use crate::folder::{Inode, State, FILE, LOG};
use crate::tests::Tests;
use dgn_command::disk::log::{Log, Step};
use std::ffi::OsString;
use std::fs;
use std::os::unix::ffi::OsStringExt;

impl Tests {
    /// Names with odd bytes, pieces, a part of another library, the original, bytes behind the marker, 3D, what is reported.
    pub fn inputs(&mut self, base: &State) {
        self.build("work", base);
        let folder = self.folder.join("work");
        for name in [&b"\xff\xfe"[..], b"-n", b"\n\t'\"\\", "ä".as_bytes()] {
            let path = folder.join(OsString::from_vec([b"odd ", name].concat()));
            fs::copy(folder.join(FILE), &path).unwrap();
            let run = |words: &[&str]| {
                let mut arguments: Vec<OsString> = vec![words[0].into(), "--".into(), path.clone().into()];
                arguments.extend(words[1..].iter().map(OsString::from));
                self.runner.arguments(arguments, &Cut::default())
            };
            let rans = [run(&["rename", "@0", "X"]), run(&["history"]), run(&["undo"])];
            let back = fs::read(&path).unwrap() == base[FILE].1.data;
            self.expect("odd names", rans.iter().all(Ran::good) && back, &rans);
        }
        // a piece, with an odd name in the log
        let file = &base[FILE].1.data;
        let piece = folder.join("a piece");
        fs::write(&piece, &file[..2 * 124]).unwrap();
        fs::write(folder.join("line"), &file[92..144]).unwrap();
        let path = folder.join(FILE).into_os_string().into_string().unwrap();
        let piece = piece.to_str().unwrap();
        let line = folder.join("line").into_os_string().into_string().unwrap();
        let steps: [&[&str]; 4] = [
            &["insert", &path, piece, "--allow-double"],
            &["insert", &path, piece, "--at", "124", "--allow-double"],
            &["insert", &path, &line, "--under", "@0", "--at", "@46"],
            &["insert", &path, &line, "--under", "PUMP.1"],
        ];
        for step in steps {
            let ran = self.arguments(step);
            self.expect("insert", ran.good(), (step, &ran));
        }
        let wrong: [(&[&str], &str); 5] = [
            (&["insert", &path, &line], "5 PLACE"),
            (&["insert", &path, &path, "--under", "top"], "3 CUT"),
            (&["insert", &path, piece, "--at", "3"], "13 NO SUCH"),
            (&["insert", &path, piece, "--under", "@46"], "13 NO SUCH"),
            (&["insert", &path, piece], "is there already"),
        ];
        for (step, why) in wrong {
            let ran = self.arguments(step);
            self.expect("a wrong piece", ran.refused(why), (step, &ran));
        }
        let library = self.folder.join("library.dgn");
        fs::write(&library, book::after(file, &[words("rename @0 LIB")]).unwrap()).unwrap();
        let library = library.to_str().unwrap();
        let added = self.arguments(&["add", &path, "--from", library, "LIB"]);
        let double = self.arguments(&["add", &path, "--from", library, "LIB"]);
        self.expect("add", added.good() && double.refused("is there already"), (&added, &double));
        let out = folder.join("first").into_os_string().into_string().unwrap();
        let original = self.arguments(&["original", &path, "-o", &out]);
        let again = self.arguments(&["original", &path, "-o", &out]);
        let right = fs::read(&out).unwrap() == *file;
        self.expect("original", original.good() && right && again.status == Some(3), (&original, &again));
        let behind = fs::read(&path).unwrap();
        self.expect(
            "bytes behind the marker",
            behind.ends_with(&file[file.len() - 4..]) && behind.len() > file.len(),
            behind.len(),
        );
        let undo = self.arguments(&["undo", &path, "5"]);
        self.expect("undo of five", undo.good() && fs::read(&path).unwrap() == *file, &undo);
        let there_and_back =
            [&["rename", &path, "@0", "X"][..], &["rename", &path, "@0", "00417"], &["undo", &path, "2"]]
                .map(|step| self.arguments(step));
        let listed = self.arguments(&["history", "--tsv", &path]);
        let right = there_and_back.iter().all(Ran::good)
            && there_and_back[2].out.lines().count() == 2
            && listed.out.lines().count() == 10;
        self.expect(
            "an undo that changes no byte as a whole",
            right && fs::read(&path).unwrap() == *file,
            (&there_and_back, &listed),
        );
        self.dimensions();
    }

    /// The dimension is the history's; a 3D file is edited as 3D.
    fn dimensions(&mut self) {
        let folder = self.folder.join("work");
        let file = concat!(env!("CARGO_MANIFEST_DIR"), "/../real/d04_cells_3d.dgn");
        let path = folder.join("solid.dgn");
        fs::copy(file, &path).unwrap();
        let path = path.to_str().unwrap();
        let view = dgn::all_views(&fs::read(file).unwrap(), dgn::Dimension::Three)
            .unwrap()
            .into_iter()
            .find(|view| view.name.is_some());
        let place = format!("@{}", view.expect("a cell").place);
        let renamed = self.arguments(&["rename", path, &place, "X"]);
        let flat = self.arguments(&["undo", "--2d", path]);
        let undone = self.arguments(&["undo", path]);
        let right = renamed.good() && renamed.out.contains(": 3D: ") && flat.status == Some(2) && undone.good();
        self.expect("3D", right && fs::read(path).unwrap() == fs::read(file).unwrap(), (&renamed, &flat, &undone));
    }

    /// Files and logs as large as they can be: a log that is full needs a new history.
    pub fn large(&mut self) {
        let (cell, lines) = (46 + 26 * 2497, 2497);
        let mut file: Vec<u8> = Vec::new();
        for k in 0..8u16 {
            let one = book::sample(lines);
            file.extend(&one[..2 * cell]);
            let name = dgn::pack(format!("CELL{k}")).unwrap();
            let at = file.len() - 2 * cell;
            file[at + 38..at + 40].copy_from_slice(&name.first.to_le_bytes());
            file[at + 40..at + 42].copy_from_slice(&name.second.to_le_bytes());
        }
        file.extend([255, 255]);
        file.resize(1 << 20, 7);
        self.original = file.clone();
        let base = self.base(&[]);
        self.build("work", &base);
        let folder = self.folder.join("work");
        let path = folder.join(FILE).into_os_string().into_string().unwrap();
        let piece = folder.join("piece").into_os_string().into_string().unwrap();
        fs::write(&piece, &file[..2 * cell]).unwrap();
        let began = std::time::Instant::now();
        for k in 0..8 {
            let ran = self.plain("work", &format!("remove CELL{k}"));
            self.expect("a large part removed", ran.good(), &ran);
        }
        let took = began.elapsed().as_secs_f64() / 8.0;
        let grown = self.arguments(&["insert", &path, &piece, "--allow-double"]);
        let before = self.state("work");
        let full = self.plain("work", "remove CELL0");
        let log = before[LOG].1.data.len();
        println!(
            "  a step on a file of up to 1,048,576 bytes takes {:.1} ms; the log has {log} bytes when it is full",
            1000.0 * took
        );
        let right = full.refused("is full; with --new-history") && self.state("work") == before;
        self.expect("a full log", grown.good() && right, (&grown, &full));
        let renewed = self.plain("work", "remove --new-history CELL0");
        let state = self.state("work");
        let kept = state.get(&format!("{LOG}.1")).map(|log| &log.1) == Some(&before[LOG].1);
        let undone = self.plain("work", "undo");
        self.expect("a new history", renewed.good() && kept && undone.good(), (&renewed, &undone));
        // the old history again: all of it leads back
        self.build("work", &before);
        let undone = self.plain("work", "undo 9");
        self.expect("a full log, undone", undone.good() && self.state("work")[FILE].1.data == file, &undone);
        let more = self.arguments(&["insert", &path, &piece, "--allow-double"]);
        self.expect("no room in the file", more.refused("15 ROOM"), &more);
        self.full_texts(&base);
    }

    /// A log whose texts have no room for one more step.
    fn full_texts(&mut self, base: &State) {
        let (mut session, behind) = {
            let image = &base[FILE].1.data;
            let session =
                dgn::Session::open(image.clone(), image.len(), vec![0; 1 << 10], dgn::Dimension::Two).unwrap();
            let behind = image[session.used()..].to_vec();
            (session, behind)
        };
        session.mark(0, true).unwrap();
        // three texts, each of 28 bytes and one long word
        let words = vec![OsString::from("x".repeat((1 << 20) / 3 - 28))];
        let step = |undone: u32| Step { time: 0, user: 0, name: "".into(), undone, words: words.clone() };
        let steps = vec![step(0), step(1), step(0)];
        let (journal, image) = (session.journal().to_vec(), [session.file(), &behind].concat());
        let log = Log { dimension: dgn::Dimension::Two, steps, journal, image };
        let mut state = base.clone();
        state.get_mut(FILE).unwrap().1.data.clone_from(&log.image);
        let data = log.encode().expect("room for the texts");
        state.insert(LOG.into(), (1, Inode { data, ..state[FILE].1.clone() }));
        self.build("work", &state);
        let full = self.plain("work", "rename @0 A");
        let untouched = self.state("work") == state;
        self.expect("full texts", full.refused("is full; with --new-history") && untouched, &full);
        let renewed = self.plain("work", "rename --new-history @0 A");
        self.expect("full texts, a new history", renewed.good(), &renewed);
    }
}
