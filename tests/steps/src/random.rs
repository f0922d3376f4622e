//! Random commands on one library, against the second reader and its book, and all undone.

use crate::book::session;
use crate::command::Cut;
use crate::folder::FILE;
use crate::tests::Tests;
use reader::judge::judge_seeing;
use reader::layout::is_header;
use reader::{Book, Call, State};
use std::ffi::OsString;
use std::fs;

/// Numbers that look random: a generator of Marsaglia's.
struct Random(u64);

impl Random {
    fn below(&mut self, limit: usize) -> usize {
        self.0 ^= self.0 << 13;
        self.0 ^= self.0 >> 7;
        self.0 ^= self.0 << 17;
        (self.0 >> 11) as usize % limit.max(1)
    }
}

/// An element, as the second reader's view has it.
struct Element {
    place: u64,
    end: u64,
    header: Option<u64>,
    cell: Option<String>,
    holds: bool,
}

fn elements(file: &[u8]) -> Vec<Element> {
    let mut all = Vec::new();
    let judged = judge_seeing(file, 2, |seen| {
        all.push(Element {
            place: seen.place,
            end: seen.end,
            header: seen.header,
            cell: None,
            holds: is_header(seen.kind),
        });
    });
    judged.unwrap();
    for element in all.iter_mut().filter(|element| element.holds) {
        let name = reader::view(file, 2, element.place).unwrap().name;
        element.cell = name.map(|(first, second)| String::from_utf8(reader::unpack(first, second).unwrap()).unwrap());
    }
    all
}

/// A command, and the call that it is; none where it has to be refused before.
type Command = (Vec<String>, Option<Vec<Call>>);

fn choose(random: &mut Random, state: &State, books: usize, piece: &str, tests: &Tests) -> Command {
    let file = state.used_file();
    let all = elements(file);
    let any = &all[random.below(all.len())];
    let cells: Vec<&Element> = all.iter().filter(|element| element.cell.is_some()).collect();
    let text = |words: &[&str]| words.iter().map(|word| word.to_string()).collect::<Vec<_>>();
    let at = |place: u64| format!("@{place}");
    let marker = reader::judge(file, 2).unwrap().marker;
    match random.below(20) {
        0..=3 if !cells.is_empty() => {
            let cell = cells[random.below(cells.len())];
            let code = cell.cell.clone().unwrap();
            let new = format!("{}{}", ["A", "PUMP.", "0", "$"][random.below(4)], random.below(10));
            let single = cells.iter().filter(|other| other.cell == cell.cell).count() == 1;
            let named = if random.below(2) == 0 { at(cell.place) } else { code.clone() };
            let free = cells.iter().all(|other| other.cell.as_deref() != Some(&new));
            let good = (free || code == new) && code != new && (single || named.starts_with('@'));
            let call = Call::Rename { place: cell.place, text: new.clone().into_bytes() };
            (text(&["rename", FILE, &named, &new]), good.then(|| vec![call]))
        }
        4..=6 => {
            let deleted = random.below(2) == 0;
            let word = if deleted { "delete" } else { "restore" };
            (text(&[word, FILE, &at(any.place)]), Some(vec![Call::Mark { place: any.place, deleted }]))
        }
        7..=8 if file.len() > 1500 => {
            (text(&["remove", FILE, &at(any.place)]), Some(vec![Call::Remove { place: any.place }]))
        }
        7..=11 if file.len() < 9000 => {
            let from = &all[random.below(all.len())];
            let bytes = file[2 * from.place as usize..2 * from.end as usize].to_vec();
            fs::write(tests.folder.join("work").join(piece), &bytes).unwrap();
            let headers: Vec<&Element> = all.iter().filter(|element| element.holds).collect();
            let header = match (from.header, headers.len()) {
                (None, _) | (_, 0) => None,
                _ => Some(headers[random.below(headers.len())]),
            };
            let (under, end) = header.map_or(("top".to_string(), marker), |header| (at(header.place), header.end));
            let own = all
                .iter()
                .filter(|element| element.header == header.map(|header| header.place))
                .map(|element| element.place);
            let starts: Vec<u64> = own.collect();
            let place =
                if random.below(2) == 0 || starts.is_empty() { end } else { starts[random.below(starts.len())] };
            let place = if random.below(10) == 0 { place + 1 } else { place };
            let word = if place == end { "end".into() } else { place.to_string() };
            let call = Call::Insert { header: header.map(|header| header.place), place, piece: bytes };
            (text(&["insert", FILE, piece, "--under", &under, "--at", &word, "--allow-double"]), Some(vec![call]))
        }
        12..=13 if file.len() < 9000 && !cells.is_empty() => {
            let cell = cells[random.below(cells.len())];
            fs::write(tests.folder.join("work").join(piece), file).unwrap();
            let bytes = file[2 * cell.place as usize..2 * cell.end as usize].to_vec();
            let call = Call::Insert { header: None, place: marker, piece: bytes };
            let double = random.below(2) == 0;
            let words = text(&["add", FILE, "--from", piece, &at(cell.place)]);
            let words = if double { [words, text(&["--allow-double"])].concat() } else { words };
            (words, double.then(|| vec![call]))
        }
        14..=17 => {
            let count = 1 + random.below(4);
            let calls = (count <= books).then(|| vec![Call::Undo; count]);
            (text(&["undo", FILE, &count.to_string()]), calls)
        }
        18 => (text(&["remove", FILE, &at(any.place + 1)]), None),
        _ => (text(&["delete", FILE, "--dry-run", &at(any.place)]), Some(vec![])),
    }
}

impl Tests {
    pub fn random(&mut self, count: usize) {
        let base = self.base(&[]);
        self.build("work", &base);
        let folder = self.folder.join("work");
        let (mut state, behind) = session(&self.original);
        // so much room is never used up, and the copies below are short
        state.file.truncate(1 << 16);
        let mut book = Book::new(state.used_file(), 2);
        let mut random = Random(0x2545_f491_4f6c_dd1d);
        let (mut made, mut refused) = (0, 0);
        for k in 0..count {
            let (words, calls) = choose(&mut random, &state, book.listed(), "piece", self);
            std::env::set_current_dir(&folder).unwrap();
            let ran = self.runner.arguments(words.iter().map(OsString::from).collect(), &Cut::default());
            let mut after = state.clone();
            let allowed = calls.as_ref().is_some_and(|calls| calls.iter().all(|call| after.run(call).is_ok()));
            let dry = words.iter().any(|word| word == "--dry-run");
            if allowed && !dry {
                calls.iter().flatten().for_each(|call| book.feed(call, false));
                state = after;
            }
            let file = fs::read(folder.join(FILE)).unwrap();
            let right = file == [state.used_file(), &behind].concat();
            let expected = match (dry, allowed) {
                (true, _) => matches!(ran.status, Some(0 | 1)),
                (false, allowed) => ran.status == Some(i32::from(!allowed)),
            };
            if !right || !expected {
                self.fail(format!("random command {k}, {words:?}: {ran:?}, allowed {allowed}, file right {right}"));
                return;
            }
            if k % 250 == 0 && book.bytes().as_deref() != Some(state.used_file()) {
                self.fail(format!("random command {k}: the book has another file"));
                return;
            }
            made += usize::from(ran.good());
            refused += usize::from(!ran.good());
        }
        self.count("random commands, made", made);
        self.count("random commands, refused", refused);
        let standing = book.listed();
        let listed = self.run("work", &crate::tests::history(), &Cut::default());
        let stands = listed.out.lines().filter(|line| line.split('\t').nth(6) == Some("made")).count();
        let log = fs::metadata(folder.join(crate::folder::LOG)).unwrap().len();
        println!("  the log of {log} bytes has {} steps, {standing} edits stand", listed.out.lines().count());
        let out = folder.join("first");
        let path = folder.join(FILE);
        let original = self
            .runner
            .arguments(vec!["original".into(), path.into(), "-o".into(), out.clone().into()], &Cut::default());
        if stands != standing || !original.good() || fs::read(out).unwrap() != self.original {
            self.fail(format!(
                "random commands: {stands} edits stand in the log, {standing} in the book; {original:?}"
            ));
        }
        let mut left = standing;
        while left > 0 {
            let some = 1 + random.below(left.min(400));
            let ran = self.plain("work", &format!("undo {some}"));
            if !ran.good() {
                self.fail(format!("random commands, undone: {ran:?}"));
                return;
            }
            left -= some;
        }
        if fs::read(folder.join(FILE)).unwrap() != self.original {
            self.fail("random commands, all undone: another file than the first".into());
        }
        self.count("random commands: the first file again", 1);
    }
}
