//! The programs celllist, textlist and platelist, as built, against the second reader's listings of the same bytes.

use reader::generate::text_writes::long_text;
use reader::generate::{aimed, changes, large, plates, valid, Random, ORDER};
use std::io::Write;
use std::process::{Command, Stdio};

/// What a program writes for these bytes on standard input.
fn listed(name: &str, input: &[u8]) -> Vec<u8> {
    let path = format!("{}/../../crates/{name}/out/{name}", env!("CARGO_MANIFEST_DIR"));
    let mut child = Command::new(path).stdin(Stdio::piped()).stdout(Stdio::piped()).spawn().expect(name);
    let mut stdin = child.stdin.take().unwrap();
    let bytes = input.to_vec();
    let writer = std::thread::spawn(move || {
        // the program stops reading after 65,537 bytes
        let _ = stdin.write_all(&bytes);
    });
    let out = child.wait_with_output().unwrap().stdout;
    writer.join().unwrap();
    out
}

/// The second reader's lines of texts as the program has them, between its heading and its last line.
fn textlist(input: &[u8]) -> Vec<u8> {
    let lines = reader::textlist(input, 2);
    match reader::judge(input, 2) {
        Ok(judged) if input.len() <= 65_536 => {
            let end = format!("END {}\n", judged.marker);
            [b"PLACE DEPTH STATE TEXT\n", &lines[..], end.as_bytes()].concat()
        }
        _ => lines,
    }
}

/// All three listings of the same bytes.
pub fn check(input: &[u8]) {
    let wanted = [("celllist", reader::celllist(input)), ("textlist", textlist(input)), ("platelist", reader::platelist(input))];
    for (name, wanted) in wanted {
        assert_eq!(
            String::from_utf8_lossy(&listed(name, input)),
            String::from_utf8_lossy(&wanted),
            "{name} of {} bytes",
            input.len()
        );
    }
}

/// Texts of 255 characters, each beginning with another byte, as many as 65,536 bytes hold.
fn texts_of_every_byte() -> Vec<u8> {
    let mut file = Vec::new();
    for shift in 0..=u8::MAX {
        let mut w = long_text(30, 2);
        w.characters = (0..255).map(|k: u8| k.wrapping_add(shift)).collect();
        let mut element = vec![0; 316];
        let words = reader::write_text(&w.text, &w.characters, &[], &[], 2, &mut element).expect("a good text");
        assert_eq!(words, 158);
        if file.len() + element.len() + 2 > 65_536 {
            break;
        }
        file.extend(element);
    }
    file.extend([255, 255]);
    file
}

pub fn run(random: &mut Random, number: u64) {
    check(&[]);
    check(&[255, 255]);
    check(&[0]);
    check(&vec![0; 65_536]);
    check(&vec![0; 65_537]);
    check(&large::longest_file().file);
    check(&large::longest_file_of_cells().file);
    check(&large::largest_extent_nested().file);
    let mut full = vec![0u8; 65_534];
    for i in (0..65_532).step_by(4) {
        full[i + 1] = 5;
    }
    full[65_532] = 255;
    full[65_533] = 255;
    check(&full);
    check(&texts_of_every_byte());
    for _ in 0..number {
        let mut v = valid(random, 2).file;
        check(&v);
        changes::change_text(random, &mut v, 2);
        check(&v);
        let number = random.pick(&ORDER);
        let depth = random.below(9);
        check(&aimed(random, 2, number, depth).file);
        check(&changes::soup(random));
        check(&plates(random, 2));
    }
}
