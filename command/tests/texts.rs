//! Arguments, and names as they are printed.

use dgn_command::arguments::{decimal, Arguments};
use dgn_command::help;
use dgn_command::output::{characters, column, count, escaped, grouped, name};
use dgn_command::parts::{alike, which, Which};
use std::ffi::{OsStr, OsString};
use std::os::unix::ffi::OsStrExt;
use std::process::Command;

fn parse(subcommand: &str, words: &[&str]) -> Option<Arguments> {
    let subcommand = help::find(subcommand).expect("a subcommand");
    Arguments::parse(subcommand, words.iter().map(OsString::from).collect()).ok()
}

#[test]
fn options() {
    for words in [&["-j4", "a"][..], &["-j", "4", "a"], &["--jobs", "4", "a"], &["a", "--jobs=4"], &["-qj4", "a"]] {
        let arguments = parse("check", words).expect("right usage");
        assert_eq!(arguments.value("jobs"), Some(OsStr::new("4")), "{words:?}");
        assert_eq!(arguments.words, ["a"], "{words:?}");
        assert_eq!(arguments.number("jobs", 1).expect("a number"), Some(4));
    }
    let dashed = parse("check", &["-q", "--", "-j", "--tsv"]).expect("right usage");
    assert_eq!(dashed.words, ["-j", "--tsv"]);
    assert!(dashed.has("quiet") && !dashed.has("tsv"));
    assert_eq!(parse("check", &["-"]).expect("right usage").words, ["-"]);
}

#[test]
fn wrong_options() {
    let wrong = [
        &["-j"][..],
        &["--jobs"],
        &["--none", "a"],
        &["-z", "a"],
        &["--tsv=1", "a"],
        &["-q", "-q", "a"],
        &["--2d", "--3d", "a"],
        &[],
    ];
    for words in wrong {
        assert!(parse("check", words).is_none(), "{words:?}");
    }
    assert!(parse("compare", &["a", "b", "c"]).is_none());
    for number in ["", "-1", "+1", "0x1", "99999999999999999999", "1 "] {
        assert_eq!(decimal(OsStr::new(number)), None, "{number}");
    }
}

#[test]
fn which_one() {
    let which = |word: &str| which(OsStr::new(word)).ok();
    assert_eq!(which("417"), Some(Which::Code("417".into())));
    assert_eq!(which("@417"), Some(Which::Place(417)));
    assert_eq!(which(""), Some(Which::Code(String::new())));
    assert_eq!(which(" 417"), Some(Which::Code(" 417".into())));
    for wrong in ["417 ", "pump", "SEVENTH", "@", "@x", "@-1", "Ü"] {
        assert_eq!(which(wrong), None, "{wrong}");
    }
}

#[test]
fn codes_that_are_alike() {
    for (one, other) in [("417", "00417"), ("417", " 417"), ("0 417", "00417"), ("0", "00"), ("", "0")] {
        assert!(alike(one, other) && alike(other, one), "{one} {other}");
    }
    for (one, other) in [("417", "417"), ("417", "4170"), ("417", "418"), ("A0", "A")] {
        assert!(!alike(one, other), "{one} {other}");
    }
}

/// A shell takes a name that is printed as the name itself.
#[test]
fn names_for_a_shell() {
    let mut names: Vec<Vec<u8>> = (1..=255).map(|byte| vec![b'a', byte, b'b']).collect();
    names.extend(
        [
            &b"plain.dgn"[..],
            b"",
            b"a b",
            b"it's",
            b"-x",
            b"\xff\xfe'\\",
            b"$HOME",
            b"a\nb",
            b"~",
            "Sch\u{f6}n".as_bytes(),
        ]
        .map(<[u8]>::to_vec),
    );
    names.push("\u{202e}right".as_bytes().to_vec());
    for bytes in names {
        let shown = name(OsStr::from_bytes(&bytes));
        assert!(!shown.chars().any(char::is_control), "{shown}");
        let taken = Command::new("bash").args(["-c", &format!("printf %s {shown}")]).output().expect("bash");
        assert_eq!(taken.stdout, bytes, "{shown}");
    }
}

#[test]
fn columns() {
    assert_eq!(column(OsStr::from_bytes(b"a b\tc\\\xff")), "a b\\x09c\\\\\\xff");
    assert_eq!(escaped("Sch\u{f6}n".as_bytes()), "Sch\u{f6}n");
    assert_eq!(characters(b"\xd8 40 \\ \x00~\x7f"), "\\xd8 40 \\\\ \\x00~\\x7f");
    assert_eq!([0, 999, 1000, 1_048_576].map(grouped), ["0", "999", "1,000", "1,048,576"]);
    assert_eq!([0, 1, 2].map(|n| count(n, "file")), ["0 files", "1 file", "2 files"]);
}
