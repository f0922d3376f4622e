//! The calls of Linux: names exchanged, the right to write, extended attributes, the user.

use dgn::system;
use std::ffi::OsStr;
use std::fs::{self, File};
use std::path::PathBuf;

/// An empty folder of this test's own.
fn folder(name: &str) -> PathBuf {
    let folder = std::env::temp_dir().join(format!("dgn-system-{}-{name}", std::process::id()));
    fs::create_dir(&folder).unwrap();
    folder
}

#[test]
fn names_exchanged() {
    let folder = folder("exchange");
    let (a, b) = (folder.join("a"), folder.join("b"));
    fs::write(&a, "first").unwrap();
    fs::write(&b, "second").unwrap();
    match system::exchange(&a, &b) {
        Err(error) => assert!(system::cannot_exchange(&error), "{error}"),
        Ok(()) => assert_eq!((fs::read(&a).unwrap(), fs::read(&b).unwrap()), (b"second".to_vec(), b"first".to_vec())),
    }
    fs::remove_file(&b).unwrap();
    let error = system::exchange(&a, &b).unwrap_err();
    assert!(!system::cannot_exchange(&error), "{error}");
    assert!(system::exchange(&a, &folder.join("with\0zero")).is_err());
    fs::remove_dir_all(&folder).unwrap();
}

#[test]
fn attributes_kept() {
    let folder = folder("attributes");
    let file = File::create(folder.join("a")).unwrap();
    let name = OsStr::new("user.dgn");
    if system::set_attribute(&file, name, b"of \0 bytes").is_ok() {
        assert!(system::attributes(&file).unwrap().iter().any(|found| found == name));
        assert_eq!(system::attribute(&file, name).unwrap(), b"of \0 bytes");
        system::set_attribute(&file, name, b"").unwrap();
        assert_eq!(system::attribute(&file, name).unwrap(), b"");
        system::remove_attribute(&file, name).unwrap();
    }
    assert!(!system::attributes(&file).unwrap().iter().any(|found| found == name));
    assert!(system::attribute(&file, name).is_err() && system::remove_attribute(&file, name).is_err());
    fs::remove_dir_all(&folder).unwrap();
}

#[test]
fn folders_to_write() {
    let folder = folder("write");
    system::may_write(&folder).unwrap();
    assert_eq!(system::may_write(&folder.join("none")).unwrap_err().kind(), std::io::ErrorKind::NotFound);
    assert!(system::may_write(&folder.join("with\0zero")).is_err());
    fs::remove_dir_all(&folder).unwrap();
}

#[test]
fn user_named() {
    let user = system::user();
    let listed = fs::read_to_string("/etc/passwd").unwrap_or_default();
    let line = listed.lines().find(|line| line.split(':').nth(2) == Some(&user.to_string()));
    if let Some(name) = line.and_then(|line| line.split(':').next()) {
        assert_eq!(system::user_name(user).unwrap(), name);
    }
    assert_eq!(system::user_name(4_000_000_001), None);
}
