//! A folder on disk as plain data: read, and built again.

use dgn::system;
use std::collections::{BTreeMap, HashMap};
use std::ffi::OsStr;
use std::fs::{self, File};
use std::os::unix::fs::{chown, MetadataExt, PermissionsExt};
use std::path::{Path, PathBuf};

/// Mode, owner and extended attributes.
#[derive(Clone, PartialEq, Eq, PartialOrd, Ord, Hash, Debug, Default)]
pub struct Dress {
    pub mode: u32,
    pub user: u32,
    pub group: u32,
    pub attributes: BTreeMap<String, Vec<u8>>,
}

/// A file on disk.
#[derive(Clone, PartialEq, Eq, PartialOrd, Ord, Hash, Debug)]
pub struct Inode {
    pub data: Vec<u8>,
    pub dress: Dress,
}

/// For each name the number of its inode (two names may share one) and what is in it.
pub type State = BTreeMap<String, (usize, Inode)>;

pub const FILE: &str = "a.dgn";
pub const LOG: &str = "a.dgn.dgnlog";
pub const NEXT: &str = "a.dgn.dgnlog.next";
pub const NEW: &str = "a.dgn.dgnlog.new";

fn attributes(path: &Path) -> BTreeMap<String, Vec<u8>> {
    let Ok(file) = File::open(path) else { return BTreeMap::new() };
    let names = system::attributes(&file).unwrap_or_default();
    let pair = |name: std::ffi::OsString| {
        let value = system::attribute(&file, &name).unwrap_or_default();
        (name.to_string_lossy().into_owned(), value)
    };
    names.into_iter().map(pair).collect()
}

/// The folder as it is. A symbolic link is read as what it leads to.
pub fn read(folder: &Path) -> State {
    let entries = fs::read_dir(folder).unwrap();
    let mut names: Vec<String> = entries.map(|entry| entry.unwrap().file_name().into_string().unwrap()).collect();
    names.sort();
    let mut seen = HashMap::new();
    let mut state = State::new();
    for name in names {
        let path = folder.join(&name);
        let data = fs::symlink_metadata(&path).unwrap();
        let next = seen.len();
        let number = *seen.entry(data.ino()).or_insert(next);
        let dress =
            Dress { mode: data.mode() & 0o7777, user: data.uid(), group: data.gid(), attributes: attributes(&path) };
        state.insert(name, (number, Inode { data: fs::read(&path).unwrap(), dress }));
    }
    state
}

/// The same with the inodes numbered by their first names.
pub fn renumber(state: &State) -> State {
    let mut seen = HashMap::new();
    let numbered = state.iter().map(|(name, (number, inode))| {
        let next = seen.len();
        (name.clone(), (*seen.entry(*number).or_insert(next), inode.clone()))
    });
    numbered.collect()
}

/// Makes the folder anew.
pub fn build(folder: &Path, state: &State) {
    let _ = fs::remove_dir_all(folder);
    fs::create_dir_all(folder).unwrap();
    let mut seen: HashMap<usize, PathBuf> = HashMap::new();
    for (name, (number, inode)) in state {
        let path = folder.join(name);
        if let Some(first) = seen.get(number) {
            fs::hard_link(first, &path).unwrap();
            continue;
        }
        fs::write(&path, &inode.data).unwrap();
        let dress = &inode.dress;
        let _ = chown(&path, Some(dress.user), Some(dress.group));
        let file = File::open(&path).unwrap();
        for (name, value) in &dress.attributes {
            system::set_attribute(&file, OsStr::new(name), value).unwrap();
        }
        fs::set_permissions(&path, fs::Permissions::from_mode(dress.mode)).unwrap();
        seen.insert(*number, path);
    }
}

/// What stands there, in a line.
pub fn shape(state: &State) -> String {
    let names = state.iter().map(|(name, (number, inode))| format!("{name}#{number}:{}B", inode.data.len()));
    names.collect::<Vec<_>>().join(" ")
}
