//! The recorded calls, and every folder that may be found after power was lost.
//!
//! For each inode it is kept what is durable and what is not, and for the folder the names set and taken away since its last
//! sync. Power lost leaves any subset of these names; a rename is two of them (new name set, old name gone), the second only with
//! the first; an exchange is two names set, both, one or none. An inode that is not synced has its old bytes; is cut at a sector;
//! has some of its sectors, the others zero (any of three, else one or all but one); one sector of another log; or garbage; each
//! with old or new mode, owner and attributes.

use crate::folder::{renumber, Dress, Inode, State, FILE, LOG};
use std::collections::{BTreeMap, BTreeSet, HashMap, HashSet};
use std::hash::{DefaultHasher, Hash, Hasher};
use std::path::Path;

pub type Words = Vec<String>;

/// What is known of a step that was commanded: nothing; that it was reported as made, or as dropped; or that the file is
/// reported to be as after it, and the log not yet.
#[derive(Clone, Copy, PartialEq, Eq, Hash, Debug)]
pub enum Known {
    Maybe,
    Made,
    Dropped,
    Unfinished,
}

pub type Issued = Vec<(Words, Known)>;

/// What lines that a command printed tell about the steps.
pub fn report(issued: &mut Issued, text: &str, editing: bool) {
    for line in text.split_inclusive('\n').filter(|line| line.ends_with('\n')) {
        let count = issued.len();
        if line.contains(" made: ") && editing {
            issued[count - 1].1 = Known::Made;
        }
        let before = if editing { count.saturating_sub(1) } else { count };
        for (start, known) in [("completed:", Known::Made), ("dropped:", Known::Dropped)] {
            if line.contains(start) {
                if let Some(step) = issued[..before].iter_mut().rev().find(|step| step.1 == Known::Maybe) {
                    step.1 = known;
                }
            }
        }
    }
}

#[derive(Clone, PartialEq, Eq, Hash)]
struct Kept {
    durable: Inode,
    now: Inode,
    dirty: bool,
}

#[derive(Clone, PartialEq, Eq, Hash)]
enum Effect {
    Set(String, usize),
    /// Two names exchanged, both or none.
    Both([(String, usize); 2]),
    /// The old name of a rename goes only if the new one came: the effect at that index.
    Gone(String, Option<usize>),
}

#[derive(Clone)]
pub struct Model {
    folder: String,
    inodes: Vec<Kept>,
    durable: BTreeMap<String, usize>,
    now: BTreeMap<String, usize>,
    pending: Vec<Effect>,
    open: HashMap<i32, Option<usize>>,
    pub issued: Issued,
    editing: bool,
    said: String,
    stale: Vec<u8>,
    owner: (u32, u32),
    /// The inode of the file when the process began, for a program that holds it open.
    held: usize,
    /// An exchange comes as a whole or not at all, as file systems with a journal do it.
    pub whole: bool,
    /// Of an inode that is not synced just some of what may be found is tried.
    pub thin: bool,
}

impl Model {
    pub fn new(folder: &Path, base: &State, issued: Issued, owner: (u32, u32)) -> Model {
        let mut inodes: Vec<Kept> = Vec::new();
        let mut numbers = HashMap::new();
        let mut names = BTreeMap::new();
        for (name, (number, inode)) in base {
            let at = *numbers.entry(*number).or_insert_with(|| {
                inodes.push(Kept { durable: inode.clone(), now: inode.clone(), dirty: false });
                inodes.len() - 1
            });
            names.insert(name.clone(), at);
        }
        let stale = base.get(LOG).map_or(vec![0xa5; 512], |log| log.1.data.clone());
        let held = names[FILE];
        let (folder, open, said) = (folder.to_str().unwrap().into(), HashMap::new(), String::new());
        let (durable, now) = (names.clone(), names);
        Model {
            folder,
            inodes,
            durable,
            now,
            pending: vec![],
            open,
            issued,
            editing: false,
            said,
            stale,
            owner,
            held,
            whole: false,
            thin: false,
        }
    }

    /// All that matters for what comes after: two lists of calls with equal keys are tried once.
    pub fn key(&self) -> u64 {
        let mut hasher = DefaultHasher::new();
        (&self.inodes, &self.durable, &self.now, &self.pending, &self.issued).hash(&mut hasher);
        hasher.finish()
    }

    fn name(&self, path: &str) -> String {
        path.strip_prefix(&self.folder).and_then(|path| path.strip_prefix('/')).unwrap_or(path).to_string()
    }

    fn set(&mut self, name: String, at: usize) {
        self.now.insert(name.clone(), at);
        self.pending.push(Effect::Set(name, at));
    }

    /// One recorded line, or "B words" for the start of a process.
    pub fn feed(&mut self, line: &str) {
        let parts: Vec<&str> = line.split(' ').collect();
        let fd = parts.get(1).and_then(|text| text.parse::<i32>().ok()).unwrap_or(-1);
        match parts[0] {
            "B" => {
                self.open.clear();
                self.said.clear();
                self.held = self.now[FILE];
                self.editing = parts[1] != "history";
                if self.editing {
                    let words = parts[1..].iter().map(|word| word.to_string()).collect();
                    self.issued.push((words, Known::Maybe));
                }
            }
            "P" => {
                self.said += &String::from_utf8_lossy(&bytes(parts[2]));
                if let Some(end) = self.said.rfind('\n') {
                    let rest = self.said.split_off(end + 1);
                    let lines = std::mem::replace(&mut self.said, rest);
                    report(&mut self.issued, &lines, self.editing);
                }
            }
            "O" => self.opened(fd, parts[2] == "1", parts[3] == "1", parts[4]),
            "C" => {
                self.open.remove(&fd);
            }
            "F" => match self.open.get(&fd) {
                Some(None) => {
                    self.durable = self.now.clone();
                    self.pending.clear();
                }
                Some(Some(at)) => {
                    let inode = &mut self.inodes[*at];
                    inode.durable = inode.now.clone();
                    inode.dirty = false;
                }
                None => {}
            },
            "W" | "T" | "M" | "N" | "A" | "D" => {
                if let Some(Some(at)) = self.open.get(&fd) {
                    self.inodes[*at].dirty = true;
                    written(&mut self.inodes[*at].now, &parts);
                }
            }
            "R" => {
                let (old, new) = (self.name(parts[1]), self.name(parts[2]));
                let at = self.now[&old];
                if self.now.get(&new) != Some(&at) {
                    self.now.remove(&old);
                    self.set(new, at);
                    self.pending.push(Effect::Gone(old, Some(self.pending.len() - 1)));
                }
            }
            "X" => {
                let (one, other) = (self.name(parts[1]), self.name(parts[2]));
                let (first, second) = (self.now[&one], self.now[&other]);
                if self.whole {
                    let both = [(one, second), (other, first)];
                    self.now.extend(both.clone());
                    self.pending.push(Effect::Both(both));
                } else {
                    self.set(one, second);
                    self.set(other, first);
                }
            }
            "U" => {
                let name = self.name(parts[1]);
                self.now.remove(&name);
                self.pending.push(Effect::Gone(name, None));
            }
            "G" => self.foreign(parts[1], bytes(parts[2])),
            "E" => {}
            _ => panic!("{line}"),
        }
    }

    fn opened(&mut self, fd: i32, created: bool, truncated: bool, path: &str) {
        if path == self.folder {
            self.open.insert(fd, None);
            return;
        }
        let Some(name) = path.strip_prefix(&self.folder).and_then(|path| path.strip_prefix('/')) else { return };
        if created {
            let dress = Dress { mode: 0o600, user: self.owner.0, group: self.owner.1, ..Dress::default() };
            let empty = Inode { data: vec![], dress };
            self.inodes.push(Kept { durable: empty.clone(), now: empty, dirty: true });
            self.set(name.into(), self.inodes.len() - 1);
        }
        let at = self.now[name];
        if truncated {
            self.inodes[at].now.data.clear();
            self.inodes[at].dirty = true;
        }
        self.open.insert(fd, Some(at));
    }

    /// Another program's write, durable at once.
    fn foreign(&mut self, how: &str, data: Vec<u8>) {
        let at = match how {
            "held" => self.held,
            _ => self.now[FILE],
        };
        if how != "swap" {
            self.inodes[at].now.data = data.clone();
            self.inodes[at].durable.data = data;
            return;
        }
        let inode =
            Inode { data, dress: Dress { mode: 0o644, user: self.owner.0, group: self.owner.1, ..Dress::default() } };
        self.inodes.push(Kept { durable: inode.clone(), now: inode, dirty: false });
        let new = self.inodes.len() - 1;
        self.now.insert(FILE.into(), new);
        self.durable.insert(FILE.into(), new);
    }

    /// What may be found of an inode.
    fn variants(&self, at: usize) -> Vec<Inode> {
        let inode = &self.inodes[at];
        if !inode.dirty {
            return vec![inode.now.clone()];
        }
        let full = &inode.now.data;
        let sectors = full.len().div_ceil(512);
        let part = |k: usize| 512 * k..full.len().min(512 * k + 512);
        let mut datas = vec![inode.durable.data.clone(), full.clone(), vec![0xa5; full.len()]];
        if self.thin {
            datas.push(full[..full.len() / 1024 * 512].to_vec());
            return dressed(&datas, inode);
        }
        datas.extend((0..sectors).map(|k| full[..512 * k].to_vec()));
        let choices: Vec<u64> = if sectors <= 3 {
            (0..1 << sectors).collect()
        } else {
            (0..sectors).flat_map(|k| [1 << k, !(1 << k)]).collect()
        };
        for mask in choices {
            let mut data = vec![0; full.len()];
            (0..sectors).filter(|k| mask >> k & 1 == 1).for_each(|k| data[part(k)].copy_from_slice(&full[part(k)]));
            datas.push(data);
        }
        for k in 0..sectors {
            let mut data = full.clone();
            for j in part(k) {
                data[j] = self.stale[j % self.stale.len()];
            }
            datas.push(data);
        }
        dressed(&datas, inode)
    }

    /// Every folder that may be found if power is lost now.
    pub fn states(&self) -> Vec<State> {
        let effects = self.pending.len();
        assert!(effects <= 16, "{effects} names under way");
        let mut maps = BTreeSet::new();
        for mask in 0u32..1 << effects {
            let has = |k: usize| mask >> k & 1 == 1;
            let mut names = self.durable.clone();
            let mut fits = true;
            for (_, effect) in self.pending.iter().enumerate().filter(|(k, _)| has(*k)) {
                match effect {
                    Effect::Set(name, at) => {
                        names.insert(name.clone(), *at);
                    }
                    Effect::Both(both) => names.extend(both.clone()),
                    Effect::Gone(name, needs) => {
                        fits &= needs.is_none_or(has);
                        names.remove(name);
                    }
                }
            }
            if fits {
                maps.insert(names);
            }
        }
        let mut found = Vec::new();
        for names in maps {
            let used: BTreeSet<usize> = names.values().copied().collect();
            let mut picks: Vec<HashMap<usize, Inode>> = vec![HashMap::new()];
            for at in used {
                let variants = self.variants(at);
                let with = |pick: &HashMap<usize, Inode>, inode: &Inode| {
                    let mut pick = pick.clone();
                    pick.insert(at, inode.clone());
                    pick
                };
                picks = picks.iter().flat_map(|pick| variants.iter().map(move |inode| with(pick, inode))).collect();
            }
            let state = |pick: &HashMap<usize, Inode>| {
                renumber(&names.iter().map(|(name, at)| (name.clone(), (*at, pick[at].clone()))).collect())
            };
            found.extend(picks.iter().map(state));
        }
        found
    }

    /// The folder with all calls applied.
    pub fn folder(&self) -> State {
        renumber(&self.now.iter().map(|(name, at)| (name.clone(), (*at, self.inodes[*at].now.clone()))).collect())
    }
}

/// Each with the old and with the new mode, owner and attributes.
fn dressed(datas: &[Vec<u8>], inode: &Kept) -> Vec<Inode> {
    let all = datas.iter().flat_map(|data| {
        [&inode.durable.dress, &inode.now.dress].map(|dress| Inode { data: data.clone(), dress: dress.clone() })
    });
    let mut seen = HashSet::new();
    all.filter(|inode| seen.insert(inode.clone())).collect()
}

fn bytes(hex: &str) -> Vec<u8> {
    (0..hex.len() / 2).map(|k| u8::from_str_radix(&hex[2 * k..2 * k + 2], 16).unwrap()).collect()
}

/// What a call changed of an inode.
fn written(inode: &mut Inode, parts: &[&str]) {
    let Inode { data, dress } = inode;
    match parts[0] {
        "W" => {
            let (offset, bytes) = (parts[2].parse::<usize>().unwrap(), bytes(parts[3]));
            data.resize(data.len().max(offset + bytes.len()), 0);
            data[offset..offset + bytes.len()].copy_from_slice(&bytes);
        }
        "T" => data.resize(parts[2].parse().unwrap(), 0),
        "M" => dress.mode = u32::from_str_radix(parts[2], 8).unwrap(),
        "N" => (dress.user, dress.group) = (parts[2].parse().unwrap(), parts[3].parse().unwrap()),
        "A" => {
            dress.attributes.insert(parts[2].into(), bytes(parts[3]));
        }
        _ => {
            dress.attributes.remove(parts[2]);
        }
    }
}
