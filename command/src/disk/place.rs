//! A folder that is locked, and in it a file with the names of its log.

use crate::files::{has_log_name, Unread};
use crate::output::{self, Output};
use dgn::{system, FILE_BYTES};
use std::ffi::{OsStr, OsString};
use std::fs::{self, File, Metadata, OpenOptions, Permissions, TryLockError};
use std::io::{self, ErrorKind, Read, Write};
use std::os::unix::fs::{fchown, MetadataExt, OpenOptionsExt, PermissionsExt};
use std::path::{Path, PathBuf};
use std::time::{Duration, Instant};

// of Linux on x86-64, for which the archive is made: a link is not followed, and a pipe is not waited for
const NO_FOLLOW: i32 = 0o400000;
const NO_WAIT: i32 = 0o4000;

/// The most bytes of a name.
const NAME_BYTES: usize = 255;

/// The most bytes of a log: five parts in blocks.
const LOG_BYTES: u64 = 8 * FILE_BYTES as u64;

/// Why a command on a file with a history stops.
#[derive(Debug)]
pub enum Stop {
    /// The command is wrong. Nothing is changed.
    Usage(String),
    /// The library, the state of the file or its log does not allow it. Nothing is changed.
    Refused(String),
    /// The system does not allow it. Nothing is changed.
    System(String),
    /// The step is made, but something of the system failed behind it.
    Unfinished(String),
}

impl Stop {
    /// Why.
    pub fn why(&self) -> &str {
        match self {
            Stop::Usage(why) | Stop::Refused(why) | Stop::System(why) | Stop::Unfinished(why) => why,
        }
    }

    /// Says why, and sets the status.
    pub fn tell(self, output: &mut Output) -> Result<(), output::Stop> {
        match self {
            Stop::Usage(what) => return Err(output::Stop::Usage(what)),
            Stop::Refused(what) => {
                output.message(format_args!("{what}; nothing is changed"));
                output.refused();
            }
            Stop::System(what) => {
                output.message(format_args!("{what}; nothing is changed"));
                output.unread();
            }
            Stop::Unfinished(what) => {
                output.message(what);
                output.unread();
            }
        }
        Ok(())
    }
}

/// A call of the system failed, before anything was changed.
pub fn system(what: &str, name: impl AsRef<OsStr>) -> impl FnOnce(io::Error) -> Stop {
    let what = format!("cannot {what} {}", output::name(&name));
    move |why| Stop::System(format!("{what}: {}", output::reason(&why)))
}

/// A file in its folder. The folder is the process's own from then on, so that all names are single names in one and the
/// same folder, whatever is renamed or linked elsewhere meanwhile. Dropped, it gives the lock back.
pub struct Place {
    pub(super) folder: File,
    /// The file as the user knows it: as it was given, or where a link leads to.
    path: PathBuf,
    /// The file.
    pub file: OsString,
    /// Its log, whose image is the file as the last step left it.
    pub log: OsString,
    /// The log of the step under way; becomes the log.
    pub next: OsString,
    /// The file of the step under way; becomes the file.
    pub new: OsString,
}

/// A file as it was read.
pub struct Seen {
    /// Its bytes.
    pub bytes: Vec<u8>,
    /// Its inode, mode, owner.
    pub data: Metadata,
    /// Its extended attributes.
    pub attributes: Vec<(OsString, Vec<u8>)>,
}

impl Seen {
    /// Which file it is, by what name ever.
    pub fn number(&self) -> (u64, u64) {
        (self.data.dev(), self.data.ino())
    }

    /// Whether it is the same file with the same bytes, mode, owner and attributes.
    pub fn same(&self, other: &Seen) -> bool {
        let dress = |seen: &Seen| (seen.data.mode(), seen.data.uid(), seen.data.gid(), seen.data.nlink());
        self.bytes == other.bytes
            && self.number() == other.number()
            && dress(self) == dress(other)
            && self.attributes == other.attributes
    }
}

fn attributes(file: &File) -> io::Result<Vec<(OsString, Vec<u8>)>> {
    let names = system::attributes(file)?;
    names.into_iter().map(|name| system::attribute(file, &name).map(|value| (name, value))).collect()
}

/// The whole name of a file that is not there, in a folder that is.
fn absent(path: &OsStr) -> Option<PathBuf> {
    let whole = std::path::absolute(path).ok()?;
    Some(fs::canonicalize(whole.parent()?).ok()?.join(whole.file_name()?))
}

/// Whether this process may give a file to the owner and the group of another: by the rights that the system tells of it. Where
/// it tells none it is tried.
fn may_give(like: &Metadata, folder: &Metadata) -> bool {
    let Ok(status) = fs::read_to_string("/proc/self/status") else { return true };
    let numbers = |name: &str| -> Vec<u32> {
        let line = status.lines().find_map(|line| line.strip_prefix(name)).unwrap_or("");
        line.split_whitespace().filter_map(|word| word.parse().ok()).collect()
    };
    let rights = status.lines().find_map(|line| line.strip_prefix("CapEff:")).unwrap_or("0").trim();
    let may_all = u64::from_str_radix(rights, 16).is_ok_and(|rights| rights & 1 == 1);
    let (users, groups) = (numbers("Uid:"), [numbers("Gid:"), numbers("Groups:")].concat());
    // a folder with the bit for it gives its own group to a new file
    let given = folder.mode() & 0o2000 != 0 && folder.gid() == like.gid();
    may_all || (users.get(1) == Some(&like.uid()) && (given || groups.contains(&like.gid())))
}

/// The name with more behind it.
fn longer(name: &OsStr, end: &str) -> OsString {
    let mut longer = name.to_os_string();
    longer.push(end);
    longer
}

impl Place {
    /// Follows symbolic links, once, and locks the folder of the file that they lead to, for which it waits so long. With
    /// `missing` the file need not be there.
    pub fn open(path: &OsStr, wait: Duration, missing: bool, output: &mut Output) -> Result<Place, Stop> {
        let real = match fs::canonicalize(path) {
            Err(why) if missing && why.kind() == ErrorKind::NotFound => absent(path).ok_or(why),
            found => found,
        };
        let real = real.map_err(system("find", path))?;
        let unread = |why: Unread| Stop::System(format!("{} cannot be read: {why}", output::name(path)));
        match fs::metadata(&real) {
            Ok(data) if data.is_dir() => return Err(unread(Unread::Folder)),
            Ok(data) if !data.is_file() => return Err(unread(Unread::Special)),
            _ => {}
        }
        let (Some(above), Some(file)) = (real.parent(), real.file_name()) else { return Err(unread(Unread::Folder)) };
        if has_log_name(file) {
            return Err(Stop::Usage(format!("{} belongs to a log; name the file beside it", output::name(path))));
        }
        let is_link = fs::symlink_metadata(path).is_ok_and(|data| data.is_symlink());
        if is_link {
            output.message(format_args!(
                "{} is a link to {}, which is the file meant here",
                output::name(path),
                output::name(&real)
            ));
        }
        std::env::set_current_dir(above).map_err(system("enter the folder of", path))?;
        let folder = File::open(".").map_err(system("open the folder of", path))?;
        lock(&folder, path, wait)?;
        let log = longer(file, ".dgnlog");
        let path = if is_link { real.clone() } else { path.into() };
        if log.len() + ".next".len() > NAME_BYTES {
            let most = NAME_BYTES - ".dgnlog.next".len();
            return Err(Stop::Refused(format!(
                "the name of {} is too long for a log beside it: rename the file, to at most {most} bytes",
                output::name(&path)
            )));
        }
        Ok(Place { folder, path, file: file.into(), next: longer(&log, ".next"), new: longer(&log, ".new"), log })
    }

    /// A name beside the file, as the user knows it.
    pub fn path(&self, name: &OsStr) -> PathBuf {
        self.path.with_file_name(name)
    }

    /// The same, for a message.
    pub fn shown(&self, name: &OsStr) -> String {
        output::name(&self.path(name))
    }

    /// A call of the system on a name beside the file failed, before anything was changed.
    pub(super) fn system(&self, what: &str, name: &OsStr) -> impl FnOnce(io::Error) -> Stop {
        system(what, self.path(name))
    }

    /// Makes the folder's names durable.
    pub(super) fn sync(&self) -> io::Result<()> {
        self.folder.sync_all()
    }

    /// The same before a step is made.
    pub(super) fn sync_before(&self) -> Result<(), Stop> {
        self.sync().map_err(self.system("write the folder of", &self.file))
    }

    /// Reads the file, or what is called otherwise. With `to_write`, only where this user may write it.
    pub fn read(&self, name: &OsStr, to_write: bool) -> Result<Seen, Stop> {
        let opened = OpenOptions::new().read(true).write(to_write).custom_flags(NO_FOLLOW | NO_WAIT).open(name);
        let file = opened.map_err(self.system(if to_write { "open for writing" } else { "open" }, name))?;
        let data = file.metadata().map_err(self.system("read", name))?;
        if !data.is_file() {
            return Err(Stop::Refused(format!("{} is no regular file", self.shown(name))));
        }
        let attributes = attributes(&file).map_err(self.system("read the extended attributes of", name))?;
        // the stated size is no more than a first guess
        let mut bytes = Vec::with_capacity(FILE_BYTES.min(data.len() as usize) + 1);
        file.take(FILE_BYTES as u64 + 1).read_to_end(&mut bytes).map_err(self.system("read", name))?;
        if bytes.len() > FILE_BYTES {
            return Err(Stop::Refused(format!(
                "{} has more than {} bytes",
                self.shown(name),
                output::grouped(FILE_BYTES)
            )));
        }
        Ok(Seen { bytes, data, attributes })
    }

    /// The bytes of a log; none where there is none. A symbolic link is none of ours.
    pub(super) fn read_log(&self, name: &OsStr) -> Result<Option<Vec<u8>>, Stop> {
        match OpenOptions::new().read(true).custom_flags(NO_FOLLOW | NO_WAIT).open(name) {
            Err(why) if why.kind() == ErrorKind::NotFound => Ok(None),
            Err(why) => Err(self.system("open", name)(why)),
            Ok(file) => {
                let mut bytes = Vec::new();
                file.take(LOG_BYTES).read_to_end(&mut bytes).map_err(self.system("read", name))?;
                Ok(Some(bytes))
            }
        }
    }

    /// Whether the name is there.
    pub(super) fn has(name: &OsStr) -> bool {
        fs::symlink_metadata(name).is_ok()
    }

    /// Takes a name away where it is there.
    pub(super) fn remove(&self, name: &OsStr) -> Result<(), Stop> {
        match fs::remove_file(name) {
            Err(why) if why.kind() != ErrorKind::NotFound => Err(self.system("remove", name)(why)),
            _ => Ok(()),
        }
    }

    /// Refuses a step on a file that cannot be replaced by a new one of the same owner, as far as that can be seen before.
    pub fn may_replace(&self, seen: &Seen) -> Result<(), Stop> {
        let name = self.shown(&self.file);
        // a second name that a step left, which the next one takes away, is none
        let own = fs::symlink_metadata(&self.new).is_ok_and(|new| (new.dev(), new.ino()) == seen.number());
        let names = seen.data.nlink().saturating_sub(own.into());
        if names != 1 {
            return Err(Stop::Refused(format!(
                "{name} has {names} names (hard links), which a step would part: edit a copy of it, or remove its other names"
            )));
        }
        system::may_write(Path::new(".")).map_err(self.system("write the folder of", &self.file))?;
        let folder = self.folder.metadata().map_err(self.system("read the folder of", &self.file))?;
        if !may_give(&seen.data, &folder) {
            return Err(Stop::System(self.told_owner(seen)));
        }
        Ok(())
    }

    /// That the file's owner cannot be kept, and who may edit it.
    fn told_owner(&self, seen: &Seen) -> String {
        let (user, group) = (seen.data.uid(), seen.data.gid());
        let owner = system::user_name(user).map_or(user.to_string(), |owner| output::name(&owner));
        format!(
            "{} belongs to the user {owner} (group {group}), and a step could not keep that: its owner edits it, where the owner is in \
            that group, or root; or edit a copy of your own",
            self.shown(&self.file)
        )
    }

    /// Writes a new file with the mode, the owner and the extended attributes of the one that was seen, and makes it durable.
    pub(super) fn put(&self, name: &OsStr, bytes: &[u8], like: &Seen) -> Result<(), Stop> {
        let created = OpenOptions::new().write(true).create_new(true).mode(0o600).open(name);
        let mut file = created.map_err(self.system("create", name))?;
        file.write_all(bytes).map_err(self.system("write", name))?;
        let own = file.metadata().map_err(self.system("read", name))?;
        if (own.uid(), own.gid()) != (like.data.uid(), like.data.gid()) {
            fchown(&file, Some(like.data.uid()), Some(like.data.gid()))
                .map_err(|why| Stop::System(format!("{} ({})", self.told_owner(like), output::reason(&why))))?;
        }
        dress(&file, like).map_err(self.system("give the file's extended attributes to", name))?;
        // last: a change of the owner or of an access list changes the mode too
        let mode = Permissions::from_mode(like.data.mode() & 0o7777);
        file.set_permissions(mode).map_err(self.system("give the file's mode to", name))?;
        file.sync_all().map_err(self.system("write", name))
    }
}

/// Gives a file just the extended attributes of the one that was seen.
fn dress(file: &File, like: &Seen) -> io::Result<()> {
    let own = attributes(file)?;
    for (name, value) in like.attributes.iter().filter(|&wanted| !own.contains(wanted)) {
        system::set_attribute(file, name, value)?;
    }
    for (name, _) in own.iter().filter(|(name, _)| like.attributes.iter().all(|(wanted, _)| wanted != name)) {
        system::remove_attribute(file, name)?;
    }
    Ok(())
}

/// Locks the folder, for which it waits so long.
fn lock(folder: &File, path: &OsStr, wait: Duration) -> Result<(), Stop> {
    let began = Instant::now();
    loop {
        match folder.try_lock() {
            Ok(()) => return Ok(()),
            Err(TryLockError::Error(why)) => return Err(system("lock the folder of", path)(why)),
            Err(TryLockError::WouldBlock) if began.elapsed() >= wait => {
                let folder =
                    Path::new(path).parent().filter(|above| !above.as_os_str().is_empty()).unwrap_or(Path::new("."));
                return Err(Stop::System(format!(
                    "another command is at work in the folder {}; try again, or wait for it with --wait SECONDS",
                    output::name(folder)
                )));
            }
            Err(TryLockError::WouldBlock) => std::thread::sleep(Duration::from_millis(2)),
        }
    }
}
