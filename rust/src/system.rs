//! Calls of Linux that the standard library does not have: two names exchanged, the right to write, extended attributes, the
//! user. None of them has to do with design files; they stand here so that a program over these bindings needs no unsafe code.

use std::ffi::{c_char, c_int, c_uint, c_void, CStr, CString, OsStr, OsString};
use std::fs::File;
use std::io;
use std::os::fd::AsRawFd;
use std::os::unix::ffi::{OsStrExt, OsStringExt};
use std::path::Path;

/// A folder that a name is seen from: the process's own.
const CURRENT: c_int = -100;

/// The flag of renameat2 that exchanges the two names.
const EXCHANGE: c_uint = 2;

/// The numbers of errors that are told apart here.
const NO_SUCH_CALL: i32 = 38;
const NO_SUCH_FLAG: i32 = 22;
const NOT_SUPPORTED: i32 = 95;
const TOO_SHORT: i32 = 34;

/// An entry of the list of users, as the C library has it.
#[repr(C)]
struct Entry {
    name: *const c_char,
    password: *const c_char,
    user: c_uint,
    group: c_uint,
    about: *const c_char,
    home: *const c_char,
    shell: *const c_char,
}

extern "C" {
    fn renameat2(from: c_int, a: *const c_char, to: c_int, b: *const c_char, flags: c_uint) -> c_int;
    fn flistxattr(file: c_int, names: *mut c_char, size: usize) -> isize;
    fn fgetxattr(file: c_int, name: *const c_char, value: *mut c_void, size: usize) -> isize;
    fn fsetxattr(file: c_int, name: *const c_char, value: *const c_void, size: usize, flags: c_int) -> c_int;
    fn fremovexattr(file: c_int, name: *const c_char) -> c_int;
    fn access(path: *const c_char, mode: c_int) -> c_int;
    fn getuid() -> c_uint;
    fn getpwuid_r(user: c_uint, entry: *mut Entry, room: *mut c_char, size: usize, found: *mut *mut Entry) -> c_int;
}

/// The rights to write and to enter, which a new name in a folder needs.
const WRITE_AND_ENTER: c_int = 2 + 1;

fn text(of: &OsStr) -> io::Result<CString> {
    CString::new(of.as_bytes()).map_err(|_| io::ErrorKind::InvalidInput.into())
}

/// What a call that answers 0 or -1 did.
fn made(answer: c_int) -> io::Result<()> {
    match answer {
        0 => Ok(()),
        _ => Err(io::Error::last_os_error()),
    }
}

/// Whether this user may make and remove names in a folder; else why not.
pub fn may_write(folder: &Path) -> io::Result<()> {
    let folder = text(folder.as_os_str())?;
    // SAFETY: the text ends with a zero, and the call only reads it
    made(unsafe { access(folder.as_ptr(), WRITE_AND_ENTER) })
}

/// Exchanges two names: what was called `a` is then called `b`, and what was `b` is `a`. Both have to be there. At no
/// moment is one of them missing.
pub fn exchange(a: &Path, b: &Path) -> io::Result<()> {
    let (a, b) = (text(a.as_os_str())?, text(b.as_os_str())?);
    made(unsafe { renameat2(CURRENT, a.as_ptr(), CURRENT, b.as_ptr(), EXCHANGE) })
}

/// Whether an error of [`exchange`] says that this system or this file system cannot exchange names at all.
pub fn cannot_exchange(error: &io::Error) -> bool {
    matches!(error.raw_os_error(), Some(NO_SUCH_CALL | NO_SUCH_FLAG | NOT_SUPPORTED))
}

/// Asks for bytes of a length that is not known: the call is first made with no room, then with so much as it says.
fn grown(call: impl Fn(*mut u8, usize) -> isize) -> io::Result<Vec<u8>> {
    loop {
        let wanted = usize::try_from(call(std::ptr::null_mut(), 0)).map_err(|_| io::Error::last_os_error())?;
        let mut bytes = vec![0; wanted];
        if wanted == 0 {
            return Ok(bytes);
        }
        match usize::try_from(call(bytes.as_mut_ptr(), wanted)) {
            Ok(written) => {
                bytes.truncate(written);
                return Ok(bytes);
            }
            Err(_) => {
                let error = io::Error::last_os_error();
                if error.raw_os_error() != Some(TOO_SHORT) {
                    return Err(error);
                }
            }
        }
    }
}

/// The names of the extended attributes of an open file, among them its access list; none where the file system has no
/// attributes.
pub fn attributes(file: &File) -> io::Result<Vec<OsString>> {
    let answer = grown(|names, size| unsafe { flistxattr(file.as_raw_fd(), names.cast(), size) });
    match answer {
        Err(error) if error.raw_os_error() == Some(NOT_SUPPORTED) => Ok(Vec::new()),
        answer => {
            let names = answer?;
            let parts = names.split(|&byte| byte == 0).filter(|name| !name.is_empty());
            Ok(parts.map(|name| OsString::from_vec(name.to_vec())).collect())
        }
    }
}

/// The value of an extended attribute of an open file.
pub fn attribute(file: &File, name: &OsStr) -> io::Result<Vec<u8>> {
    let name = text(name)?;
    grown(|value, size| unsafe { fgetxattr(file.as_raw_fd(), name.as_ptr(), value.cast(), size) })
}

/// Gives an open file an extended attribute, in place of the one with that name.
pub fn set_attribute(file: &File, name: &OsStr, value: &[u8]) -> io::Result<()> {
    let name = text(name)?;
    made(unsafe { fsetxattr(file.as_raw_fd(), name.as_ptr(), value.as_ptr().cast(), value.len(), 0) })
}

/// Takes an extended attribute from an open file.
pub fn remove_attribute(file: &File, name: &OsStr) -> io::Result<()> {
    let name = text(name)?;
    made(unsafe { fremovexattr(file.as_raw_fd(), name.as_ptr()) })
}

/// The number of the user who runs this process.
pub fn user() -> u32 {
    unsafe { getuid() }
}

/// The name of a user; none where the system knows none.
pub fn user_name(user: u32) -> Option<OsString> {
    let mut room = vec![0u8; 1024];
    loop {
        let (mut entry, mut found) = (std::mem::MaybeUninit::<Entry>::uninit(), std::ptr::null_mut());
        let (at, size) = (room.as_mut_ptr().cast(), room.len());
        let error = unsafe { getpwuid_r(user, entry.as_mut_ptr(), at, size, &mut found) };
        if error == TOO_SHORT && size < 1 << 20 {
            room.resize(2 * size, 0);
            continue;
        }
        if error != 0 || found.is_null() {
            return None;
        }
        // the entry was filled, and its texts stand in `room`
        let name = unsafe { CStr::from_ptr((*found).name) };
        return Some(OsStr::from_bytes(name.to_bytes()).to_os_string());
    }
}
