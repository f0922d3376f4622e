//! Memory between two pages that may not be touched. What is lent from it ends where the second page begins, or begins
//! where the first one ends, so that a byte read or written outside of it ends the run.

use std::cell::Cell;
use std::ffi::c_void;

extern "C" {
    fn mmap(at: *mut c_void, len: usize, protection: i32, flags: i32, file: i32, offset: i64) -> *mut c_void;
    fn mprotect(at: *mut c_void, len: usize, protection: i32) -> i32;
    fn munmap(at: *mut c_void, len: usize) -> i32;
}

// of Linux on x86-64, for which the archive is made
const PAGE: usize = 4096;
const NO_ACCESS: i32 = 0;
const READ: i32 = 1;
const READ_WRITE: i32 = 3;
const PRIVATE_ANONYMOUS: i32 = 0x22;

/// Which of the two pages is next to what is lent.
#[derive(Clone, Copy, PartialEq, Debug)]
pub enum Side {
    Before,
    Behind,
}

pub struct Guard {
    /// The first byte behind the first page.
    first: *mut u8,
    room: usize,
    /// The pages of what was lent last: where they begin, counted from the first byte, and their bytes.
    pages: Cell<(usize, usize)>,
}

impl Guard {
    /// Room for so many bytes.
    pub fn new(most: usize) -> Guard {
        let room = most.div_ceil(PAGE).max(1) * PAGE;
        unsafe {
            let base = mmap(std::ptr::null_mut(), room + 2 * PAGE, NO_ACCESS, PRIVATE_ANONYMOUS, -1, 0) as *mut u8;
            assert!(base as isize != -1, "mmap");
            let guard = Guard { first: base.add(PAGE), room, pages: Cell::new((0, room)) };
            guard.allow(READ_WRITE);
            guard
        }
    }

    fn allow(&self, protection: i32) {
        let (from, bytes) = self.pages.get();
        assert_eq!(unsafe { mprotect(self.first.add(from) as *mut c_void, bytes, protection) }, 0, "mprotect");
    }

    /// From now on a store to what was lent ends the run too.
    pub fn read_only(&self) {
        self.allow(READ);
    }

    pub fn writable(&self) {
        self.allow(READ_WRITE);
    }

    /// A copy of the values next to a page.
    pub fn lend<T: Copy>(&self, values: &[T], side: Side) -> *mut T {
        let bytes = std::mem::size_of_val(values);
        assert!(bytes <= self.room, "{bytes} bytes do not fit");
        let pages = bytes.next_multiple_of(PAGE);
        unsafe {
            let at = match side {
                Side::Before => {
                    self.pages.set((0, pages));
                    self.first
                }
                Side::Behind => {
                    self.pages.set((self.room - pages, pages));
                    self.first.add(self.room - bytes)
                }
            } as *mut T;
            std::ptr::copy_nonoverlapping(values.as_ptr(), at, values.len());
            at
        }
    }
}

impl Drop for Guard {
    fn drop(&mut self) {
        unsafe { munmap(self.first.sub(PAGE) as *mut c_void, self.room + 2 * PAGE) };
    }
}
