//! Memory that ends at a page which may not be touched: a read or write past the end of a lent buffer
//! ends the program.

use crate::pages::{MAP_PRIVATE_ANONYMOUS, PROT_NONE, PROT_READ_WRITE, SC_PAGESIZE};
use crate::pages::{mmap, mprotect, munmap, sysconf};
use std::slice;

/// So many bytes before a lent buffer are watched.
const WATCHED: usize = 64;
const WATCH: u8 = 0xC3;

pub struct Guarded {
    memory: *mut u8,
    /// The bytes before the page that may not be touched.
    bytes: usize,
    page: usize,
}

impl Guarded {
    pub fn new(bytes: usize) -> Guarded {
        // SAFETY: sysconf reads a constant of the system.
        let page = usize::try_from(unsafe { sysconf(SC_PAGESIZE) }).expect("a page size");
        let bytes = (bytes + WATCHED).next_multiple_of(page);
        // SAFETY: a new private mapping, whose last page is then protected.
        let memory = unsafe {
            let memory = mmap(
                std::ptr::null_mut(),
                bytes + page,
                PROT_READ_WRITE,
                MAP_PRIVATE_ANONYMOUS,
                -1,
                0,
            );
            assert!(memory as isize != -1, "no memory");
            assert_eq!(mprotect(memory.add(bytes), page, PROT_NONE), 0);
            memory.cast()
        };
        Guarded {
            memory,
            bytes,
            page,
        }
    }

    /// The last bytes before the guard, with the watched ones before them set.
    pub fn lend(&mut self, length: usize) -> &mut [u8] {
        let begin = self.begin(length);
        // SAFETY: `begin` leaves room for both slices, and `&mut self` lends the memory once.
        unsafe {
            slice::from_raw_parts_mut(self.memory.add(begin - WATCHED), WATCHED).fill(WATCH);
            slice::from_raw_parts_mut(self.memory.add(begin), length)
        }
    }

    /// Whether the bytes before the last lent ones are as they were.
    pub fn untouched_before(&self, length: usize) -> bool {
        let begin = self.begin(length);
        // SAFETY: as in `lend`.
        let before = unsafe { slice::from_raw_parts(self.memory.add(begin - WATCHED), WATCHED) };
        before.iter().all(|&byte| byte == WATCH)
    }

    fn begin(&self, length: usize) -> usize {
        assert!(length + WATCHED <= self.bytes);
        self.bytes - length
    }
}

impl Drop for Guarded {
    fn drop(&mut self) {
        // SAFETY: the mapping made by `new`.
        unsafe {
            munmap(self.memory.cast(), self.bytes + self.page);
        }
    }
}
