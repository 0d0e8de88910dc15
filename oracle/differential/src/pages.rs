//! Memory by pages: what is asked of the operating system.

use std::ffi::c_void;

unsafe extern "C" {
    pub fn mmap(
        address: *mut c_void,
        length: usize,
        protection: i32,
        flags: i32,
        file: i32,
        offset: i64,
    ) -> *mut c_void;
    pub fn mprotect(address: *mut c_void, length: usize, protection: i32) -> i32;
    pub fn munmap(address: *mut c_void, length: usize) -> i32;
    pub fn sysconf(name: i32) -> isize;
}

pub const PROT_NONE: i32 = 0;
pub const PROT_READ_WRITE: i32 = 1 | 2;
pub const MAP_PRIVATE_ANONYMOUS: i32 = 0x02 | 0x20;
pub const SC_PAGESIZE: i32 = 30;
