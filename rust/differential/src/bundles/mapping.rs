//! Memory that the system hands out a page at a time, for files that no machine needs to hold. All
//! `unsafe` of the comparison is here.

use std::slice;

extern "C" {
    fn mmap(at: *mut u8, length: usize, may: i32, how: i32, file: i32, offset: i64) -> *mut u8;
    fn munmap(at: *mut u8, length: usize) -> i32;
}

const READ_WRITE: i32 = 1 | 2;
const NOTHING: i32 = 0;
/// Private, of no file, and with no memory set aside for it; the numbers of x86-64 and Arm Linux.
const HOW: i32 = 0x2 | 0x20 | 0x4000;

pub struct Mapping {
    start: *mut u8,
    length: usize,
}

impl Mapping {
    fn new(length: usize, may: i32) -> Option<Self> {
        // Sound: the system chooses where, so that nothing else is there.
        let start = unsafe { mmap(std::ptr::null_mut(), length, may, HOW, -1, 0) };
        (start as isize != -1).then_some(Mapping { start, length })
    }

    /// Zeros, where only pages that are written take memory.
    pub fn zeros(length: usize) -> Option<Zeros> {
        Mapping::new(length, READ_WRITE).map(Zeros)
    }

    /// Bytes that end the program if one is read.
    pub fn forbidden(length: usize) -> Option<Forbidden> {
        Mapping::new(length, NOTHING).map(Forbidden)
    }
}

impl Drop for Mapping {
    fn drop(&mut self) {
        // Sound: no slice of it lives longer.
        unsafe { munmap(self.start, self.length) };
    }
}

pub struct Zeros(Mapping);

impl Zeros {
    pub fn bytes(&mut self) -> &mut [u8] {
        // Sound: mapped to be read and written, zero at first, and borrowed from the mapping.
        unsafe { slice::from_raw_parts_mut(self.0.start, self.0.length) }
    }
}

pub struct Forbidden(Mapping);

impl Forbidden {
    /// To be lent and nothing else: what reads them is at fault, and the system ends it.
    pub fn bytes(&self) -> &[u8] {
        // Sound as long as no byte is read: a slice by itself reads none.
        unsafe { slice::from_raw_parts(self.0.start, self.0.length) }
    }
}
