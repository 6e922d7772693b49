//! Memory between two pages that must not be touched: a step past the end of an area ends the program.

use std::ffi::{c_int, c_void};
use std::{ptr, slice};

/// Above every page size in use, and above every area of a call.
const PAGE: usize = 1 << 18;

const NONE: c_int = 0;
const READ: c_int = 1;
const WRITE: c_int = 2;
const PRIVATE: c_int = 2;
const ANONYMOUS: c_int = 0x20;

extern "C" {
    fn mmap(
        at: *mut c_void,
        len: usize,
        prot: c_int,
        flags: c_int,
        file: c_int,
        offset: i64,
    ) -> *mut c_void;
    fn mprotect(at: *mut c_void, len: usize, prot: c_int) -> c_int;
}

/// Which end of an area lies against a forbidden page.
#[derive(Debug, Clone, Copy, PartialEq)]
pub enum Edge {
    /// Its first octet is the first after one.
    First,
    /// Its last octet is the last before one.
    Last,
}

/// One page between two forbidden ones, and the area that was placed there.
pub struct Arena {
    page: *mut u8,
    area: *mut u8,
    len: usize,
}

fn protect(page: *mut u8, prot: c_int) {
    // SAFETY: the page is one of an arena's own.
    let status = unsafe { mprotect(page.cast(), PAGE, prot) };
    assert_eq!(status, 0, "mprotect");
}

impl Arena {
    pub fn new() -> Self {
        // SAFETY: asks for fresh memory, four pages of which at least three lie at a multiple of PAGE.
        let fresh = unsafe { mmap(ptr::null_mut(), 4 * PAGE, NONE, PRIVATE | ANONYMOUS, -1, 0) };
        assert_ne!(fresh as isize, -1, "mmap");
        let fresh: *mut u8 = fresh.cast();
        let page = fresh.wrapping_add(fresh.align_offset(PAGE) + PAGE);
        protect(page, READ | WRITE);
        Arena {
            page,
            area: page,
            len: 0,
        }
    }

    /// Copies the octets to one end of the page.
    pub fn place(&mut self, octets: &[u8], edge: Edge) {
        assert!(octets.len() <= PAGE);
        protect(self.page, READ | WRITE);
        self.len = octets.len();
        self.area = match edge {
            Edge::First => self.page,
            Edge::Last => self.page.wrapping_add(PAGE - self.len),
        };
        // SAFETY: the area lies in the page, which can be written.
        unsafe { ptr::copy_nonoverlapping(octets.as_ptr(), self.area, self.len) };
    }

    /// What is lent for reading must not be written, not even with what stands there.
    pub fn forbid_writing(&mut self) {
        protect(self.page, READ);
    }

    /// The octets placed last. A slice that may be written in Rust's eyes, also where the page forbids it: only what a call
    /// writes is ever written.
    pub fn area(&mut self) -> &mut [u8] {
        // SAFETY: the area lies in the page and nothing else refers to it while `self` is borrowed.
        unsafe { slice::from_raw_parts_mut(self.area, self.len) }
    }

    /// The octets placed last as numbers, which may be written as those of [`Arena::area`] may.
    pub fn numbers(&mut self) -> &mut [u64] {
        // SAFETY: as above; both ends of the page are multiples of 8, and so is the length of what was placed.
        unsafe { slice::from_raw_parts_mut(self.area.cast(), self.len / 8) }
    }

    /// The octets placed last as numbers of 16 bits.
    pub fn lengths(&self) -> &[u16] {
        // SAFETY: as above, with 2 for 8.
        unsafe { slice::from_raw_parts(self.area.cast(), self.len / 2) }
    }
}
