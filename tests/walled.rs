//! Bytes at the edge of what may be read: before and behind their room lies a page
//! that nobody may touch, and the room itself may only be read. The system ends a
//! program that does otherwise.

use std::ffi::c_void;
use std::{ptr, slice};

const PAGE: usize = 4_096;

/// Where bytes stand in their room: right behind the page before it, or right
/// before the page behind it.
#[derive(Clone, Copy, Debug)]
pub enum Edge {
    First,
    Last,
}

pub const EDGES: [Edge; 2] = [Edge::First, Edge::Last];

/// A room of zeros between two such pages.
pub struct Walled {
    start: *mut u8,
    length: usize,
}

impl Walled {
    /// Room for so many bytes.
    pub fn new(bytes: usize) -> Walled {
        let length = bytes.next_multiple_of(PAGE);
        // SAFETY: the system chooses a place that nothing else has.
        let pages = unsafe { mmap(ptr::null_mut(), PAGE + length + PAGE, NONE, OWN, -1, 0) };
        assert_ne!(pages as isize, -1, "pages of its own");
        let room = Walled {
            start: pages.cast::<u8>().wrapping_add(PAGE),
            length,
        };
        room.allow(0, length, READ);
        room
    }

    /// The whole room.
    pub fn bytes(&self) -> &[u8] {
        // SAFETY: the room may be read, and what writes to it borrows it alone.
        unsafe { slice::from_raw_parts(self.start, self.length) }
    }

    /// The room with these bytes in it from this place on.
    pub fn write(&mut self, place: usize, bytes: &[u8]) {
        assert!(place + bytes.len() <= self.length, "there is room");
        self.allow(place, bytes.len(), READ | WRITE);
        // SAFETY: they are within the room, which may be written to for now.
        unsafe { ptr::copy(bytes.as_ptr(), self.start.add(place), bytes.len()) };
        self.allow(place, bytes.len(), READ);
    }

    /// These bytes at an edge of the room.
    pub fn hold(&mut self, bytes: &[u8], edge: Edge) -> &[u8] {
        let place = match edge {
            Edge::First => 0,
            Edge::Last => self.length - bytes.len(),
        };
        self.write(place, bytes);
        &self.bytes()[place..place + bytes.len()]
    }

    /// Allows this on the pages with so many bytes of the room from this place on.
    fn allow(&self, place: usize, bytes: usize, access: i32) {
        let first = place / PAGE * PAGE;
        let length = (place + bytes - first).next_multiple_of(PAGE);
        // SAFETY: the pages are of the room.
        let status = unsafe { mprotect(self.start.wrapping_add(first).cast(), length, access) };
        assert_eq!(status, 0, "access to pages of its own");
    }
}

impl Drop for Walled {
    fn drop(&mut self) {
        let pages = self.start.wrapping_sub(PAGE);
        // SAFETY: they are those of `new`, and nothing borrows them any more.
        unsafe { munmap(pages.cast(), PAGE + self.length + PAGE) };
    }
}

// The system's numbers: access to pages, and pages of one's own for which nothing is put by.
const NONE: i32 = 0;
const READ: i32 = 1;
const WRITE: i32 = 2;
const OWN: i32 = 0x4022;

unsafe extern "C" {
    fn mmap(
        address: *mut c_void,
        length: usize,
        access: i32,
        sort: i32,
        file: i32,
        offset: i64,
    ) -> *mut c_void;
    fn mprotect(address: *mut c_void, length: usize, access: i32) -> i32;
    fn munmap(address: *mut c_void, length: usize) -> i32;
}
