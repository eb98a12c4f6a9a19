// The C interface as a host calls it, and the buffers lent to it. Each buffer
// lies between guard bytes, at any alignment, so that a byte changed where
// none may be changed is seen.

use crate::lists::rng::Rng;
use std::ops::Range;

mod c {
    extern "C" {
        pub fn sky_check(list: *const u8, list_len: usize) -> u64;
        pub fn sky_read(list: *const u8, list_len: usize, rows: *mut u8, rows_len: usize) -> u64;
        pub fn sky_write(rows: *const u8, rows_len: usize, list: *mut u8, list_len: usize) -> u64;
        pub fn sky_kind(number: u8) -> u8;
    }
    extern "C" {
        pub fn sky_run(list: *const u8, list_len: usize, result: *mut u8, result_len: usize)
            -> u64;
    }
}

/// A buffer with its guards, as it is now and as it was when it was lent.
pub struct Lent {
    now: Vec<u8>,
    before: Vec<u8>,
    start: usize,
    len: usize,
}

impl Lent {
    /// A buffer of `len` bytes that hold a random pattern.
    pub fn blank(len: usize, rng: &mut Rng) -> Lent {
        let start = rng.from_to(16, 31) as usize;
        let mut now = vec![0; start + len + 32];
        rng.fill(&mut now);
        let before = now.clone();
        Lent {
            now,
            before,
            start,
            len,
        }
    }

    pub fn holding(bytes: &[u8], rng: &mut Rng) -> Lent {
        let mut lent = Lent::blank(bytes.len(), rng);
        let range = lent.range();
        lent.now[range.clone()].copy_from_slice(bytes);
        lent.before[range].copy_from_slice(bytes);
        lent
    }

    fn range(&self) -> Range<usize> {
        self.start..self.start + self.len
    }

    /// Whether `written` stands at the front and every other byte, guards
    /// included, is what it was.
    pub fn holds(&self, written: &[u8]) -> bool {
        let (front, after) = (self.start, self.start + written.len());
        self.now[..front] == self.before[..front]
            && self.now[front..after] == *written
            && self.now[after..] == self.before[after..]
    }

    pub fn bytes(&self) -> &[u8] {
        &self.now[self.range()]
    }

    // The pointers are taken from the whole of `now`: a library that writes
    // into the guards is still caught, and nothing else of ours is harmed.
    fn pointer(&self) -> *const u8 {
        self.now.as_ptr().wrapping_add(self.start)
    }

    fn pointer_mut(&mut self) -> *mut u8 {
        self.now.as_mut_ptr().wrapping_add(self.start)
    }
}

pub fn check(list: &Lent) -> u64 {
    unsafe { c::sky_check(list.pointer(), list.len) }
}

pub fn read(list: &Lent, rows: &mut Lent) -> u64 {
    unsafe { c::sky_read(list.pointer(), list.len, rows.pointer_mut(), rows.len) }
}

pub fn write(rows: &Lent, list: &mut Lent) -> u64 {
    unsafe { c::sky_write(rows.pointer(), rows.len, list.pointer_mut(), list.len) }
}

/// Inlined, so that only a test that calls it needs sky_run in the archive.
#[inline]
pub fn run(list: &Lent, result: &mut Lent) -> u64 {
    unsafe { c::sky_run(list.pointer(), list.len, result.pointer_mut(), result.len) }
}

pub fn kind(number: u8) -> u8 {
    unsafe { c::sky_kind(number) }
}
