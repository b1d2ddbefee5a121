//! Memory between two pages that nobody may touch, for the buffers that a call is lent. For Linux on
//! x86-64.

use std::ffi::c_void;
use std::io;
use std::ops::Range;
use std::ptr;
use std::slice;

use frontier::lent::PointRecord;

extern "C" {
    fn mmap(
        at: *mut c_void,
        length: usize,
        access: i32,
        kind: i32,
        file: i32,
        from: i64,
    ) -> *mut c_void;
    fn mprotect(at: *mut c_void, length: usize, access: i32) -> i32;
    fn munmap(at: *mut c_void, length: usize) -> i32;
}

/// `PROT_NONE`, and `PROT_READ` with `PROT_WRITE`, of C.
const NO_ACCESS: i32 = 0;
const READ_WRITE: i32 = 1 | 2;

/// `MAP_PRIVATE` with `MAP_ANONYMOUS` of C.
const OWN_MEMORY: i32 = 0x02 | 0x20;

/// The bytes of a page.
const PAGE: usize = 4_096;

/// What the bytes hold that belong to no buffer.
const REST: u8 = 0x5c;

/// Which of the two closed pages a buffer touches. What is beside its other end is compared.
#[derive(Clone, Copy, Debug, PartialEq, Eq)]
pub enum End {
    Upper,
    Lower,
}

/// A type without padding, every content of which is valid, and whose size is a multiple of its
/// alignment, so that it can stand at either end of a page.
///
/// # Safety
/// The type must be so.
pub unsafe trait Plain: Copy + PartialEq {}

// SAFETY: numbers have no padding and all contents.
unsafe impl Plain for u8 {}
// SAFETY: as above.
unsafe impl Plain for u32 {}
// SAFETY: as above.
unsafe impl Plain for u64 {}
// SAFETY: 16 bytes of numbers and 24 bytes, with C's layout, so without padding.
unsafe impl Plain for PointRecord {}

/// Memory between two closed pages, in which one buffer at a time stands at one of its ends.
pub struct Pages {
    /// The first byte behind the lower closed page.
    start: *mut u8,
    length: usize,
    /// The bytes of the buffer that stands there.
    lent: Range<usize>,
    /// As many bytes as there are, all of them `REST`, to compare with.
    rest: Vec<u8>,
}

impl Pages {
    /// Memory for buffers of at most so many bytes.
    pub fn new(most: usize) -> io::Result<Pages> {
        let length = most.max(1).div_ceil(PAGE) * PAGE;
        // SAFETY: a new mapping of its own, anywhere.
        let whole = unsafe {
            mmap(
                ptr::null_mut(),
                length + 2 * PAGE,
                NO_ACCESS,
                OWN_MEMORY,
                -1,
                0,
            )
        };
        if whole as isize == -1 {
            return Err(io::Error::last_os_error());
        }
        let start = whole.cast::<u8>().wrapping_add(PAGE);
        let mut pages = Pages {
            start,
            length,
            lent: 0..0,
            rest: vec![REST; length],
        };
        // SAFETY: these bytes are the mapping's, without its first and last page.
        if unsafe { mprotect(start.cast(), length, READ_WRITE) } != 0 {
            return Err(io::Error::last_os_error());
        }
        pages.bytes_mut().fill(REST);
        Ok(pages)
    }

    /// All bytes between the closed pages.
    fn bytes(&self) -> &[u8] {
        // SAFETY: the mapping lives as long as `self`, which is borrowed; its bytes have contents.
        unsafe { slice::from_raw_parts(self.start, self.length) }
    }

    /// All bytes between the closed pages, to be written.
    fn bytes_mut(&mut self) -> &mut [u8] {
        // SAFETY: as in `bytes`, and borrowed by nobody else.
        unsafe { slice::from_raw_parts_mut(self.start, self.length) }
    }

    /// Puts a buffer with these contents at an end, and lends it.
    pub fn lend<T: Plain>(&mut self, contents: &[T], end: End) -> &mut [T] {
        let size = size_of_val(contents);
        assert!(size <= self.length, "a buffer of {size} bytes is too long");
        let before = self.lent.clone();
        self.bytes_mut()[before].fill(REST);
        let first = match end {
            End::Upper => self.length - size,
            End::Lower => 0,
        };
        self.lent = first..first + size;
        let buffer = self.buffer(contents.len());
        buffer.copy_from_slice(contents);
        buffer
    }

    /// The buffer that stands there, with so many elements.
    fn buffer<T: Plain>(&mut self, elements: usize) -> &mut [T] {
        assert_eq!(self.lent.len(), elements * size_of::<T>());
        let first = self.start.wrapping_add(self.lent.start);
        // SAFETY: the bytes are the mapping's and have contents, all of which `T` allows. The
        // address is aligned, since both ends of the pages are and sizes are multiples of it.
        unsafe { slice::from_raw_parts_mut(first.cast(), elements) }
    }

    /// Takes back what the buffer holds; an error if a byte beside it has changed.
    pub fn take_back<T: Plain>(&mut self, contents: &mut [T]) -> Result<(), String> {
        contents.copy_from_slice(self.buffer(contents.len()));
        self.check_rest()
    }

    /// Asks that the buffer still holds what it was lent with, and the bytes beside it too.
    pub fn check_unchanged<T: Plain>(&mut self, contents: &[T]) -> Result<(), String> {
        if self.buffer::<T>(contents.len()) != contents {
            return Err("was changed, though it was lent to be read".into());
        }
        self.check_rest()
    }

    fn check_rest(&self) -> Result<(), String> {
        let [before, behind] = [0..self.lent.start, self.lent.end..self.length];
        let is_rest = |part: Range<usize>| self.bytes()[part.clone()] == self.rest[part];
        if is_rest(before) && is_rest(behind) {
            return Ok(());
        }
        Err("has a changed byte beside it".into())
    }
}

impl Drop for Pages {
    fn drop(&mut self) {
        let whole = self.start.wrapping_sub(PAGE);
        // SAFETY: the whole mapping, as it was made; nothing borrows it any more.
        unsafe { munmap(whole.cast(), self.length + 2 * PAGE) };
    }
}
