//! Memory that ends, or begins, right at a page that nobody may touch: a byte
//! too far ends the process.

use std::ffi::c_void;
use std::marker::PhantomData;

const PAGE: usize = 4096;

const PROT_NONE: i32 = 0;
const PROT_READ_WRITE: i32 = 3;
const MAP_PRIVATE_ANONYMOUS: i32 = 0x22;

extern "C" {
    fn mmap(at: *mut c_void, length: usize, prot: i32, flags: i32, fd: i32, offset: i64)
        -> *mut c_void;
    fn mprotect(at: *mut c_void, length: usize, prot: i32) -> i32;
    fn munmap(at: *mut c_void, length: usize) -> i32;
}

/// Room for cells between two guard pages.
pub struct Pages<T> {
    base: *mut u8,
    /// Bytes between the guard pages.
    inner: usize,
    cells: PhantomData<T>,
}

impl<T: Copy> Pages<T> {
    /// Room for at least so many cells.
    pub fn new(most: usize) -> Pages<T> {
        let inner = (most * size_of::<T>()).div_ceil(PAGE).max(1) * PAGE;
        // SAFETY: a new private mapping, of which the inner pages are made writable.
        let base = unsafe {
            let length = inner + 2 * PAGE;
            let base = mmap(std::ptr::null_mut(), length, PROT_NONE, MAP_PRIVATE_ANONYMOUS, -1, 0);
            assert_ne!(base as isize, -1, "no memory");
            let base = base.cast::<u8>();
            let status = mprotect(base.add(PAGE).cast(), inner, PROT_READ_WRITE);
            assert_eq!(status, 0, "no memory");
            base
        };
        Pages {
            base,
            inner,
            cells: PhantomData,
        }
    }

    /// So many cells: the last ones before the upper guard page, or the first
    /// ones after the lower.
    pub fn lend(&mut self, length: usize, at_end: bool) -> &mut [T] {
        let bytes = length * size_of::<T>();
        assert!(bytes <= self.inner);
        let offset = if at_end { self.inner - bytes } else { 0 };
        // SAFETY: inside the mapping, aligned since pages and cells are, and all
        // bits are a value of the types of cells in use.
        unsafe {
            let first = self.base.add(PAGE + offset).cast::<T>();
            std::slice::from_raw_parts_mut(first, length)
        }
    }
}

impl<T> Drop for Pages<T> {
    fn drop(&mut self) {
        // SAFETY: the mapping that `new` made.
        unsafe { munmap(self.base.cast(), self.inner + 2 * PAGE) };
    }
}
