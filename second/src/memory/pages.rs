//! Memory that ends or begins at a page that nothing may touch: the processor
//! itself stops an access past it, by whatever code.

use std::cell::RefCell;
use std::ffi::{c_int, c_void};
use std::ops::Range;
use std::{ptr, slice};

extern "C" {
    fn mmap(
        at: *mut c_void,
        length: usize,
        may: c_int,
        how: c_int,
        file: c_int,
        from: i64,
    ) -> *mut c_void;
    fn mprotect(at: *mut c_void, length: usize, may: c_int) -> c_int;
}

/// The numbers that Linux has for these on x86-64, and its pages.
const NOTHING: c_int = 0;
const READ: c_int = 1;
const READ_AND_WRITE: c_int = 3;
const PRIVATE_ANONYMOUS: c_int = 0x22;
const PAGE: usize = 4096;

/// Whole pages to read and write, an inaccessible page before and after them.
struct Pages {
    start: *mut u8,
    length: usize,
}

thread_local! {
    /// Pages that were used before. Mapping new ones each time would cost more
    /// than the calls that they are for.
    static SPARE: RefCell<Vec<Pages>> = const { RefCell::new(Vec::new()) };
}

impl Pages {
    fn for_bytes(bytes: usize) -> Pages {
        let length = bytes.next_multiple_of(PAGE).max(PAGE);
        let spare = SPARE.with_borrow_mut(|spare| {
            let fitting = spare.iter().position(|pages| pages.length == length)?;
            Some(spare.swap_remove(fitting))
        });
        spare.unwrap_or_else(|| Pages::map(length))
    }

    fn map(length: usize) -> Pages {
        // SAFETY: new memory, at an address of the system's choice.
        let whole =
            unsafe { mmap(ptr::null_mut(), length + 2 * PAGE, NOTHING, PRIVATE_ANONYMOUS, -1, 0) };
        assert_ne!(whole as isize, -1, "the system gives no more memory");
        let pages = Pages { start: whole.cast::<u8>().wrapping_add(PAGE), length };
        pages.allow(READ_AND_WRITE);
        pages
    }

    fn allow(&self, may: c_int) {
        // SAFETY: the pages are this value's own, and are written to only while
        // that is allowed.
        let answer = unsafe { mprotect(self.start.cast(), self.length, may) };
        assert_eq!(answer, 0, "the system does not protect memory");
    }
}

/// Which end of the bytes touches the inaccessible page.
#[derive(Clone, Copy, PartialEq, Eq, Debug)]
pub enum Edge {
    Start,
    End,
}

/// Bytes at one edge of their pages.
pub struct Block {
    pages: Option<Pages>,
    used: Range<usize>,
    edge: Edge,
    read_only: bool,
}

impl Block {
    pub fn new(bytes: &[u8], edge: Edge) -> Block {
        let pages = Pages::for_bytes(bytes.len());
        let used = match edge {
            Edge::Start => 0..bytes.len(),
            Edge::End => pages.length - bytes.len()..pages.length,
        };
        let mut block = Block { pages: Some(pages), used, edge, read_only: false };
        block.bytes_mut().copy_from_slice(bytes);
        block
    }

    /// The same, and writing to them is stopped as well.
    pub fn read_only(bytes: &[u8], edge: Edge) -> Block {
        let mut block = Block::new(bytes, edge);
        block.pages().allow(READ);
        block.read_only = true;
        block
    }

    pub fn edge(&self) -> Edge {
        self.edge
    }

    fn pages(&self) -> &Pages {
        self.pages.as_ref().expect("held until the block is dropped")
    }

    pub fn bytes(&self) -> &[u8] {
        // SAFETY: within the pages, which are this block's alone.
        unsafe { slice::from_raw_parts(self.pages().start.add(self.used.start), self.used.len()) }
    }

    pub fn bytes_mut(&mut self) -> &mut [u8] {
        assert!(!self.read_only);
        let (start, length) = (self.used.start, self.used.len());
        // SAFETY: as above, and writing is allowed.
        unsafe { slice::from_raw_parts_mut(self.pages().start.add(start), length) }
    }
}

impl Drop for Block {
    fn drop(&mut self) {
        if let Some(pages) = self.pages.take() {
            if self.read_only {
                pages.allow(READ_AND_WRITE);
            }
            SPARE.with_borrow_mut(|spare| spare.push(pages));
        }
    }
}

#[cfg(test)]
mod tests;
