//! The reader that gives one item a call.
//!
//! By the convention of x86-64 an answer of more than 16 bytes is written to
//! memory that the caller lends, whose address comes before the other
//! arguments. Declared so, that memory can stand between guards like any other
//! that is lent. The C programs of the tests call as the header declares.

use std::mem::{align_of, size_of};

use super::at;
use crate::answers::{ItemRead, ReaderOpened, ReaderPlace};

extern "C" {
    fn tahliruz_open(
        answer: *mut ReaderOpened,
        table: *const u8,
        table_len: usize,
    ) -> *mut ReaderOpened;
    fn tahliruz_next(
        answer: *mut ItemRead,
        table: *const u8,
        table_len: usize,
        words: *const u8,
        words_len: usize,
        place: ReaderPlace,
    ) -> *mut ItemRead;
}

/// Where an answer goes: memory of its very size and alignment.
fn lent_for<T>(memory: &mut [u8]) -> *mut T {
    let answer = memory.as_mut_ptr();
    assert_eq!((memory.len(), answer as usize % align_of::<T>()), (size_of::<T>(), 0));
    answer.cast()
}

/// Opens a reader; the answer is written to `memory` too.
pub fn open(table: &[u8], memory: &mut [u8]) -> ReaderOpened {
    let answer = lent_for(memory);
    // SAFETY: the slices are live and apart, `answer` is as the call needs it,
    // and every value of its bytes is an answer.
    unsafe {
        assert_eq!(tahliruz_open(answer, at(table), table.len()), answer);
        *answer
    }
}

/// The item at a place; the answer is written to `memory` too.
pub fn next_item(table: &[u8], words: &[u8], place: ReaderPlace, memory: &mut [u8]) -> ItemRead {
    let answer = lent_for(memory);
    // SAFETY: as for opening.
    unsafe {
        let written = tahliruz_next(answer, at(table), table.len(), at(words), words.len(), place);
        assert_eq!(written, answer);
        *answer
    }
}
