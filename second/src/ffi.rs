//! The C interface of the proved library, in safe wrappers.

#[cfg(feature = "sheets")]
mod deltas;
#[cfg(feature = "sheets")]
mod fits;
#[cfg(feature = "rows")]
mod items;
#[cfg(feature = "sheets")]
mod maps;
#[cfg(feature = "sheets")]
mod sheets;
#[cfg(feature = "sheets")]
mod shelf;

use std::ptr;

use crate::answers::Answer;
#[cfg(feature = "rows")]
use crate::answers::Unpacked;
#[cfg(feature = "sheets")]
pub use deltas::*;
#[cfg(feature = "sheets")]
pub use fits::*;
#[cfg(feature = "rows")]
pub use items::*;
#[cfg(feature = "sheets")]
pub use maps::*;
#[cfg(feature = "sheets")]
pub use sheets::*;
#[cfg(feature = "sheets")]
pub use shelf::*;

extern "C" {
    fn tahliruz_check(table: *const u8, table_len: usize) -> Answer;
    fn tahliruz_plain_table(out: *mut u8, out_len: usize) -> Answer;
}

#[cfg(feature = "rows")]
extern "C" {
    fn tahliruz_pack(
        table: *const u8,
        table_len: usize,
        pixels: *const u8,
        pixels_len: usize,
        words: *mut u8,
        words_len: usize,
    ) -> Answer;
    fn tahliruz_unpack(
        table: *const u8,
        table_len: usize,
        words: *const u8,
        words_len: usize,
        n: u64,
        pixels: *mut u8,
        pixels_len: usize,
    ) -> Unpacked;
    fn tahliruz_room(table: *const u8, table_len: usize, n: u64) -> Answer;
}

/// Where a slice begins. Nothing is given as null, which C may do as well.
fn at(bytes: &[u8]) -> *const u8 {
    if bytes.is_empty() {
        ptr::null()
    } else {
        bytes.as_ptr()
    }
}

fn at_mut(bytes: &mut [u8]) -> *mut u8 {
    if bytes.is_empty() {
        ptr::null_mut()
    } else {
        bytes.as_mut_ptr()
    }
}

/// The table check; the count is the most bits that an item takes.
pub fn check(table: &[u8]) -> (u32, u32) {
    // SAFETY: the pointer and the length are those of a live slice.
    unsafe { tahliruz_check(at(table), table.len()) }.pair()
}

/// The plain table, written out; the count is its bytes.
pub fn plain_table(out: &mut [u8]) -> (u32, u32) {
    // SAFETY: as for the check.
    unsafe { tahliruz_plain_table(at_mut(out), out.len()) }.pair()
}

/// Packing; the count is the bits.
#[cfg(feature = "rows")]
pub fn pack(table: &[u8], pixels: &[u8], words: &mut [u8]) -> (u32, u32) {
    // SAFETY: pointers and lengths are those of live slices, and the one that
    // is written to overlaps no other.
    let answer = unsafe {
        tahliruz_pack(at(table), table.len(), at(pixels), pixels.len(), at_mut(words), words.len())
    };
    answer.pair()
}

/// Unpacking; the count is the bits.
#[cfg(feature = "rows")]
pub fn unpack(table: &[u8], words: &[u8], n: u64, pixels: &mut [u8]) -> Unpacked {
    // SAFETY: as for packing.
    unsafe {
        tahliruz_unpack(
            at(table),
            table.len(),
            at(words),
            words.len(),
            n,
            at_mut(pixels),
            pixels.len(),
        )
    }
}

/// The room question; the count is the words.
#[cfg(feature = "rows")]
pub fn room(table: &[u8], n: u64) -> (u32, u32) {
    // SAFETY: the pointer and the length are those of a live slice.
    unsafe { tahliruz_room(at(table), table.len(), n) }.pair()
}
