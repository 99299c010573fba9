//! A shelf of tables.
//!
//! SAFETY, for all calls: pointers and lengths are those of live slices, and
//! those that are written to overlap no other.

use super::{at, at_mut};
use crate::answers::{Answer, Changed, Unpacked};

extern "C" {
    fn tahliruz_shelf_open(
        table0: *const u8,
        table0_len: usize,
        table1: *const u8,
        table1_len: usize,
        table2: *const u8,
        table2_len: usize,
        table3: *const u8,
        table3_len: usize,
        shelf: *mut u8,
        shelf_len: usize,
    ) -> Answer;
    fn tahliruz_shelf_put(
        shelf: *mut u8,
        shelf_len: usize,
        party: u32,
        table: *const u8,
        table_len: usize,
    ) -> Changed;
    fn tahliruz_shelf_remove(shelf: *mut u8, shelf_len: usize, party: u32, place: u32) -> Changed;
    fn tahliruz_shelf_pack(
        shelf: *const u8,
        shelf_len: usize,
        party: u32,
        place: u32,
        pixels: *const u8,
        pixels_len: usize,
        words: *mut u8,
        words_len: usize,
    ) -> Answer;
    fn tahliruz_shelf_unpack(
        shelf: *const u8,
        shelf_len: usize,
        party: u32,
        place: u32,
        words: *const u8,
        words_len: usize,
        n: u64,
        pixels: *mut u8,
        pixels_len: usize,
    ) -> Unpacked;
    fn tahliruz_shelf_room(
        shelf: *const u8,
        shelf_len: usize,
        party: u32,
        place: u32,
        n: u64,
    ) -> Answer;
}

/// The count is the shelf's bytes.
pub fn shelf_open(tables: [&[u8]; 4], shelf: &mut [u8]) -> Answer {
    let [table0, table1, table2, table3] = tables;
    unsafe {
        tahliruz_shelf_open(
            at(table0),
            table0.len(),
            at(table1),
            table1.len(),
            at(table2),
            table2.len(),
            at(table3),
            table3.len(),
            at_mut(shelf),
            shelf.len(),
        )
    }
}

pub fn shelf_put(shelf: &mut [u8], party: u32, table: &[u8]) -> Changed {
    unsafe { tahliruz_shelf_put(at_mut(shelf), shelf.len(), party, at(table), table.len()) }
}

pub fn shelf_remove(shelf: &mut [u8], party: u32, place: u32) -> Changed {
    unsafe { tahliruz_shelf_remove(at_mut(shelf), shelf.len(), party, place) }
}

/// Packing under the table of a place; the count is the bits.
pub fn shelf_pack(shelf: &[u8], party: u32, place: u32, pixels: &[u8], words: &mut [u8]) -> Answer {
    unsafe {
        tahliruz_shelf_pack(
            at(shelf),
            shelf.len(),
            party,
            place,
            at(pixels),
            pixels.len(),
            at_mut(words),
            words.len(),
        )
    }
}

/// Unpacking under it; the count is the bits.
pub fn shelf_unpack(
    shelf: &[u8],
    party: u32,
    place: u32,
    words: &[u8],
    n: u64,
    pixels: &mut [u8],
) -> Unpacked {
    unsafe {
        tahliruz_shelf_unpack(
            at(shelf),
            shelf.len(),
            party,
            place,
            at(words),
            words.len(),
            n,
            at_mut(pixels),
            pixels.len(),
        )
    }
}

/// The room question under it; the count is the words.
pub fn shelf_room(shelf: &[u8], party: u32, place: u32, n: u64) -> Answer {
    unsafe { tahliruz_shelf_room(at(shelf), shelf.len(), party, place, n) }
}
