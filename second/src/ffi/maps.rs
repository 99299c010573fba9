//! Pressure mat maps.
//!
//! SAFETY, for both calls: pointers and lengths are those of live slices, and
//! the one that is written to overlaps no other.

use super::{at, at_mut};
use crate::answers::Answer;

extern "C" {
    fn tahliruz_read_map(
        group: u32,
        bytes: *const u8,
        bytes_len: usize,
        total: u64,
        counts: *mut u8,
        counts_len: usize,
    ) -> Answer;
    fn tahliruz_write_map(
        group: u32,
        counts: *const u8,
        counts_len: usize,
        out: *mut u8,
        out_len: usize,
    ) -> Answer;
}

/// The map at the front of `bytes`; the count is the bits.
pub fn read_map(group: u32, bytes: &[u8], total: u64, counts: &mut [u8]) -> Answer {
    unsafe { tahliruz_read_map(group, at(bytes), bytes.len(), total, at_mut(counts), counts.len()) }
}

/// The map of these counts; the count is its bytes.
pub fn write_map(group: u32, counts: &[u8], out: &mut [u8]) -> Answer {
    unsafe { tahliruz_write_map(group, at(counts), counts.len(), at_mut(out), out.len()) }
}
