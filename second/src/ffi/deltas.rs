//! Rows of DELTA arrays.

use super::{at, at_mut};
use crate::answers::LongAnswer;
use crate::delta::{Arrays, First};

extern "C" {
    fn tahliruz_delta_row(
        n: u64,
        data_bits: u32,
        data: *const u8,
        data_len: usize,
        value_bits: u32,
        value: *const u8,
        value_len: usize,
        repeat: *const u8,
        repeat_len: usize,
        first: First,
        row: *mut u8,
        row_len: usize,
        marks: *mut u8,
        marks_len: usize,
    ) -> LongAnswer;
}

/// A row of n elements; the count is n.
pub fn delta_row(n: u64, arrays: &Arrays, row: &mut [u8], marks: &mut [u8]) -> LongAnswer {
    let Arrays { data_bits, data, value_bits, value, repeat, first } = *arrays;
    // SAFETY: pointers and lengths are those of live slices, and those that are
    // written to overlap no other.
    unsafe {
        tahliruz_delta_row(
            n,
            data_bits,
            at(data),
            data.len(),
            value_bits,
            at(value),
            value.len(),
            at(repeat),
            repeat.len(),
            first,
            at_mut(row),
            row.len(),
            at_mut(marks),
            marks.len(),
        )
    }
}
