//! Rows of DELTA arrays: document 004, section 3.1, and document 02, ticket 7.
//! DATA has differences and flags, VALUE the values that are given in full,
//! REPEAT counts. The reader has the form that it has for C.

mod reader;
mod writer;

#[cfg(test)]
mod tests;

use crate::answers::LongAnswer;
use crate::refusal::{DONE, ROOM};
use reader::reader;
pub use reader::Row;
pub use writer::{number_bytes, write, Written};

/// The bits that an element of DATA or of VALUE may have.
pub const WIDTHS: [u32; 3] = [8, 16, 32];

/// Where a row begins in each array, counted in its elements.
#[repr(C)]
#[derive(Clone, Copy, PartialEq, Eq, Debug, Default)]
pub struct First {
    pub data: u64,
    pub value: u64,
    pub repeat: u64,
}

/// The three arrays, little-endian, and the beginning of a row.
#[derive(Clone, Copy)]
pub struct Arrays<'a> {
    pub data_bits: u32,
    pub data: &'a [u8],
    pub value_bits: u32,
    pub value: &'a [u8],
    pub repeat: &'a [u8],
    pub first: First,
}

/// What the five largest elements of DATA say, from the largest on.
#[derive(Clone, Copy, PartialEq, Eq, Debug)]
pub enum Flag {
    /// A value in full.
    Full,
    /// A count of elements that are all one value.
    Alike,
    /// A count of bad elements, and the good one after them.
    BadRun,
    /// One bad element, and the good one after it.
    OneBad,
    /// A count of values in full.
    Fulls,
}

pub const FLAGS: [Flag; 5] = [Flag::Full, Flag::Alike, Flag::BadRun, Flag::OneBad, Flag::Fulls];

impl Flag {
    /// The flag that an element is, where MAX is the largest one.
    pub fn of(element: i32, max: i32) -> Option<Flag> {
        let below = usize::try_from(i64::from(max) - i64::from(element)).ok()?;
        FLAGS.get(below).copied()
    }

    /// The element that is this flag.
    pub fn element(self, max: i32) -> i32 {
        max - self as i32
    }

    pub fn has_count(self) -> bool {
        matches!(self, Flag::Alike | Flag::BadRun | Flag::Fulls)
    }

    pub fn is_bad(self) -> bool {
        matches!(self, Flag::BadRun | Flag::OneBad)
    }
}

/// The largest number of so many bits.
pub fn largest(bits: u32) -> i32 {
    i32::MAX >> (32 - bits)
}

/// The least one.
pub fn least(bits: u32) -> i32 {
    i32::MIN >> (32 - bits)
}

/// Reads a row of n elements; the count is n.
pub fn read(n: u64, arrays: &Arrays, row: &mut [u8], marks: &mut [u8]) -> LongAnswer {
    match try_read(n, arrays, row, marks) {
        Ok(()) => LongAnswer { number: DONE, count: n },
        Err(number) => LongAnswer { number, count: 0 },
    }
}

fn try_read(n: u64, arrays: &Arrays, row: &mut [u8], marks: &mut [u8]) -> Result<(), u32> {
    let read = reader(arrays)?;
    let n = usize::try_from(n).map_err(|_| ROOM)?;
    let lent = row.as_chunks_mut::<4>().0.get_mut(..n).ok_or(ROOM)?;
    let lent_marks = marks.get_mut(..n).ok_or(ROOM)?;
    let row = read(arrays, n)?;
    for (lent, value) in lent.iter_mut().zip(row.values) {
        *lent = value.to_le_bytes();
    }
    lent_marks.copy_from_slice(&row.marks);
    Ok(())
}

/// Reads a row of n elements, for which there must be memory.
pub fn read_row(arrays: &Arrays, n: usize) -> Result<Row, u32> {
    reader(arrays)?(arrays, n)
}
