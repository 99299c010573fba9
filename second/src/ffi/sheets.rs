//! Adaptive numbers and records.
//!
//! SAFETY, for every call here: pointers and lengths are those of live
//! slices, and the one that is written to overlaps no other.

use super::{at, at_mut};
use crate::answers::{Answer, Record, Signed, Unsigned, Written};
use crate::sheet::State;

extern "C" {
    fn tahliruz_read_signed(bytes: *const u8, bytes_len: usize) -> Signed;
    fn tahliruz_read_unsigned(bytes: *const u8, bytes_len: usize) -> Unsigned;
    fn tahliruz_write_signed(value: i32, out: *mut u8, out_len: usize) -> Answer;
    fn tahliruz_write_unsigned(value: u32, out: *mut u8, out_len: usize) -> Answer;
    fn tahliruz_judge_record(
        table: *const u8,
        table_len: usize,
        sheet: *const u8,
        sheet_len: usize,
        state: State,
    ) -> Record;
    fn tahliruz_read_record(
        table: *const u8,
        table_len: usize,
        sheet: *const u8,
        sheet_len: usize,
        state: State,
        content: *mut u8,
        content_len: usize,
    ) -> Record;
    fn tahliruz_write_record(
        kind: u32,
        row: u32,
        content: *const u8,
        content_len: usize,
        table: *const u8,
        table_len: usize,
        state: State,
        out: *mut u8,
        out_len: usize,
    ) -> Written;
}

pub fn read_signed(bytes: &[u8]) -> Signed {
    unsafe { tahliruz_read_signed(at(bytes), bytes.len()) }
}

pub fn read_unsigned(bytes: &[u8]) -> Unsigned {
    unsafe { tahliruz_read_unsigned(at(bytes), bytes.len()) }
}

pub fn write_signed(value: i32, out: &mut [u8]) -> Answer {
    unsafe { tahliruz_write_signed(value, at_mut(out), out.len()) }
}

pub fn write_unsigned(value: u32, out: &mut [u8]) -> Answer {
    unsafe { tahliruz_write_unsigned(value, at_mut(out), out.len()) }
}

/// The record at the front of `sheet`.
pub fn judge_record(table: &[u8], sheet: &[u8], state: State) -> Record {
    unsafe { tahliruz_judge_record(at(table), table.len(), at(sheet), sheet.len(), state) }
}

/// The same, and its content.
pub fn read_record(table: &[u8], sheet: &[u8], state: State, content: &mut [u8]) -> Record {
    unsafe {
        tahliruz_read_record(
            at(table),
            table.len(),
            at(sheet),
            sheet.len(),
            state,
            at_mut(content),
            content.len(),
        )
    }
}

pub fn write_record(
    kind: u32,
    row: u32,
    content: &[u8],
    table: &[u8],
    state: State,
    out: &mut [u8],
) -> Written {
    unsafe {
        tahliruz_write_record(
            kind,
            row,
            at(content),
            content.len(),
            at(table),
            table.len(),
            state,
            at_mut(out),
            out.len(),
        )
    }
}
