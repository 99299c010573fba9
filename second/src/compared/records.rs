//! Records, judged, read and written.

use super::{counted, counted_answer, Outcome};
use crate::agreement::Call;
use crate::answers::{Record, Unpacked, Written};
use crate::calls;
use crate::ffi;
use crate::memory::{Given, Lent};
use crate::opened::Opened;
use crate::refusal::has_place;
use crate::sheet::{State, KIND_PACKED, LENGTH_BYTES};
use crate::tally::Tally;

/// Length, kind, row number and count stand before a packed row's words.
const WORDS_PLACE: usize = 10;

/// A place in a sheet where a record is expected.
#[derive(Clone, Copy)]
pub struct Place<'a> {
    pub table: &'a Opened,
    pub sheet: &'a Given,
    /// The bytes of the sheet that stand before.
    pub start: usize,
    pub state: State,
}

impl Place<'_> {
    fn rest(&self) -> &[u8] {
        &self.sheet.bytes()[self.start..]
    }

    pub fn judge(&self, tally: &mut Tally) -> Outcome<Record> {
        let inputs = [("table", &self.table.given), ("sheet", self.sheet)];
        let (lent, numbers) = (Lent::nothing(), (self.start, self.state));
        let call = Call { name: "judge_record", numbers: &numbers, inputs: &inputs, lent: &lent };
        let proved = || ffi::judge_record(self.table.bytes(), self.rest(), self.state);
        let second = || calls::judge_record(self.table.codec(), self.rest(), self.state);
        let judged = counted_answer(tally, &call, proved, second)?;
        let Record { number, kind, bits, at, .. } = judged;
        if kind != KIND_PACKED.into() && !has_place(number) {
            return Ok(judged);
        }
        let row = self.row_call();
        if row == (Unpacked { number, count: bits, at }) {
            return Ok(judged);
        }
        Err(call.report(&format!("judged {judged:?}, unpacked {row:?}"), &[]))
    }

    /// Unpacks the words of the record here, which is a packed row's. Reaching
    /// them, the record calls give the same bits or stop at the same place.
    fn row_call(&self) -> Unpacked {
        let (fields, words) = self.rest().split_at(WORDS_PLACE);
        let length = u32::from_le_bytes([fields[0], fields[1], fields[2], fields[3]]);
        let n = u16::from_le_bytes([fields[8], fields[9]]);
        let words = &words[..LENGTH_BYTES + length as usize - WORDS_PLACE];
        let mut pixels = vec![0; 2 * usize::from(n)];
        ffi::unpack(self.table.bytes(), words, n.into(), &mut pixels)
    }

    /// Gives the answer and the content's memory afterwards.
    pub fn read(&self, tally: &mut Tally, lent: &Lent) -> Outcome<(Record, Lent)> {
        let inputs = [("table", &self.table.given), ("sheet", self.sheet)];
        let numbers = (self.start, self.state);
        let call = Call { name: "read_record", numbers: &numbers, inputs: &inputs, lent };
        let (table, rest, state) = (self.table, self.rest(), self.state);
        let proved = |content: &mut [u8]| ffi::read_record(table.bytes(), rest, state, content);
        let second = |content: &mut [u8]| calls::read_record(table.codec(), rest, state, content);
        counted(tally, &call, proved, second, |record| record.content_bytes())
    }

    /// The text of a report of something wrong that both sides agree on.
    pub fn report(&self, what: &str) -> String {
        let inputs = [("table", &self.table.given), ("sheet", self.sheet)];
        let (lent, numbers) = (Lent::nothing(), (self.start, self.state));
        let call = Call { name: "read_record", numbers: &numbers, inputs: &inputs, lent: &lent };
        call.report(what, &[])
    }
}

/// What a record writer is given.
#[derive(Clone, Copy)]
pub struct Writing<'a> {
    pub kind: u32,
    pub row: u32,
    pub content: &'a Given,
    pub table: &'a Opened,
    pub state: State,
}

impl Writing<'_> {
    /// Gives the answer and the memory afterwards.
    pub fn write(&self, tally: &mut Tally, lent: &Lent) -> Outcome<(Written, Lent)> {
        let Writing { kind, row, content, table, state } = *self;
        let inputs = [("content", content), ("table", &table.given)];
        let numbers = (kind, row, state);
        let call = Call { name: "write_record", numbers: &numbers, inputs: &inputs, lent };
        let proved = |out: &mut [u8]| {
            ffi::write_record(kind, row, content.bytes(), table.bytes(), state, out)
        };
        let second = |out: &mut [u8]| {
            calls::write_record(kind, row, content.bytes(), table.codec(), state, out)
        };
        counted(tally, &call, proved, second, |written| written.count as usize)
    }

    /// The bytes that the record takes, or 0 if it is refused.
    pub fn bytes_needed(&self) -> usize {
        let Writing { kind, row, content, table, state } = *self;
        let mut ample = vec![0; 40_000];
        let content = content.bytes();
        calls::write_record(kind, row, content, table.codec(), state, &mut ample).count as usize
    }

    /// The text of a report of something wrong that both sides agree on.
    pub fn report(&self, what: &str) -> String {
        let inputs = [("content", self.content), ("table", &self.table.given)];
        let (lent, numbers) = (Lent::nothing(), (self.kind, self.row, self.state));
        let call = Call { name: "write_record", numbers: &numbers, inputs: &inputs, lent: &lent };
        call.report(what, &[])
    }
}
