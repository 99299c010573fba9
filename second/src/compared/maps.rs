//! Pressure mat maps.

use super::{counted, Outcome};
use crate::agreement::Call;
use crate::answers::Answer;
use crate::calls;
use crate::ffi;
use crate::map::COUNTS;
use crate::memory::{Given, Lent};
use crate::refusal::DONE;
use crate::tally::Tally;

/// The name of a call that is counted apart for each group size.
fn name(group: u32, names: [&'static str; 3]) -> &'static str {
    match group {
        4 => names[0],
        16 => names[1],
        _ => names[2],
    }
}

/// Bytes that are read as a map.
#[derive(Clone, Copy)]
pub struct MapReading<'a> {
    pub group: u32,
    pub bytes: &'a Given,
    pub total: u64,
}

impl MapReading<'_> {
    fn name(&self) -> &'static str {
        name(self.group, ["read_map 4", "read_map 16", "read_map other"])
    }

    /// Gives the answer and the memory afterwards.
    pub fn read(&self, tally: &mut Tally, lent: &Lent) -> Outcome<(Answer, Lent)> {
        let MapReading { group, bytes, total } = *self;
        let (numbers, inputs) = ((group, total), [("bytes", bytes)]);
        let call = Call { name: self.name(), numbers: &numbers, inputs: &inputs, lent };
        let bytes = bytes.bytes();
        let proved = |counts: &mut [u8]| ffi::read_map(group, bytes, total, counts);
        let second = |counts: &mut [u8]| calls::read_map(group, bytes, total, counts);
        let written = |answer: Answer| if answer.number == DONE { 2 * COUNTS } else { 0 };
        counted(tally, &call, proved, second, written)
    }

    /// The text of a report of something wrong that both sides agree on.
    pub fn report(&self, what: &str) -> String {
        let (lent, inputs) = (Lent::nothing(), [("bytes", self.bytes)]);
        let numbers = (self.group, self.total);
        let call = Call { name: self.name(), numbers: &numbers, inputs: &inputs, lent: &lent };
        call.report(what, &[])
    }
}

/// Counts that are written as a map.
#[derive(Clone, Copy)]
pub struct MapWriting<'a> {
    pub group: u32,
    pub counts: &'a Given,
}

impl MapWriting<'_> {
    fn name(&self) -> &'static str {
        name(self.group, ["write_map 4", "write_map 16", "write_map other"])
    }

    /// Gives the answer and the memory afterwards.
    pub fn write(&self, tally: &mut Tally, lent: &Lent) -> Outcome<(Answer, Lent)> {
        let MapWriting { group, counts } = *self;
        let inputs = [("counts", counts)];
        let call = Call { name: self.name(), numbers: &group, inputs: &inputs, lent };
        let proved = |out: &mut [u8]| ffi::write_map(group, counts.bytes(), out);
        let second = |out: &mut [u8]| calls::write_map(group, counts.bytes(), out);
        counted(tally, &call, proved, second, |answer| answer.count as usize)
    }

    /// The text of a report of something wrong that both sides agree on.
    pub fn report(&self, what: &str) -> String {
        let (lent, inputs) = (Lent::nothing(), [("counts", self.counts)]);
        let call = Call { name: self.name(), numbers: &self.group, inputs: &inputs, lent: &lent };
        call.report(what, &[])
    }
}
