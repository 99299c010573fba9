//! Rows of DELTA arrays.

use std::fmt::Debug;

use super::Outcome;
use crate::agreement::Call;
use crate::answers::LongAnswer;
use crate::delta::{self, Arrays, First};
use crate::ffi;
use crate::generate::deltas::flaws::Reading;
use crate::generate::deltas::Widths;
use crate::memory::{Given, Lent};
use crate::random::Random;
use crate::tally::Tally;

/// A row that is to be read, with the memory lent for it.
pub struct DeltaCall {
    n: u64,
    widths: Widths,
    data: Given,
    value: Given,
    repeat: Given,
    first: First,
    row: Lent,
    marks: Lent,
}

/// The answer, and the memory afterwards.
pub struct DeltaRead {
    pub answer: LongAnswer,
    pub row: Lent,
    pub marks: Lent,
}

impl DeltaRead {
    /// The elements of a row that was read; bad ones are `None`.
    pub fn elements(&self) -> impl Iterator<Item = Option<i32>> + '_ {
        let (values, _) = self.row.bytes().as_chunks();
        let marked = values.iter().zip(self.marks.bytes()).take(self.answer.count as usize);
        marked.map(|(&value, &mark)| (mark == 0).then_some(i32::from_le_bytes(value)))
    }

    /// Whether marks are 0 or 1, and a bad element's value is 0.
    pub fn is_marked_well(&self) -> bool {
        let (values, _) = self.row.bytes().as_chunks::<4>();
        let mut marked = values.iter().zip(self.marks.bytes()).take(self.answer.count as usize);
        marked.all(|(&value, &mark)| mark == 0 || mark == 1 && value == [0; 4])
    }
}

impl DeltaCall {
    pub fn new(random: &mut Random, reading: &Reading) -> DeltaCall {
        let [data, value, repeat] =
            [&reading.data, &reading.value, &reading.repeat].map(|array| Given::new(random, array));
        let row = Lent::new(random, reading.row_room);
        let marks = Lent::new(random, reading.marks_room);
        let Reading { n, widths, first, .. } = *reading;
        DeltaCall { n, widths, data, value, repeat, first, row, marks }
    }

    fn arrays(&self) -> Arrays<'_> {
        Arrays {
            data_bits: self.widths.data,
            data: self.data.bytes(),
            value_bits: self.widths.value,
            value: self.value.bytes(),
            repeat: self.repeat.bytes(),
            first: self.first,
        }
    }

    /// Made on both sides, compared and counted.
    pub fn read(&self, tally: &mut Tally) -> Outcome<DeltaRead> {
        let read = self.read_uncounted()?;
        tally.add(self.name(), read.answer.number, 0);
        Ok(read)
    }

    pub fn read_uncounted(&self) -> Outcome<DeltaRead> {
        let (n, arrays) = (self.n, self.arrays());
        let (mut by_proved, mut by_second) = (self.marks.clone(), self.marks.clone());
        let proved = |row: &mut [u8]| ffi::delta_row(n, &arrays, row, by_proved.bytes_mut());
        let second = |row: &mut [u8]| delta::read(n, &arrays, row, by_second.bytes_mut());
        let written = |answer: LongAnswer| 4 * answer.count as usize;
        let (answer, row) = self.with_call(|call| call.compare(proved, second, written))?;
        let wrong = if by_proved != by_second {
            "marks"
        } else if !by_proved.same_after(&self.marks, answer.count as usize) {
            "marks after what is counted"
        } else {
            return Ok(DeltaRead { answer, row, marks: by_proved });
        };
        let marks = [
            ("marks before", self.marks.bytes()),
            ("marks by proved", by_proved.bytes()),
            ("marks by second", by_second.bytes()),
        ];
        Err(self.with_call(|call| call.report(&format!("{wrong}: both answer {answer:?}"), &marks)))
    }

    fn name(&self) -> &'static str {
        match (self.widths.data, self.widths.value) {
            (8, 8) => "delta_row 8 8",
            (8, 16) => "delta_row 8 16",
            (8, 32) => "delta_row 8 32",
            (16, 8) => "delta_row 16 8",
            (16, 16) => "delta_row 16 16",
            (16, 32) => "delta_row 16 32",
            (32, 8) => "delta_row 32 8",
            (32, 16) => "delta_row 32 16",
            (32, 32) => "delta_row 32 32",
            _ => "delta_row other",
        }
    }

    /// The text of a report of something wrong that both sides agree on.
    pub fn report(&self, what: &str, read: &DeltaRead) -> String {
        let memory = [("row", read.row.bytes()), ("marks", read.marks.bytes())];
        self.with_call(|call| call.report(what, &memory))
    }

    fn with_call<T>(&self, act: impl FnOnce(&Call) -> T) -> T {
        let numbers: &dyn Debug = &(self.n, self.widths, self.first, self.marks.bytes().len());
        let inputs = [("data", &self.data), ("value", &self.value), ("repeat", &self.repeat)];
        act(&Call { name: self.name(), numbers, inputs: &inputs, lent: &self.row })
    }
}
