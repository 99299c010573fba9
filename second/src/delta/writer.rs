//! Rows written in the manner of ARY_DELTA.

use super::{largest, least, Flag};

/// Identical values are a run only if they are more than these.
const NO_RUN: usize = 3;

/// The elements that a row adds to each array.
#[derive(Clone, PartialEq, Eq, Debug, Default)]
pub struct Written {
    pub data: Vec<i32>,
    pub values: Vec<i32>,
    pub counts: Vec<i32>,
}

/// The arrays of a row whose bad elements are `None`, with DATA of so many
/// bits. A full value may need any bits up to 32.
pub fn write(row: &[Option<i32>], data_bits: u32) -> Written {
    let mut writer = Writer { row, max: largest(data_bits), written: Written::default() };
    let mut at = 0;
    while at < row.len() {
        at = writer.put(at);
    }
    writer.written
}

struct Writer<'a> {
    row: &'a [Option<i32>],
    max: i32,
    written: Written,
}

impl Writer<'_> {
    /// Puts what stands at a place; gives the place after it.
    fn put(&mut self, at: usize) -> usize {
        let Some(value) = self.row[at] else {
            return self.put_bad(at);
        };
        let alike = self.alike(at);
        if alike > NO_RUN {
            self.put_flag(Flag::Alike, alike);
            self.written.values.push(value);
            return at + alike;
        }
        match self.difference(at) {
            Some(difference) => {
                self.written.data.push(difference);
                at + 1
            }
            None => self.put_full(at),
        }
    }

    fn put_bad(&mut self, at: usize) -> usize {
        let bad = self.alike(at);
        self.put_flag(if bad > 1 { Flag::BadRun } else { Flag::OneBad }, bad);
        let good = self.row[at + bad..].first().copied().flatten();
        self.written.values.extend(good);
        at + bad + usize::from(good.is_some())
    }

    /// Values as long as none is a difference, bad or begins a run.
    fn put_full(&mut self, at: usize) -> usize {
        let is_full = |&place: &usize| {
            let good = self.row[place].is_some();
            good && self.difference(place).is_none() && self.alike(place) <= NO_RUN
        };
        let end = (at + 1..self.row.len()).find(|place| !is_full(place));
        let end = end.unwrap_or(self.row.len());
        self.put_flag(if end - at > 1 { Flag::Fulls } else { Flag::Full }, end - at);
        self.written.values.extend(self.row[at..end].iter().flatten());
        end
    }

    fn put_flag(&mut self, flag: Flag, count: usize) {
        self.written.data.push(flag.element(self.max));
        if flag.has_count() {
            self.written.counts.push(count as i32);
        }
    }

    /// The elements from a place on that are the same as the one there.
    fn alike(&self, at: usize) -> usize {
        let rest = &self.row[at..];
        rest.iter().take_while(|&&element| element == rest[0]).count()
    }

    /// The difference from the element before, where DATA can have it. Its least
    /// number is Starlink's mark of what is bad, and not used.
    fn difference(&self, at: usize) -> Option<i32> {
        let (before, value) = (self.row[at.checked_sub(1)?]?, self.row[at]?);
        let difference = value.checked_sub(before)?;
        let usable = -self.max..Flag::Fulls.element(self.max);
        usable.contains(&difference).then_some(difference)
    }
}

impl Written {
    /// DATA, VALUE and REPEAT as they stand in memory.
    pub fn bytes(&self, data_bits: u32, value_bits: u32) -> [Vec<u8>; 3] {
        [
            number_bytes(&self.data, data_bits),
            number_bytes(&self.values, value_bits),
            number_bytes(&self.counts, 32),
        ]
    }
}

/// Numbers that have no more bits than these.
pub fn number_bytes(numbers: &[i32], bits: u32) -> Vec<u8> {
    let range = least(bits)..=largest(bits);
    assert!(numbers.iter().all(|number| range.contains(number)), "more than {bits} bits");
    let bytes = |number: &i32| number.to_le_bytes().into_iter().take(bits as usize / 8);
    numbers.iter().flat_map(bytes).collect()
}
