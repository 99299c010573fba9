//! Random contents of records, and records made from them by the rules,
//! apart from the record writer.

use super::numbers::{any_form, shortest_form, value, Sort};
use super::rows::{pixel_bytes, row};
use super::runs::{plain_run, run, run_words};
use crate::random::Random;
use crate::sheet::{KIND_BYTES, KIND_LINE, KIND_PACKED, KIND_PLAIN, KIND_TABLE};
use crate::table::Table;

/// What a record writer is given: a table's bytes, pixels or numbers.
#[derive(Clone, PartialEq, Eq, Debug)]
pub struct Entry {
    pub kind: u16,
    /// 0 for kinds that have none.
    pub row: u16,
    pub content: Vec<u8>,
}

impl Entry {
    pub fn of_table(bytes: &[u8]) -> Entry {
        Entry { kind: KIND_TABLE, row: 0, content: bytes.to_vec() }
    }

    /// A row of kind 2 or 3.
    pub fn of_row(random: &mut Random, table: &Table, kind: u16, number: u16, n: usize) -> Entry {
        Entry { kind, row: number, content: pixel_bytes(&row(random, table, n)) }
    }

    pub fn of_line(random: &mut Random, n: usize) -> Entry {
        let number = |random: &mut Random| value(random, Sort::Signed) as i32;
        let content = (0..n).flat_map(|_| number(random).to_le_bytes()).collect();
        Entry { kind: KIND_LINE, row: 0, content }
    }

    /// Pixels of a row, numbers of a line, words of a table.
    pub fn count(&self) -> usize {
        let bytes = if matches!(self.kind, KIND_PACKED | KIND_PLAIN) { 2 } else { 4 };
        self.content.len() / bytes
    }

    fn numbers(&self) -> Vec<i64> {
        let numbers = self.content.as_chunks::<4>().0.iter();
        numbers.map(|&number| i64::from(i32::from_le_bytes(number))).collect()
    }

    fn pixels(&self) -> Vec<u16> {
        let pixels = self.content.as_chunks::<2>().0.iter();
        pixels.map(|&pixel| u16::from_le_bytes(pixel)).collect()
    }

    /// The very record that the writer must write.
    pub fn own_record(&self, table: &Table) -> Vec<u8> {
        let words = |pixels: &[u16]| run_words(&plain_run(table, pixels));
        self.record(words, |value| shortest_form(Sort::Signed, value))
    }

    /// A record that others might have written: now and then with a needless
    /// escape, a first height as the former rule has it, or a number in more
    /// bytes than it needs.
    pub fn foreign_record(&self, random: &mut Random, table: &Table) -> Vec<u8> {
        let seed = random.next_u64();
        let words = |pixels: &[u16]| run_words(&run(random, table, pixels, None).bits);
        let mut forms = Random::new(seed);
        self.record(words, |value| any_form(&mut forms, Sort::Signed, value))
    }

    fn record(
        &self,
        words: impl FnOnce(&[u16]) -> Vec<u8>,
        number: impl FnMut(i64) -> Vec<u8>,
    ) -> Vec<u8> {
        let count = self.count() as u16;
        let body = match self.kind {
            KIND_PACKED => row_body(self.row, count, &words(&self.pixels())),
            KIND_PLAIN => row_body(self.row, count, &self.content),
            KIND_LINE => line_body(&self.numbers().into_iter().map(number).collect::<Vec<_>>()),
            _ => self.content.clone(),
        };
        framed(self.kind, &body)
    }
}

/// A record of any kind and body.
pub fn framed(kind: u16, body: &[u8]) -> Vec<u8> {
    let length = (KIND_BYTES + body.len()) as u32;
    [&length.to_le_bytes()[..], &kind.to_le_bytes(), body].concat()
}

/// The body of a row's record.
pub fn row_body(row: u16, count: u16, rest: &[u8]) -> Vec<u8> {
    [&row.to_le_bytes()[..], &count.to_le_bytes(), rest].concat()
}

/// The body of a line's record, each number in its bytes.
pub fn line_body(numbers: &[Vec<u8>]) -> Vec<u8> {
    let mut body = (numbers.len() as u16).to_le_bytes().to_vec();
    body.extend(numbers.concat());
    body
}

#[cfg(test)]
mod tests {
    use super::*;
    use crate::known::plain_table;
    use crate::reader::Codec;
    use crate::sheet::{read_record, State};

    #[test]
    fn own_records() {
        let table = Table::parse(&plain_table()).unwrap();
        let record = |kind, content: &[u8]| {
            Entry { kind, row: 5, content: content.to_vec() }.own_record(&table)
        };
        let head = |length: u8, kind: u8| [length, 0, 0, 0, kind, 0];
        let packed = record(KIND_PACKED, &[204, 0, 255, 15]);
        assert_eq!(packed, [&head(10, 2)[..], &[5, 0, 2, 0, 0x31, 0xC3, 0, 0]].concat());
        let plain = record(KIND_PLAIN, &[1, 2]);
        assert_eq!(plain, [&head(8, 3)[..], &[5, 0, 1, 0, 1, 2]].concat());
        let line = record(KIND_LINE, &[64, 0, 0, 0]);
        assert_eq!(line, [&head(6, 4)[..], &[1, 0, 0x80, 0x40]].concat());
    }

    #[test]
    fn foreign_records_read_as_their_content() {
        let codec = Codec::open(&plain_table()).unwrap();
        let mut random = Random::new(33);
        for n in [0, 1, 2, 30, 4096] {
            let entries = [
                Entry::of_row(&mut random, &codec.table, KIND_PACKED, 7, n),
                Entry::of_row(&mut random, &codec.table, KIND_PLAIN, 7, n),
                Entry::of_line(&mut random, n),
            ];
            for entry in entries {
                assert_eq!(entry.count(), n);
                let record = entry.foreign_record(&mut random, &codec.table);
                let mut content = vec![0; entry.content.len()];
                let state = State { has_table: 1, least_row: 7 };
                let answer = read_record(state, Ok(&codec), &record, &mut content);
                assert_eq!((answer.number, answer.used), (0, record.len()));
                assert_eq!(content, entry.content);
            }
        }
    }
}
