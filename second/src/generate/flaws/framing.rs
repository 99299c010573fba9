//! Flaws of a sheet's bytes and of the records' lengths.

use super::{mend_length, refused, set_length, Ending, Flaw, Records};
use crate::generate::entries::framed;
use crate::generate::runs::flip;
use crate::random::Random;
use crate::refusal::{KIND, RECORD};
use crate::sheet::{KIND_BYTES, LENGTH_BYTES, MAX_RECORD};

pub fn spoil(random: &mut Random, records: &mut Records, flaw: Flaw) -> Option<Ending> {
    match flaw {
        Flaw::Cut => cut(random, records),
        Flaw::NoBytes => {
            records.clear();
            Some(Ending::Unknown)
        }
        Flaw::StrayBytes => {
            let count = random.within(1..=3);
            records.push(random.bytes(count));
            refused(RECORD, records.len() - 1)
        }
        Flaw::Longest => longest(random, records),
        Flaw::BitsFlipped => {
            *records = vec![records.concat()];
            flip(random, &mut records[0]);
            Some(Ending::Unknown)
        }
        Flaw::RandomBytes => {
            let count = random.below(100);
            *records = vec![random.bytes(count)];
            Some(Ending::Unknown)
        }
        _ => length(random, records, flaw),
    }
}

/// Cuts the sheet anywhere. Between records it stays sound, or is empty.
fn cut(random: &mut Random, records: &mut Records) -> Option<Ending> {
    let keep = random.below(records.concat().len());
    let mut end = 0;
    for (index, record) in records.iter_mut().enumerate() {
        let start = end;
        end += record.len();
        if keep < end {
            record.truncate(keep - start);
            records.truncate(index + 1);
            return if keep == start { Some(Ending::Unknown) } else { refused(RECORD, index) };
        }
    }
    None
}

fn length(random: &mut Random, records: &mut Records, flaw: Flaw) -> Option<Ending> {
    let last = records.len() - 1;
    let index = if flaw == Flaw::LengthPastEnd { last } else { random.below(last + 1) };
    let record = &mut records[index];
    let right = (record.len() - LENGTH_BYTES) as u32;
    let length = match flaw {
        Flaw::LengthTooSmall => random.below(KIND_BYTES) as u32,
        Flaw::LengthTooLarge => {
            let other = random.next_u32().max(MAX_RECORD as u32 + 1);
            random.pick(&[MAX_RECORD as u32 + 1, u32::MAX, right | 1 << 16, right | 1 << 31, other])
        }
        Flaw::LengthPastEnd => {
            let more = random.below(MAX_RECORD) as u32;
            right + random.pick(&[1, 2, 4, 1 + more])
        }
        // Flaw::LengthOff
        _ => {
            let wrong = (right + 5).saturating_sub(random.below(10) as u32);
            set_length(record, wrong);
            return Some(Ending::Unknown);
        }
    };
    set_length(record, length);
    refused(RECORD, index)
}

/// A last record of the greatest length, or one byte longer; its kind is
/// unknown.
fn longest(random: &mut Random, records: &mut Records) -> Option<Ending> {
    let body = vec![random.pick(&[0, 255]); MAX_RECORD - KIND_BYTES + random.below(2)];
    records.push(framed(random.pick(&[0, 5]), &body));
    let last = records.len() - 1;
    let number = if mend_length(&mut records[last]) { KIND } else { RECORD };
    refused(number, last)
}
