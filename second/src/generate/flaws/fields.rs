//! Flaws of the fixed fields and of the whole words.

use super::{count_place, field, kind_of, mend_length, pick_kind, refused, set_field};
use super::{Ending, Flaw, Records, BODY_PLACE};
use crate::random::Random;
use crate::refusal::{BYTES_END, RECORD, TOO_MANY};
use crate::row::MAX_PIXELS;
use crate::sheet::{KIND_LINE, KIND_PACKED, KIND_PLAIN, KIND_TABLE};

pub fn spoil(random: &mut Random, records: &mut Records, flaw: Flaw) -> Option<Ending> {
    match flaw {
        Flaw::FieldsMissing => {
            let index = pick_kind(random, records, &[KIND_PACKED, KIND_PLAIN, KIND_LINE])?;
            let record = &mut records[index];
            // The count is the last of the fixed fields.
            let fields = BODY_PLACE..=count_place(record) + 1;
            record.truncate(random.within(fields));
            mend_length(record);
            refused(RECORD, index)
        }
        Flaw::PartWord => part_word(random, records),
        Flaw::CountTooLarge => {
            let index = pick_kind(random, records, &[KIND_PACKED, KIND_PLAIN, KIND_LINE])?;
            let other = random.within(MAX_PIXELS + 1..=65_535) as u16;
            let count = random.pick(&[4097, 8192, 65_535, other]);
            let place = count_place(&records[index]);
            set_field(&mut records[index], place, count);
            refused(TOO_MANY, index)
        }
        _ => count_changed(random, records),
    }
}

/// A table or a packed row with an incomplete word at its end.
fn part_word(random: &mut Random, records: &mut Records) -> Option<Ending> {
    let index = pick_kind(random, records, &[KIND_TABLE, KIND_PACKED])?;
    let (record, odd) = (&mut records[index], random.within(1..=3));
    if random.one_in(2) {
        record.extend(random.bytes(odd));
    } else {
        record.truncate(record.len() - odd);
    }
    mend_length(record);
    refused(RECORD, index)
}

/// A count that is near the right one. Of a packed row, other items may
/// follow in its last word.
fn count_changed(random: &mut Random, records: &mut Records) -> Option<Ending> {
    let index = pick_kind(random, records, &[KIND_PACKED, KIND_PLAIN, KIND_LINE])?;
    let record = &mut records[index];
    let place = count_place(record);
    let right = field(record, place);
    let near = random.within(1..=3) as u16;
    let wrong = random.pick(&[right.saturating_sub(near), right + near]);
    set_field(record, place, wrong);
    if wrong == right {
        return None;
    }
    match kind_of(record) {
        _ if usize::from(wrong) > MAX_PIXELS => refused(TOO_MANY, index),
        KIND_PACKED => Some(Ending::Unknown),
        KIND_LINE if wrong > right => refused(BYTES_END, index),
        _ => refused(RECORD, index),
    }
}
