//! Flaws of the records' kinds and of their order.

use super::{field, kind_of, pick_kind, refused, set_field};
use super::{Ending, Flaw, Records, KIND_PLACE, ROW_PLACE};
use crate::generate::entries::framed;
use crate::random::Random;
use crate::refusal::{KIND, PLACE};
use crate::sheet::{KIND_LINE, KIND_PACKED, KIND_PLAIN, KIND_TABLE};

pub fn spoil(random: &mut Random, records: &mut Records, flaw: Flaw) -> Option<Ending> {
    match flaw {
        Flaw::KindUnknown => {
            let index = random.below(records.len());
            let known = kind_of(&records[index]);
            let other = random.within(5..=65_535) as u16;
            let kind = random.pick(&[0, 5, known << 8, known | 256, u16::MAX, other]);
            set_field(&mut records[index], KIND_PLACE, kind);
            refused(KIND, index)
        }
        Flaw::KindChanged => {
            let index = random.below(records.len());
            let kind = random.within(KIND_TABLE.into()..=KIND_LINE.into()) as u16;
            set_field(&mut records[index], KIND_PLACE, kind);
            Some(Ending::Unknown)
        }
        Flaw::TableMissing => {
            records.remove(0);
            (!records.is_empty()).then(|| refused(PLACE, 0))?
        }
        Flaw::SecondTable => second_table(random, records),
        _ => row_not_risen(random, records),
    }
}

/// A table after the first one: the same, or any words.
fn second_table(random: &mut Random, records: &mut Records) -> Option<Ending> {
    let index = random.within(1..=records.len());
    let table = if random.one_in(2) {
        records[0].clone()
    } else {
        let words = random.below(20);
        framed(KIND_TABLE, &random.bytes(4 * words))
    };
    records.insert(index, table);
    refused(PLACE, index)
}

/// A row with the number of the row before it, or a lower one.
fn row_not_risen(random: &mut Random, records: &mut Records) -> Option<Ending> {
    let is_row = |record: &&Vec<u8>| matches!(kind_of(record), KIND_PACKED | KIND_PLAIN);
    let index = pick_kind(random, records, &[KIND_PACKED, KIND_PLAIN])?;
    let before = records[..index].iter().rfind(is_row)?;
    let number = field(before, ROW_PLACE);
    let lower = random.within(0..=number.into()) as u16;
    set_field(&mut records[index], ROW_PLACE, random.pick(&[number, lower]));
    refused(PLACE, index)
}
