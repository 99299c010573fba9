//! Sheets spoiled in each way that the rules forbid.

mod bodies;
mod fields;
mod framing;
mod order;

#[cfg(test)]
mod tests;

use crate::random::Random;
use crate::sheet::{KIND_PACKED, KIND_PLAIN, LENGTH_BYTES, MAX_RECORD};
use crate::table::Table;

#[derive(Clone, Copy, PartialEq, Eq, Debug)]
pub enum Flaw {
    Cut,
    NoBytes,
    StrayBytes,
    LengthTooSmall,
    LengthTooLarge,
    LengthPastEnd,
    LengthOff,
    Longest,
    KindUnknown,
    KindChanged,
    TableMissing,
    SecondTable,
    RowNotRisen,
    FieldsMissing,
    PartWord,
    CountTooLarge,
    CountChanged,
    ManyPixels,
    ManyNumbers,
    TableRefused,
    TableLonger,
    PixelAbove,
    ExtraWord,
    ExtraBytes,
    UnusedBit,
    WordsCut,
    ItemFault,
    AnyWords,
    NumberCut,
    SixthByte,
    NumberOutside,
    BitsFlipped,
    RandomBytes,
}

use Flaw::*;

const FRAMING: [Flaw; 10] = [
    Cut,
    NoBytes,
    StrayBytes,
    LengthTooSmall,
    LengthTooLarge,
    LengthPastEnd,
    LengthOff,
    Longest,
    BitsFlipped,
    RandomBytes,
];
const ORDER: [Flaw; 5] = [KindUnknown, KindChanged, TableMissing, SecondTable, RowNotRisen];
const FIELDS: [Flaw; 4] = [FieldsMissing, PartWord, CountTooLarge, CountChanged];
const BODIES: [Flaw; 14] = [
    ManyPixels,
    ManyNumbers,
    TableRefused,
    TableLonger,
    PixelAbove,
    ExtraWord,
    ExtraBytes,
    UnusedBit,
    WordsCut,
    ItemFault,
    AnyWords,
    NumberCut,
    SixthByte,
    NumberOutside,
];

pub fn flaws() -> Vec<Flaw> {
    [&FRAMING[..], &ORDER, &FIELDS, &BODIES].concat()
}

/// How a spoiled sheet must end, records counted from 0.
#[derive(Clone, Copy, PartialEq, Eq, Debug)]
pub enum Ending {
    Refused {
        number: u32,
        record: usize,
        /// The place, 0 but for 6 to 10.
        at: usize,
    },
    Unknown,
}

type Records = Vec<Vec<u8>>;

/// Spoils a sound sheet, given record by record, or gives nothing where it
/// has no place for the flaw.
pub fn spoil(
    random: &mut Random,
    table: &Table,
    records: &[Vec<u8>],
    flaw: Flaw,
) -> Option<(Vec<u8>, Ending)> {
    let mut records = records.to_vec();
    let ending = if FRAMING.contains(&flaw) {
        framing::spoil(random, &mut records, flaw)
    } else if ORDER.contains(&flaw) {
        order::spoil(random, &mut records, flaw)
    } else if FIELDS.contains(&flaw) {
        fields::spoil(random, &mut records, flaw)
    } else {
        bodies::spoil(random, table, &mut records, flaw)
    };
    ending.map(|ending| (records.concat(), ending))
}

fn refused(number: u32, record: usize) -> Option<Ending> {
    Some(Ending::Refused { number, record, at: 0 })
}

/// Some record of one of these kinds.
fn pick_kind(random: &mut Random, records: &Records, kinds: &[u16]) -> Option<usize> {
    let of_kind = |&index: &usize| kinds.contains(&kind_of(&records[index]));
    let found: Vec<usize> = (0..records.len()).filter(of_kind).collect();
    (!found.is_empty()).then(|| random.pick(&found))
}

fn field(record: &[u8], place: usize) -> u16 {
    u16::from_le_bytes([record[place], record[place + 1]])
}

fn set_field(record: &mut [u8], place: usize, value: u16) {
    record[place..place + 2].copy_from_slice(&value.to_le_bytes());
}

const KIND_PLACE: usize = LENGTH_BYTES;
const BODY_PLACE: usize = 6;
const ROW_PLACE: usize = BODY_PLACE;

fn kind_of(record: &[u8]) -> u16 {
    field(record, KIND_PLACE)
}

/// Where a row's or a line's count stands.
fn count_place(record: &[u8]) -> usize {
    match kind_of(record) {
        KIND_PACKED | KIND_PLAIN => BODY_PLACE + 2,
        _ => BODY_PLACE,
    }
}

fn set_length(record: &mut [u8], length: u32) {
    record[..LENGTH_BYTES].copy_from_slice(&length.to_le_bytes());
}

/// Makes the length count what follows it; whether it is then in its limits.
fn mend_length(record: &mut [u8]) -> bool {
    let length = record.len() - LENGTH_BYTES;
    set_length(record, length as u32);
    length <= MAX_RECORD
}
