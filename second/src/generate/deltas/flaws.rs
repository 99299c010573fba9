//! Rows of DELTA arrays changed in each way that the rules speak of, with the
//! answer that each reading must give.

mod any;
mod arguments;
mod draft;
mod faults;

use super::{Sound, Widths};
use crate::delta::{Arrays, First};
use crate::random::Random;
use draft::Draft;

#[derive(Clone, Copy, PartialEq, Eq, Debug)]
pub enum Change {
    Alone,
    Among,
    Shorter,
    WithinRun,
    Longer,
    NoElements,
    StartNoFlag,
    DataCut,
    ValueCut,
    CountCut,
    RunTooLong,
    CountBelow,
    CountBelowNoValue,
    SumAbove,
    SumBelow,
    DataFar,
    ValueFar,
    CountFar,
    OtherWidth,
    OtherWidthAndNoRoom,
    LittleRoom,
    LittleRoomAndFault,
    HugeLength,
    FlagChanged,
    ElementChanged,
    CountChanged,
    PlacesExchanged,
    OtherOfNine,
    BytesMixed,
    RandomElements,
    RandomBytes,
}

use Change::*;

const LENGTHS: [Change; 5] = [Among, Shorter, WithinRun, Longer, Alone];
const FAULTS: [Change; 9] = [
    StartNoFlag,
    DataCut,
    ValueCut,
    CountCut,
    RunTooLong,
    CountBelow,
    CountBelowNoValue,
    SumAbove,
    SumBelow,
];
const ARGUMENTS: [Change; 9] = [
    NoElements,
    DataFar,
    ValueFar,
    CountFar,
    OtherWidth,
    OtherWidthAndNoRoom,
    LittleRoom,
    LittleRoomAndFault,
    HugeLength,
];
const ANY: [Change; 8] = [
    FlagChanged,
    ElementChanged,
    CountChanged,
    PlacesExchanged,
    OtherOfNine,
    BytesMixed,
    RandomElements,
    RandomBytes,
];

pub fn changes() -> Vec<Change> {
    [&LENGTHS[..], &FAULTS, &ARGUMENTS, &ANY].concat()
}

/// What a reading must answer.
#[derive(Clone, PartialEq, Eq, Debug)]
pub enum Wanted {
    Row(Vec<Option<i32>>),
    Refused(u32),
    Unknown,
}

/// The arguments of a reading.
#[derive(Clone)]
pub struct Reading {
    pub n: u64,
    pub widths: Widths,
    pub data: Vec<u8>,
    pub value: Vec<u8>,
    pub repeat: Vec<u8>,
    pub first: First,
    /// The bytes lent for the row and for its marks.
    pub row_room: usize,
    pub marks_room: usize,
    pub wanted: Wanted,
}

impl Reading {
    pub fn arrays(&self) -> Arrays<'_> {
        Arrays {
            data_bits: self.widths.data,
            data: &self.data,
            value_bits: self.widths.value,
            value: &self.value,
            repeat: &self.repeat,
            first: self.first,
        }
    }
}

/// A reading of the row that is changed so.
pub fn change(random: &mut Random, sound: &Sound, change: Change) -> Reading {
    if change == Alone {
        Draft::new(sound).alone()
    } else if LENGTHS.contains(&change) {
        faults::length(random, sound, change).among(random)
    } else if FAULTS.contains(&change) {
        faults::fault(random, sound, change).among(random)
    } else if ARGUMENTS.contains(&change) {
        arguments::arguments(random, sound, change)
    } else {
        any::any(random, sound, change)
    }
}
