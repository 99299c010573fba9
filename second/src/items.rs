//! The reader that gives one item a call, in the form that it has for C: the
//! caller keeps its place as a value.

use crate::answers::{ItemRead, ReaderOpened, ReaderPlace};
use crate::reader::{Codec, Cursor, Item};
use crate::refusal::{DONE, TOO_MANY};
use crate::row::{MAX_HEIGHT, MAX_PIXELS};
use crate::table::MAX_LENGTH;

pub const KIND_STEP: u32 = 1;
pub const KIND_BAD_PIXEL: u32 = 2;
pub const KIND_BAD_BIAS: u32 = 3;
pub const KIND_RAW: u32 = 4;

/// Opens a reader: the check's number, and the place of a row's first item.
pub fn open(table: Result<&Codec, u32>) -> ReaderOpened {
    ReaderOpened { number: table.err().unwrap_or(DONE), ..ReaderOpened::default() }
}

/// Whether some reading stands there: a row has at most 4096 items, none is
/// longer than the longest string, and what is previous is a height, 0 before
/// there is one.
pub fn possible(place: ReaderPlace) -> bool {
    let items = place.count as usize <= MAX_PIXELS;
    let bits = u64::from(place.at) <= u64::from(place.count) * u64::from(MAX_LENGTH);
    let height = match place.begun {
        0 => place.previous == 0,
        1 => place.previous <= MAX_HEIGHT as u32,
        _ => false,
    };
    items && bits && height
}

/// The item at a place.
pub fn next_item(table: Result<&Codec, u32>, words: &[u8], place: ReaderPlace) -> ItemRead {
    let refused = |number| ItemRead { number, place, ..ItemRead::default() };
    let codec = match table {
        Ok(codec) => codec,
        Err(number) => return refused(number),
    };
    if !possible(place) || place.count as usize == MAX_PIXELS {
        return refused(TOO_MANY);
    }
    let mut cursor = Cursor::new(codec, words);
    cursor.place = place.at as usize;
    cursor.previous = (place.begun == 1).then_some(i64::from(place.previous));
    match cursor.next_item() {
        Ok((item, pixel)) => given(item, pixel, place_of(&cursor, place.count + 1)),
        Err(number) => refused(number),
    }
}

fn place_of(cursor: &Cursor, count: u32) -> ReaderPlace {
    ReaderPlace {
        at: cursor.place as u32,
        count,
        previous: cursor.previous.unwrap_or(0) as u32,
        begun: u32::from(cursor.previous.is_some()),
    }
}

fn given(item: Item, pixel: u16, place: ReaderPlace) -> ItemRead {
    let (kind, step) = match item {
        Item::Difference(step) => (KIND_STEP, step),
        Item::BadPixel => (KIND_BAD_PIXEL, 0),
        Item::BadBias => (KIND_BAD_BIAS, 0),
        Item::Escaped(_) => (KIND_RAW, 0),
    };
    ItemRead { number: DONE, kind, step, pixel: u32::from(pixel), place }
}

#[cfg(test)]
mod tests;
