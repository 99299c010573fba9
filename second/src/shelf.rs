//! A shelf of tables that two parties share: document 02, ticket 6. Twelve
//! places of 8193 words, each a table and then zeros, or zeros alone. The calls
//! have the form that they have for C.

#[cfg(test)]
mod tests;

use std::ops::Range;

use crate::answers::{Answer, Changed, Unpacked};
use crate::reader;
use crate::refusal::{DONE, NOT_ITS_PLACE, NO_TABLE, ROOM, SHELF_FULL, TABLE_SHAPE};
use crate::row;
use crate::table::{Table, HEADER_WORDS, MAX_ENTRIES};

pub const PLACES: usize = 12;
/// Any table fits in.
pub const PLACE_BYTES: usize = 4 * (HEADER_WORDS + MAX_ENTRIES as usize);
pub const SHELF_BYTES: usize = PLACES * PLACE_BYTES;
/// The places that both parties use.
pub const COMMON: Range<usize> = 0..4;
/// Where tableSize stands in a place.
pub const SIZE: Range<usize> = 8..12;

type Place = [u8; PLACE_BYTES];

/// The tables go to the common places; the others become free.
pub fn open(tables: [&[u8]; 4], shelf: &mut [u8]) -> Answer {
    match try_open(tables, shelf) {
        Ok(()) => Answer { number: DONE, count: SHELF_BYTES as u32 },
        Err(number) => Answer { number, count: 0 },
    }
}

fn try_open(tables: [&[u8]; 4], shelf: &mut [u8]) -> Result<(), u32> {
    tables.iter().try_for_each(|table| Table::parse(table).map(|_| ()))?;
    for (index, place) in places_mut(shelf)?.iter_mut().enumerate() {
        write(place, tables.get(index).copied().unwrap_or_default());
    }
    Ok(())
}

/// The table goes to the party's lowest free place.
pub fn put(shelf: &mut [u8], party: u32, table: &[u8]) -> Changed {
    changed(try_put(shelf, party, table))
}

fn try_put(shelf: &mut [u8], party: u32, table: &[u8]) -> Result<usize, u32> {
    let places = places_mut(shelf)?;
    let mut own = own_places(party)?;
    Table::parse(table)?;
    let place = own.find(|&place| size(&places[place]) == 0).ok_or(SHELF_FULL)?;
    write(&mut places[place], table);
    Ok(place)
}

/// The place becomes free, whatever table it has.
pub fn remove(shelf: &mut [u8], party: u32, place: u32) -> Changed {
    changed(try_remove(shelf, party, place))
}

fn try_remove(shelf: &mut [u8], party: u32, place: u32) -> Result<usize, u32> {
    let places = places_mut(shelf)?;
    let place = place as usize;
    if !own_places(party)?.contains(&place) {
        return Err(NOT_ITS_PLACE);
    }
    if size(&places[place]) == 0 {
        return Err(NO_TABLE);
    }
    write(&mut places[place], &[]);
    Ok(place)
}

/// Packing under the table of a place; the count is the bits.
pub fn pack(shelf: &[u8], party: u32, place: u32, pixels: &[u8], words: &mut [u8]) -> Answer {
    answer(table_used(shelf, party, place).map(|table| row::pack(table, pixels, words)))
}

/// Unpacking under it; the count is the bits.
pub fn unpack(
    shelf: &[u8],
    party: u32,
    place: u32,
    words: &[u8],
    n: u64,
    pixels: &mut [u8],
) -> Unpacked {
    match table_used(shelf, party, place) {
        Ok(table) => reader::unpack(table, words, n, pixels),
        Err(number) => Unpacked::refused(number),
    }
}

/// The room question under it; the count is the words.
pub fn room(shelf: &[u8], party: u32, place: u32, n: u64) -> Answer {
    answer(table_used(shelf, party, place).map(|table| row::room(table, n)))
}

/// What stands as the table in a place that the party may use; it is still to
/// be checked.
pub fn table_used(shelf: &[u8], party: u32, place: u32) -> Result<&[u8], u32> {
    let places = places(shelf)?;
    let (own, index) = (own_places(party)?, place as usize);
    if !own.contains(&index) && !COMMON.contains(&index) {
        return Err(NOT_ITS_PLACE);
    }
    match size(&places[index]) {
        0 => Err(NO_TABLE),
        // With more words than a place has, it is too large for any table.
        size => places[index].get(..4 * (HEADER_WORDS + size as usize)).ok_or(TABLE_SHAPE),
    }
}

/// The places that the party alone puts to.
pub fn own_places(party: u32) -> Result<Range<usize>, u32> {
    match party {
        0 => Ok(4..8),
        1 => Ok(8..12),
        _ => Err(NOT_ITS_PLACE),
    }
}

/// Where a place stands on the shelf.
pub fn bytes_of(place: usize) -> Range<usize> {
    place * PLACE_BYTES..(place + 1) * PLACE_BYTES
}

fn places(shelf: &[u8]) -> Result<&[Place; PLACES], u32> {
    shelf.as_chunks().0.first_chunk().ok_or(ROOM)
}

fn places_mut(shelf: &mut [u8]) -> Result<&mut [Place; PLACES], u32> {
    shelf.as_chunks_mut().0.first_chunk_mut().ok_or(ROOM)
}

/// The tableSize of a place, 0 where it is free.
fn size(place: &Place) -> u32 {
    place[SIZE].iter().rfold(0, |size, &byte| size << 8 | u32::from(byte))
}

/// The bytes and then zeros.
fn write(place: &mut Place, table: &[u8]) {
    let (front, rest) = place.split_at_mut(table.len());
    front.copy_from_slice(table);
    rest.fill(0);
}

fn answer(outcome: Result<(u32, u32), u32>) -> Answer {
    let (number, count) = outcome.unwrap_or_else(|number| (number, 0));
    Answer { number, count }
}

fn changed(outcome: Result<usize, u32>) -> Changed {
    match outcome {
        Ok(place) => Changed { number: DONE, place: place as u32 },
        Err(number) => Changed { number, place: 0 },
    }
}
