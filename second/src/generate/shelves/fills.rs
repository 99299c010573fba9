//! What the places of a shelf hold before any call.

use super::{short, Stock};
use crate::memory::Lent;
use crate::random::Random;
use crate::shelf::{bytes_of, PLACES, PLACE_BYTES, SHELF_BYTES, SIZE};

/// A shelf of any bytes: mostly of the length that it needs or longer, seldom
/// too short.
pub fn any_shelf(random: &mut Random) -> Lent {
    let (short, more) = (short(random), random.below(2 * PLACE_BYTES));
    let length = match random.below(40) {
        0 => short,
        1..=20 => SHELF_BYTES,
        21 => SHELF_BYTES + more,
        _ => SHELF_BYTES + random.pick(&[1, 3, 4, 20, 1000]),
    };
    Lent::new(random, length)
}

/// Fills all places of a shelf that has them.
pub fn fill_places(random: &mut Random, stock: &Stock, shelf: &mut [u8]) {
    for place in 0..PLACES {
        fill_place(random, stock, shelf, place);
    }
}

pub fn fill_place(random: &mut Random, stock: &Stock, shelf: &mut [u8], place: usize) {
    if let Some(bytes) = shelf.get_mut(bytes_of(place)) {
        fill(random, stock, bytes);
    }
}

/// Nothing, a table or other bytes; nobody need have put them so.
fn fill(random: &mut Random, stock: &Stock, place: &mut [u8]) {
    match random.below(12) {
        0..=3 => place.fill(0),
        4 => {
            random.fill(place);
            place[SIZE].fill(0);
        }
        5 => random.fill(place),
        6 => {
            random.fill(place);
            set_table(place, stock.good(random));
        }
        _ => {
            place.fill(0);
            set_table(place, stock.any(random));
        }
    }
}

/// As much of the table as the place holds.
fn set_table(place: &mut [u8], table: &[u8]) {
    let count = table.len().min(place.len());
    place[..count].copy_from_slice(&table[..count]);
}
