//! A shelf of tables, with a few calls on it.

use crate::scene::Scene;
use second::compared::{Outcome, ShelfCall, Shelves};
use second::generate::mutations::any_number;
use second::generate::shelves::fills::{any_shelf, fill_places};
use second::generate::shelves::spoils::{spoil, Patch, SPOILS};
use second::generate::shelves::{any_request, Request, Stock};
use second::random::Random;
use second::shelf::{bytes_of, PLACES, SHELF_BYTES};
use second::tally::Tally;

/// Once in so many shelves there is a table that fills its place.
const FULL: usize = 1000;
/// A table up to this size may go to the places, where each use checks it.
const SMALL: usize = 5000;

/// Calls on one shelf, with arguments, inputs and places changed.
pub fn calls(random: &mut Random, scene: &Scene, tally: &mut Tally) -> Outcome<()> {
    let mut stock = Stock::new(random, FULL);
    if scene.table.bytes().len() < SMALL {
        stock = stock.with(scene.table.bytes());
    }
    let mut shelf = any_shelf(random);
    fill_places(random, &stock, shelf.bytes_mut());
    let mut shelves = Shelves::new(shelf);
    for _ in 0..random.within(1..=12) {
        if shelves.bytes().len() >= SHELF_BYTES && random.one_in(3) {
            shelves.apply(&changed_place(random, scene, shelves.bytes()));
        }
        let mut request = any_request(random, &stock, shelves.bytes());
        change(random, scene, &mut request);
        shelves.call(tally, &ShelfCall::new(random, request))?;
    }
    Ok(())
}

/// A place that is spoilt, or whose first bytes are changed in any way.
fn changed_place(random: &mut Random, scene: &Scene, shelf: &[u8]) -> Patch {
    let place = random.below(PLACES);
    if random.one_in(2) {
        let kind = random.pick(&SPOILS);
        return spoil(random, shelf, place, kind);
    }
    let length = random.below(300);
    let mut bytes = scene.changed(random, &shelf[bytes_of(place)][..length]);
    bytes.truncate(bytes_of(0).len());
    Patch::new(place, bytes)
}

/// Mostly leaves the call as it is.
fn change(random: &mut Random, scene: &Scene, request: &mut Request) {
    for input in &mut request.inputs {
        if random.one_in(4) {
            *input = scene.changed(random, input);
        }
    }
    match random.below(32) {
        0 => request.party = any_number(random),
        1 => request.place = any_number(random),
        2 => request.n = u64::from(any_number(random)),
        // Right in their low 16 bits.
        3 => request.party |= any_number(random) << 16,
        4 => request.place |= any_number(random) << 16,
        5 => request.n |= u64::from(any_number(random)) << 32,
        6 => request.room = random.below(2 * request.room + 20),
        _ => {}
    }
}
