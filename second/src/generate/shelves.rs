//! Random calls on a shelf of tables.

pub mod fills;
pub mod spoils;
mod stock;
mod uses;

#[cfg(test)]
mod tests;

use crate::random::Random;
use crate::shelf::{own_places, table_used, COMMON, PLACES, SHELF_BYTES};
pub use stock::Stock;

#[derive(Clone, Copy, PartialEq, Eq, Debug)]
pub enum Kind {
    Open,
    Put,
    Remove,
    Pack,
    Unpack,
    Room,
}

use Kind::*;

/// A call, with all that it is given beside the shelf.
pub struct Request {
    pub kind: Kind,
    /// The bytes of the shelf that it is told of.
    pub length: usize,
    pub party: u32,
    pub place: u32,
    /// The pixels of an unpacking or of the room question.
    pub n: u64,
    /// Four tables, one, pixels, or words.
    pub inputs: Vec<Vec<u8>>,
    /// The bytes lent beside the shelf.
    pub room: usize,
}

/// Any call of either party, at times of nobody.
pub fn any_request(random: &mut Random, stock: &Stock, shelf: &[u8]) -> Request {
    match random.one_in(30) {
        true => opening(random, stock, shelf),
        false => {
            let party = any_party(random);
            request_of(random, stock, shelf, party)
        }
    }
}

/// Any call of this party.
pub fn request_of(random: &mut Random, stock: &Stock, shelf: &[u8], party: u32) -> Request {
    // So many puts that all places of a party are taken at times.
    let kind = random.pick(&[Put, Put, Put, Put, Remove, Pack, Pack, Unpack, Unpack, Unpack, Room]);
    let place = any_place(random, kind, shelf, party);
    let mut request = Request { party, place, ..plain(random, kind, shelf) };
    match kind {
        Put => request.inputs.push(stock.any(random).to_vec()),
        Pack => uses::packing(random, shelf, &mut request),
        Unpack => uses::unpacking(random, shelf, &mut request),
        Room => request.n = uses::count(random),
        Open | Remove => {}
    }
    request
}

/// An opening, mostly with tables that are accepted.
pub fn opening(random: &mut Random, stock: &Stock, shelf: &[u8]) -> Request {
    let sound = random.one_in(2);
    let table = |random: &mut Random| match sound {
        true => stock.good(random).to_vec(),
        false => stock.any(random).to_vec(),
    };
    let inputs = (0..4).map(|_| table(random)).collect();
    Request { inputs, ..plain(random, Open, shelf) }
}

/// An opening that is refused, for a table or for the shelf's length.
pub fn refused_opening(random: &mut Random, stock: &Stock, shelf: &[u8]) -> Request {
    let mut request = opening(random, stock, shelf);
    if random.one_in(2) {
        // Less than a table's head is refused by any check.
        request.inputs[random.below(4)].truncate(20);
    } else {
        request.length = short(random).min(shelf.len());
    }
    request
}

fn plain(random: &mut Random, kind: Kind, shelf: &[u8]) -> Request {
    let length = any_length(random, shelf.len());
    Request { kind, length, party: 0, place: 0, n: 0, inputs: Vec::new(), room: 0 }
}

/// Mostly the whole shelf.
fn any_length(random: &mut Random, whole: usize) -> usize {
    match random.below(24) {
        0 => short(random).min(whole),
        1..=3 => whole.min(SHELF_BYTES),
        _ => whole,
    }
}

/// The length of a shelf that is too short.
pub fn short(random: &mut Random) -> usize {
    let any = random.below(SHELF_BYTES);
    random.pick(&[SHELF_BYTES - 1, SHELF_BYTES - 1, SHELF_BYTES - 4, 0, any])
}

fn any_party(random: &mut Random) -> u32 {
    let (party, any) = (random.below(2) as u32, random.next_u32());
    match random.below(12) {
        // Some are right in their low bits.
        0 => random.pick(&[2, 3, 7, 256 + party, 1 << 16 | party, 1 << 31 | party, u32::MAX, any]),
        _ => party,
    }
}

/// Mostly one that the party may name, and that has a table.
fn any_place(random: &mut Random, kind: Kind, shelf: &[u8], party: u32) -> u32 {
    let own = own_places(party).unwrap_or(4..8);
    let own = own.start as u32..own.end as u32;
    match random.below(20) {
        0 => unknown_place(random, own.start),
        1..=2 => random.below(PLACES) as u32,
        3..=7 if kind != Remove => random.below(COMMON.end) as u32,
        8..=9 => own.start + random.below(own.len()) as u32,
        _ => {
            let taken = |&place: &u32| table_used(shelf, party, place).is_ok();
            let taken: Vec<u32> = own.clone().filter(taken).collect();
            let any = own.start + random.below(own.len()) as u32;
            taken.get(random.below(taken.len().max(1))).copied().unwrap_or(any)
        }
    }
}

fn unknown_place(random: &mut Random, own: u32) -> u32 {
    let any = random.next_u32().max(PLACES as u32);
    let near = random.pick(&[12, 13, 16]);
    random.pick(&[near, 256 + own, 1 << 16 | own, 1 << 31 | own, u32::MAX, any])
}
