//! What is packed and unpacked under the table of a place.

use std::sync::OnceLock;

use super::Request;
use crate::generate::rows::{pixel_bytes, row, spoil};
use crate::generate::runs::{flip, random_words, run, run_words, set_unused, Fault};
use crate::known::plain_table;
use crate::random::Random;
use crate::row::{pack_under, MAX_PIXELS};
use crate::shelf::table_used;
use crate::table::Table;

const MOST_WORDS: usize = 3456;

/// The table of the place, or the plain one where the call is refused for it.
fn model(shelf: &[u8], request: &Request) -> Table {
    static PLAIN: OnceLock<Table> = OnceLock::new();
    let found = table_used(shelf, request.party, request.place).and_then(Table::parse);
    let plain = || Table::parse(&plain_table()).expect("the plain table is accepted");
    found.unwrap_or_else(|_| PLAIN.get_or_init(plain).clone())
}

/// Mostly short.
fn row_length(random: &mut Random) -> usize {
    match random.below(100) {
        0 => random.within(41..=MAX_PIXELS),
        1..=8 => random.below(3),
        _ => random.within(0..=40),
    }
}

pub fn packing(random: &mut Random, shelf: &[u8], request: &mut Request) {
    let table = model(shelf, request);
    let length = row_length(random);
    let mut pixels = row(random, &table, length);
    match random.below(20) {
        0..=1 => spoil(random, &mut pixels),
        2 => pixels.resize(random.within(MAX_PIXELS + 1..=MAX_PIXELS + 9), 0),
        _ => {}
    }
    let mut bytes = pixel_bytes(&pixels);
    if random.one_in(8) {
        // Half a pixel, which counts for nothing.
        bytes.push(random.next_u32() as u8);
    }
    let bits = pack_under(&table, &bytes, &mut [0; 4 * MOST_WORDS]).1;
    let needed = 4 * bits.div_ceil(32) as usize;
    request.room = lent(random, needed);
    request.inputs.push(bytes);
}

/// A run for a row, sound or damaged, and words that need not be looked at.
pub fn unpacking(random: &mut Random, shelf: &[u8], request: &mut Request) {
    let table = model(shelf, request);
    let length = row_length(random);
    let row = row(random, &table, length);
    let fault = (length > 0 && random.one_in(4))
        .then(|| (random.below(length), random.pick(&[Fault::EscapedBad, Fault::Height])));
    let run = run(random, &table, &row, fault);
    let mut words = run_words(&run.bits);
    request.n = length as u64;
    damage(random, &mut words, run.bits.len(), &mut request.n);
    if random.one_in(3) {
        let (more, odd) = (random.below(4), random.below(4));
        words.extend(random_words(random, more));
        words.extend(random.bytes(odd));
    }
    let needed = 2 * request.n as usize;
    request.room = lent(random, needed);
    if random.one_in(20) {
        request.n = count(random);
    }
    request.inputs.push(words);
}

fn damage(random: &mut Random, words: &mut Vec<u8>, bits: usize, n: &mut u64) {
    match random.below(10) {
        0 => {
            set_unused(random, words, bits);
        }
        1 => flip(random, words),
        2 => words.truncate(4 * random.below(words.len() / 4 + 1)),
        3 => *words = random_words(random, 20),
        4 => *n += random.within(1..=5) as u64,
        5 => *n = random.below(*n as usize + 1) as u64,
        _ => {}
    }
}

/// Enough, or one byte too few, or any.
fn lent(random: &mut Random, needed: usize) -> usize {
    match random.below(12) {
        0 => needed.saturating_sub(1),
        1 => random.below(needed + 1),
        _ => needed + random.pick(&[0, 0, 1, 2, 7]),
    }
}

/// Pixels to ask for, at times too many, at times few in the low 32 bits only.
pub fn count(random: &mut Random) -> u64 {
    let few = random.below(MAX_PIXELS + 1) as u64;
    let most = MAX_PIXELS as u64;
    random.pick(&[few, few, few, 0, most, most + 1, few + (1 << 32), u64::MAX - few])
}
