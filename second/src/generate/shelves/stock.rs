//! The tables that the calls of one script are given.

use crate::generate::damage::{damaged_table, damages};
use crate::generate::tables::{table, SHAPES};
use crate::random::Random;
use crate::table::MAX_ENTRIES;

const GOOD: usize = 6;
const BAD: usize = 4;

pub struct Stock {
    good: Vec<Vec<u8>>,
    bad: Vec<Vec<u8>>,
}

impl Stock {
    /// Once in so many a table is among them that fills its place.
    pub fn new(random: &mut Random, full: usize) -> Stock {
        let mut good: Vec<Vec<u8>> = (0..GOOD).map(|_| good_table(random)).collect();
        if random.one_in(full) {
            good[0] = table_of(random, MAX_ENTRIES as usize);
        }
        let bad = (0..BAD).map(|_| bad_table(random)).collect();
        Stock { good, bad }
    }

    /// With this table too, which is accepted.
    pub fn with(mut self, table: &[u8]) -> Stock {
        self.good.push(table.to_vec());
        self
    }

    pub fn good(&self, random: &mut Random) -> &[u8] {
        &self.good[random.below(self.good.len())]
    }

    /// Mostly one that is accepted.
    pub fn any(&self, random: &mut Random) -> &[u8] {
        match random.one_in(6) {
            true => &self.bad[random.below(BAD)],
            false => self.good(random),
        }
    }
}

/// Mostly small: each call checks its table.
fn good_table(random: &mut Random) -> Vec<u8> {
    let entries = match random.below(40) {
        0 => random.within(65..=400),
        1..=4 => random.within(25..=64),
        _ => random.within(1..=24),
    };
    table_of(random, entries)
}

fn table_of(random: &mut Random, entries: usize) -> Vec<u8> {
    let shape = random.pick(&SHAPES);
    table(random, shape, entries).bytes()
}

fn bad_table(random: &mut Random) -> Vec<u8> {
    let damage = random.pick(&damages());
    damaged_table(random, damage)
}
