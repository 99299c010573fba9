//! Pressure mat maps.

use crate::rows::count;
use crate::scene::{lent, Scene};
use second::calls;
use second::compared::{MapReading, MapWriting, Outcome};
use second::generate::maps::flaws::{change, changes, Change};
use second::generate::mutations::any_number;
use second::map::{most_bytes, read_any_total, COUNTS, GROUPS};
use second::memory::{Given, Lent};
use second::random::Random;
use second::tally::Tally;

const COUNT_BYTES: usize = 2 * COUNTS;

/// A map that is changed in its fields, as bytes, or in both ways. The total is
/// mostly the one that it comes to.
pub fn read(random: &mut Random, scene: &Scene, tally: &mut Tally) -> Outcome<()> {
    let kind = random.pick(&changes());
    let kind = random.pick(&[Change::Nothing, kind]);
    let reading = change(random, &scene.map, kind);
    let bytes = match random.one_in(2) {
        true => scene.changed(random, &reading.bytes),
        false => reading.bytes,
    };
    let group = any_group(random, reading.group);
    let total = match random.below(4) {
        0 => reading.total,
        1 => count(random),
        _ => read_any_total(group, &bytes).map_or(reading.total, |map| map.photons),
    };
    let bytes = Given::new(random, &bytes);
    let reading = MapReading { group, bytes: &bytes, total };
    reading.read(tally, &mostly_enough(random, COUNT_BYTES)).map(|_| ())
}

/// Counts of which some are changed, mostly as many as a map has.
pub fn write(random: &mut Random, scene: &Scene, tally: &mut Tally) -> Outcome<()> {
    let mut counts = scene.maybe_changed(random, &scene.map.count_bytes());
    if !random.one_in(4) {
        counts.resize(COUNT_BYTES + random.pick(&[0, 1]), 0);
    }
    let group = any_group(random, scene.map.group);
    let mut ample = vec![0; most_bytes(GROUPS[0])];
    let needed = calls::write_map(group, &counts, &mut ample).count as usize;
    let counts = Given::new(random, &counts);
    let writing = MapWriting { group, counts: &counts };
    writing.write(tally, &mostly_enough(random, needed)).map(|_| ())
}

/// A map takes long to make, and where there is no room for it nothing of it is
/// looked at or kept.
fn mostly_enough(random: &mut Random, needed: usize) -> Lent {
    match random.one_in(6) {
        true => lent(random, needed),
        false => Lent::new(random, needed),
    }
}

/// Mostly this one.
fn any_group(random: &mut Random, group: u32) -> u32 {
    match random.below(16) {
        0 => any_number(random),
        // Right in its low 16 bits.
        1 => group | any_number(random) << 16,
        2 => random.pick(&GROUPS),
        _ => group,
    }
}
