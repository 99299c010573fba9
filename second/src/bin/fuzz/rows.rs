//! Tables, packing, unpacking and the room question.

use crate::scene::{lent, Scene};
use second::compared::{self, Outcome};
use second::generate::mutations::any_number;
use second::generate::rows::pixel_bytes;
use second::generate::runs::{run, run_words};
use second::known;
use second::memory::Given;
use second::random::Random;
use second::row::pack_under;
use second::tally::Tally;

pub fn check(random: &mut Random, scene: &Scene, tally: &mut Tally) -> Outcome<()> {
    let bytes = scene.maybe_changed(random, scene.table.bytes());
    compared::check(tally, &Given::new(random, &bytes)).map(|_| ())
}

pub fn plain_table(random: &mut Random, tally: &mut Tally) -> Outcome<()> {
    let needed = known::plain_table().len();
    compared::plain_table(tally, &lent(random, needed)).map(|_| ())
}

pub fn pack(random: &mut Random, scene: &Scene, tally: &mut Tally) -> Outcome<()> {
    let other = scene.other_table(random);
    let table = other.as_ref().unwrap_or(&scene.table);
    let pixels = scene.maybe_changed(random, &pixel_bytes(&scene.row));
    let mut ample = vec![0; 4 * 4000];
    let bits = table.codec().map_or(0, |codec| pack_under(&codec.table, &pixels, &mut ample).1);
    let lent = lent(random, 4 * bits.div_ceil(32) as usize);
    compared::pack(tally, table, &Given::new(random, &pixels), &lent).map(|_| ())
}

pub fn unpack(random: &mut Random, scene: &Scene, tally: &mut Tally) -> Outcome<()> {
    let other = scene.other_table(random);
    let table = other.as_ref().unwrap_or(&scene.table);
    let run = run(random, scene.model(), &scene.row, None);
    let words = scene.maybe_changed(random, &run_words(&run.bits));
    let n = scene.row.len() as u64;
    let n = if random.one_in(4) { count(random) } else { n };
    let lent = lent(random, 2 * n.min(5000) as usize);
    let words = Given::new(random, &words);
    compared::unpack(random, tally, table, &words, n, &lent).map(|_| ())
}

pub fn room(random: &mut Random, scene: &Scene, tally: &mut Tally) -> Outcome<()> {
    let other = scene.other_table(random);
    let table = other.as_ref().unwrap_or(&scene.table);
    compared::room(tally, table, count(random)).map(|_| ())
}

/// Any count, at times one that is small in its low 32 bits only.
pub fn count(random: &mut Random) -> u64 {
    let low = u64::from(any_number(random));
    let few = random.below(100) as u64;
    random.pick(&[few, low, low | 1 << 32, u64::MAX - low])
}
