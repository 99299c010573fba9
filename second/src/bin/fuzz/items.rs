//! The reader that gives one item a call.

use crate::scene::Scene;
use second::answers::ReaderPlace;
use second::compared::{walk, Items, Outcome};
use second::generate::places::odd_place;
use second::generate::runs::{run, run_words};
use second::memory::Given;
use second::random::Random;
use second::refusal::DONE;
use second::tally::Tally;

/// Opens a reader of changed words and takes some items, or all.
pub fn read(random: &mut Random, scene: &Scene, tally: &mut Tally) -> Outcome<()> {
    let other = scene.other_table(random);
    let table = other.as_ref().unwrap_or(&scene.table);
    let run = run(random, scene.model(), &scene.row, None);
    let words = scene.maybe_changed(random, &run_words(&run.bits));
    let words = Given::new(random, &words);
    let items = Items { table, words: &words };
    // Reading to the end checks the table for every item.
    if table.bytes().len() < 1000 && random.one_in(20) {
        return walk(random, tally, items);
    }
    let place = some(random, tally, items)?;
    let place = odd_place(random, place);
    let lent = Items::lent(random);
    items.next(tally, place, &lent).map(|_| ())
}

/// Takes a few items; gives the place after them.
fn some(random: &mut Random, tally: &mut Tally, items: Items) -> Outcome<ReaderPlace> {
    let lent = Items::lent(random);
    let mut place = items.open(random, tally)?.place;
    for _ in 0..random.below(12) {
        let item = items.next(tally, place, &lent)?;
        if item.number != DONE {
            break;
        }
        place = item.place;
    }
    Ok(place)
}
