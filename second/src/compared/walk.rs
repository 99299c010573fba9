//! A reader taken to its end and past it, and held against the row call.

use super::{Items, Outcome};
use crate::answers::{ReaderOpened, ReaderPlace, Unpacked};
use crate::ffi;
use crate::generate::places::odd_place;
use crate::memory::Lent;
use crate::random::Random;
use crate::refusal::{DONE, TOO_MANY, UNUSED_BIT};
use crate::row::MAX_PIXELS;
use crate::tally::Tally;

/// What a reader gave up to its first refusal.
struct Walk {
    pixels: Vec<u8>,
    /// The bit place after so many items.
    places: Vec<u32>,
    opening: u32,
    refused: u32,
}

/// Opens a reader and takes items until it refuses.
pub fn walk(random: &mut Random, tally: &mut Tally, items: Items) -> Outcome<()> {
    let opened = items.open(random, tally)?;
    let walk = take_all(random, tally, items, opened)?;
    check_rows(random, items, &walk).map_err(|what| items.report(opened.place, &what))
}

fn take_all(
    random: &mut Random,
    tally: &mut Tally,
    items: Items,
    opened: ReaderOpened,
) -> Outcome<Walk> {
    let lent = Items::lent(random);
    let worst = items.table.codec().map_or(0, |codec| codec.table.worst);
    let opening = opened.number;
    let mut walk = Walk { pixels: Vec::new(), places: vec![0], opening, refused: DONE };
    let mut place = opened.place;
    loop {
        let item = items.next(tally, place, &lent)?;
        if item.number != DONE {
            // Once more from the place answered: a refusal moves nothing.
            let again = items.next(tally, item.place, &lent)?;
            if again != item || item.place != place {
                return Err(items.report(place, &format!("moved: {item:?}, then {again:?}")));
            }
            odd_places(random, tally, items, place, &lent)?;
            walk.refused = item.number;
            return Ok(walk);
        }
        if item.place.at > place.at + worst {
            return Err(items.report(place, &format!("more than M bits: {item:?}")));
        }
        walk.pixels.extend((item.pixel as u16).to_le_bytes());
        walk.places.push(item.place.at);
        place = item.place;
    }
}

/// Items at places that the walk need not have come to.
fn odd_places(
    random: &mut Random,
    tally: &mut Tally,
    items: Items,
    place: ReaderPlace,
    lent: &Lent,
) -> Outcome<()> {
    for _ in 0..4 {
        let odd = odd_place(random, place);
        items.next(tally, odd, lent)?;
    }
    Ok(())
}

/// Row calls of as many pixels as were given, of fewer and of more.
fn check_rows(random: &mut Random, items: Items, walk: &Walk) -> Result<(), String> {
    let given = walk.given();
    for n in [given, random.below(given + 1), given + 1 + random.below(3)] {
        let mut pixels = vec![0; 2 * n];
        let (table, words) = (items.table.bytes(), items.words.bytes());
        let answer = ffi::unpack(table, words, n as u64, &mut pixels);
        if !walk.agrees(n, answer, &pixels) {
            let Walk { opening, refused, .. } = walk;
            let reader = format!("opening {opening}, {given} items, then {refused}");
            return Err(format!("{reader}; a row of {n}: {answer:?}"));
        }
    }
    Ok(())
}

impl Walk {
    fn given(&self) -> usize {
        self.places.len() - 1
    }

    /// Whether a row call's answer and pixels are what the items demand.
    fn agrees(&self, n: usize, answer: Unpacked, pixels: &[u8]) -> bool {
        if self.opening != DONE {
            return answer == Unpacked::refused(self.opening);
        }
        if n > MAX_PIXELS {
            return answer == Unpacked::refused(TOO_MANY);
        }
        let given = self.given();
        if n > given {
            // The reader was refused at the place that it had come to.
            return answer == Unpacked::stopped(self.refused, self.places[given]);
        }
        let done = answer == Unpacked::done(self.places[n]) && *pixels == self.pixels[..2 * n];
        done || answer == Unpacked::stopped(UNUSED_BIT, self.places[n])
    }
}
