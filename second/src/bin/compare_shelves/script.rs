//! One script: a shelf, calls on it, and changes to it between them.

use crate::apart::Apart;
use crate::progress::Progress;
use crate::seen::{is_spoilt, Made};
use crate::uses;
use second::compared::{Outcome, ShelfCall, Shelves};
use second::generate::shelves::fills::{any_shelf, fill_places};
use second::generate::shelves::spoils::{spoil, SPOILS};
use second::generate::shelves::{any_request, opening, Kind, Request, Stock};
use second::random::Random;
use second::refusal::DONE;
use second::shelf::{PLACES, SHELF_BYTES};

/// Once in so many scripts there is a table that fills its place.
const FULL: usize = 50;

pub fn compare(random: &mut Random, progress: &mut Progress) -> Outcome<()> {
    let stock = Stock::new(random, FULL);
    let mut shelf = any_shelf(random);
    let opens = !random.one_in(4);
    // Else it is any bytes, which a refused opening leaves.
    if !opens || !random.one_in(4) {
        fill_places(random, &stock, shelf.bytes_mut());
    }
    let mut script = Script { stock, shelves: Shelves::new(shelf), apart: None };
    if opens {
        let request = opening(random, &script.stock, script.shelves.bytes());
        script.step(random, request, progress)?;
    }
    if random.one_in(2) {
        let party = random.below(2) as u32;
        script.begin_apart(random, party);
    }
    for _ in 0..random.within(5..=40) {
        if random.one_in(6) {
            script.spoil(random, progress);
        }
        let request = any_request(random, &script.stock, script.shelves.bytes());
        script.step(random, request, progress)?;
    }
    Ok(())
}

struct Script {
    stock: Stock,
    shelves: Shelves,
    /// One party's calls again, in half of the scripts.
    apart: Option<Apart>,
}

impl Script {
    fn begin_apart(&mut self, random: &mut Random, party: u32) {
        self.apart = Some(Apart::new(random, &self.stock, self.shelves.bytes(), party));
    }

    fn spoil(&mut self, random: &mut Random, progress: &mut Progress) {
        if self.shelves.bytes().len() < SHELF_BYTES {
            return;
        }
        let (place, kind) = (random.below(PLACES), random.pick(&SPOILS));
        let patch = spoil(random, self.shelves.bytes(), place, kind);
        self.shelves.apply(&patch);
        if let Some(apart) = &mut self.apart {
            apart.apply(&patch);
        }
        progress.add_spoil(kind);
    }

    fn step(
        &mut self,
        random: &mut Random,
        request: Request,
        progress: &mut Progress,
    ) -> Outcome<()> {
        let call = ShelfCall::new(random, request);
        let shelf = self.shelves.bytes();
        let spoilt = call.kind == Kind::Remove && is_spoilt(shelf, call.party, call.place);
        let (answer, after) = self.shelves.call(&mut progress.tally, &call)?;
        let shelf = self.shelves.bytes();
        progress.seen.add(Made { call: &call, answer, shelf, spoilt });
        progress.uses += u64::from(uses::check(&call, shelf, answer, &after)?);
        let Some(apart) = &mut self.apart else {
            return Ok(());
        };
        if call.kind == Kind::Open && answer.number == DONE {
            let party = apart.party();
            self.begin_apart(random, party);
            return Ok(());
        }
        apart.follow(random, &self.stock, &call, (answer, &after), progress)?;
        match apart.agrees(shelf) {
            true => Ok(()),
            false => Err(call.report("other places beside other calls of the other party", &[])),
        }
    }
}
