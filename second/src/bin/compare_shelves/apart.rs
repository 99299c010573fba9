//! A shelf on which one party makes the calls of a script again, while the
//! other party's places hold other things and its calls are others: everything
//! that the one party gets must be the same. An opening that is done ends this,
//! and it begins anew.

use std::ops::Range;

use crate::progress::Progress;
use second::answers::Unpacked;
use second::compared::{Outcome, ShelfCall};
use second::generate::shelves::fills::fill_place;
use second::generate::shelves::spoils::{spoil, Patch, SPOILS};
use second::generate::shelves::{refused_opening, request_of, Kind, Stock};
use second::memory::Lent;
use second::random::Random;
use second::shelf::{bytes_of, own_places, COMMON, SHELF_BYTES};

pub struct Apart {
    party: u32,
    shelf: Lent,
}

impl Apart {
    /// The other party's places, and what is behind all places, become others.
    pub fn new(random: &mut Random, stock: &Stock, shelf: &[u8], party: u32) -> Apart {
        let mut other = Lent::new(random, shelf.len());
        let same = shelf.len().min(SHELF_BYTES);
        other.bytes_mut()[..same].copy_from_slice(&shelf[..same]);
        for place in own(1 - party) {
            fill_place(random, stock, other.bytes_mut(), place);
        }
        Apart { party, shelf: other }
    }

    pub fn party(&self) -> u32 {
        self.party
    }

    /// Follows a change to a place that this party may use.
    pub fn apply(&mut self, patch: &Patch) {
        if !own(1 - self.party).contains(&patch.place) {
            patch.apply(self.shelf.bytes_mut());
        }
    }

    /// Makes a call of the script again, if it is this party's, and some of the
    /// other party.
    pub fn follow(
        &mut self,
        random: &mut Random,
        stock: &Stock,
        call: &ShelfCall,
        (answer, after): (Unpacked, &Lent),
        progress: &mut Progress,
    ) -> Outcome<()> {
        for _ in 0..random.below(3) {
            self.disturb(random, stock);
            progress.others += 1;
        }
        if call.party != self.party || call.kind == Kind::Open {
            return Ok(());
        }
        progress.again += 1;
        let mut memory = call.lent.clone();
        let again = call.proved(self.shelf.bytes_mut(), memory.bytes_mut());
        if again == answer && memory == *after {
            return Ok(());
        }
        let what = format!("{answer:?}, but {again:?} beside other calls of the other party");
        let shelf = ("the other shelf", self.shelf.bytes());
        Err(call.report(&what, &[("after", after.bytes()), ("again", memory.bytes()), shelf]))
    }

    /// A call of the other party or of nobody, an opening that is refused, or a
    /// change to one of its places.
    fn disturb(&mut self, random: &mut Random, stock: &Stock) {
        let (other, shelf) = (1 - self.party, self.shelf.bytes());
        let request = match random.below(12) {
            0 => refused_opening(random, stock, shelf),
            1 if shelf.len() >= SHELF_BYTES => return self.spoil(random),
            2 => request_of(random, stock, shelf, 2 + other),
            _ => request_of(random, stock, shelf, other),
        };
        let call = ShelfCall::new(random, request);
        let mut memory = call.lent.clone();
        call.proved(self.shelf.bytes_mut(), memory.bytes_mut());
    }

    fn spoil(&mut self, random: &mut Random) {
        let own = own(1 - self.party);
        let place = random.within(own.start..=own.end - 1);
        let kind = random.pick(&SPOILS);
        let patch = spoil(random, self.shelf.bytes(), place, kind);
        patch.apply(self.shelf.bytes_mut());
    }

    /// Whether the common places and this party's own are the same as here.
    pub fn agrees(&self, shelf: &[u8]) -> bool {
        let bytes = |places: Range<usize>| bytes_of(places.start).start..bytes_of(places.end).start;
        let same = |range: Range<usize>| self.shelf.bytes().get(range.clone()) == shelf.get(range);
        same(bytes(COMMON)) && same(bytes(own(self.party)))
    }
}

fn own(party: u32) -> Range<usize> {
    own_places(party).expect("a party of the two")
}
