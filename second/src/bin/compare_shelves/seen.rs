//! The cases that the rules of the shelf tell apart, and how often each was
//! seen.

use second::answers::Unpacked;
use second::compared::ShelfCall;
use second::generate::shelves::Kind;
use second::refusal::{DONE, NOT_ITS_PLACE, NO_TABLE, PREFIX, SHELF_FULL, TABLE_SHAPE};
use second::shelf::{bytes_of, own_places, table_used, PLACE_BYTES, SHELF_BYTES};
use second::table::check;

#[derive(Clone, Copy)]
enum Case {
    LongerOpened,
    LongerChanged,
    PutBelow,
    PutFull,
    SpoiltTaken,
    BadAndNoPlace,
    SpoiltRemoved,
    FreeOfOther,
    BytesAfter,
}

use Case::*;

/// Every case must be reached.
const CASES: [(Case, &str); 9] = [
    (LongerOpened, "openings of a longer shelf, which keeps its rest"),
    (LongerChanged, "puts and removals on one"),
    (PutBelow, "puts below a place that is taken"),
    (PutFull, "puts of a table that fills its place"),
    (SpoiltTaken, "puts refused with a spoilt table in one of the four places"),
    (BadAndNoPlace, "puts of a bad table where all four are taken"),
    (SpoiltRemoved, "removals of a spoilt table"),
    (FreeOfOther, "free places of the other party, refused 24"),
    (BytesAfter, "uses of a table with other bytes than zeros after it"),
];

#[derive(Default)]
pub struct Seen {
    counts: [u64; CASES.len()],
}

impl Seen {
    pub fn add(&mut self, made: Made) {
        for (&(case, _), count) in CASES.iter().zip(&mut self.counts) {
            *count += u64::from(made.shows(case));
        }
    }

    pub fn text(&self) -> String {
        let line = |(&(_, name), count): (&(Case, &str), &u64)| format!("{count:>9}  {name}\n");
        CASES.iter().zip(&self.counts).map(line).collect()
    }

    /// The cases never seen.
    pub fn missed(&self) -> impl Iterator<Item = String> + '_ {
        let never = CASES.iter().zip(&self.counts).filter(|(_, &count)| count == 0);
        never.map(|((_, name), _)| name.to_string())
    }
}

/// A call that was made.
pub struct Made<'a> {
    pub call: &'a ShelfCall,
    pub answer: Unpacked,
    /// As the call has left it.
    pub shelf: &'a [u8],
    /// Whether it removes a table, done or not, that had been spoilt.
    pub spoilt: bool,
}

impl Made<'_> {
    fn shows(&self, case: Case) -> bool {
        let Made { call, answer: Unpacked { number, count, .. }, .. } = *self;
        let longer = call.length > SHELF_BYTES;
        let done = |kind| call.kind == kind && number == DONE;
        match case {
            LongerOpened => longer && done(Kind::Open),
            LongerChanged => longer && (done(Kind::Put) || done(Kind::Remove)),
            PutBelow => done(Kind::Put) && self.own().any(|place| place > count && self.has(place)),
            PutFull => done(Kind::Put) && call.input().len() == PLACE_BYTES,
            SpoiltTaken => {
                let is_spoilt = |place| is_spoilt(self.shelf, call.party, place);
                number == SHELF_FULL && self.own().any(is_spoilt)
            }
            BadAndNoPlace => {
                let bad = call.kind == Kind::Put && (TABLE_SHAPE..=PREFIX).contains(&number);
                bad && self.own().all(|place| self.has(place))
            }
            SpoiltRemoved => self.spoilt && done(Kind::Remove),
            FreeOfOther => number == NOT_ITS_PLACE && self.names_free_of_other(),
            BytesAfter => number == DONE && self.has_bytes_after(),
        }
    }

    /// The party's own places.
    fn own(&self) -> impl Iterator<Item = u32> {
        own_places(self.call.party).unwrap_or(0..0).map(|place| place as u32)
    }

    /// Whether a place of the party is taken, by whatever table.
    fn has(&self, place: u32) -> bool {
        table_used(self.shelf, self.call.party, place) != Err(NO_TABLE)
    }

    fn names_free_of_other(&self) -> bool {
        let (other, place) = (1u32.wrapping_sub(self.call.party), self.call.place);
        let names_place = !matches!(self.call.kind, Kind::Open | Kind::Put);
        let is_its = own_places(other).is_ok_and(|own| own.contains(&(place as usize)));
        names_place && is_its && table_used(self.shelf, other, place) == Err(NO_TABLE)
    }

    fn has_bytes_after(&self) -> bool {
        if !matches!(self.call.kind, Kind::Pack | Kind::Unpack | Kind::Room) {
            return false;
        }
        let Ok(table) = table_used(self.shelf, self.call.party, self.call.place) else {
            return false;
        };
        let place = &self.shelf[bytes_of(self.call.place as usize)];
        place[table.len()..].iter().any(|&byte| byte != 0)
    }
}

/// Whether the table of a place is refused.
pub fn is_spoilt(shelf: &[u8], party: u32, place: u32) -> bool {
    let number = table_used(shelf, party, place).map_or_else(|number| number, |t| check(t).0);
    (TABLE_SHAPE..=PREFIX).contains(&number)
}
