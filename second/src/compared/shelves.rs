//! A shelf of tables.

use std::fmt::Debug;
use std::ops::Range;

use super::{counted, Outcome};
use crate::agreement::Call;
use crate::answers::{Answer, Changed, Unpacked};
use crate::ffi;
use crate::generate::shelves::spoils::Patch;
use crate::generate::shelves::{Kind, Request};
use crate::memory::{Given, Lent};
use crate::random::Random;
use crate::refusal::DONE;
use crate::shelf::{self, bytes_of, SHELF_BYTES};
use crate::tally::Tally;

/// A call on a shelf, with all that it is given beside it.
pub struct ShelfCall {
    pub kind: Kind,
    /// The bytes of the shelf that it is told of.
    pub length: usize,
    pub party: u32,
    pub place: u32,
    pub n: u64,
    inputs: Vec<Given>,
    pub lent: Lent,
}

type Packing = fn(&[u8], u32, u32, &[u8], &mut [u8]) -> Answer;
type Unpacking = fn(&[u8], u32, u32, &[u8], u64, &mut [u8]) -> Unpacked;

/// The calls as one side has them.
struct Side {
    open: fn([&[u8]; 4], &mut [u8]) -> Answer,
    put: fn(&mut [u8], u32, &[u8]) -> Changed,
    remove: fn(&mut [u8], u32, u32) -> Changed,
    pack: Packing,
    unpack: Unpacking,
    room: fn(&[u8], u32, u32, u64) -> Answer,
}

const PROVED: Side = Side {
    open: ffi::shelf_open,
    put: ffi::shelf_put,
    remove: ffi::shelf_remove,
    pack: ffi::shelf_pack,
    unpack: ffi::shelf_unpack,
    room: ffi::shelf_room,
};

const SECOND: Side = Side {
    open: shelf::open,
    put: shelf::put,
    remove: shelf::remove,
    pack: shelf::pack,
    unpack: shelf::unpack,
    room: shelf::room,
};

impl ShelfCall {
    pub fn new(random: &mut Random, request: Request) -> ShelfCall {
        let Request { kind, length, party, place, n, inputs, room } = request;
        let inputs = inputs.iter().map(|input| Given::new(random, input)).collect();
        ShelfCall { kind, length, party, place, n, inputs, lent: Lent::new(random, room) }
    }

    /// The first input: a table, pixels or words.
    pub fn input(&self) -> &[u8] {
        self.inputs[0].bytes()
    }

    /// Made by the library on a shelf, with this memory lent beside it. A place
    /// that has changed stands for the count.
    pub fn proved(&self, shelf: &mut [u8], lent: &mut [u8]) -> Unpacked {
        self.made(&PROVED, &mut shelf[..self.length], lent)
    }

    fn made(&self, side: &Side, shelf: &mut [u8], lent: &mut [u8]) -> Unpacked {
        let ShelfCall { party, place, n, .. } = *self;
        let answer = |Answer { number, count }| Unpacked { number, count, at: 0 };
        let changed = |Changed { number, place }| Unpacked { number, count: place, at: 0 };
        match self.kind {
            Kind::Open => answer((side.open)(self.tables(), shelf)),
            Kind::Put => changed((side.put)(shelf, party, self.input())),
            Kind::Remove => changed((side.remove)(shelf, party, place)),
            Kind::Pack => answer((side.pack)(shelf, party, place, self.input(), lent)),
            Kind::Unpack => (side.unpack)(shelf, party, place, self.input(), n, lent),
            Kind::Room => answer((side.room)(shelf, party, place, n)),
        }
    }

    fn tables(&self) -> [&[u8]; 4] {
        [0, 1, 2, 3].map(|index: usize| self.inputs[index].bytes())
    }

    fn name(&self) -> &'static str {
        let [long, short] = match self.kind {
            Kind::Open => ["shelf_open", "shelf_open short"],
            Kind::Put => ["shelf_put", "shelf_put short"],
            Kind::Remove => ["shelf_remove", "shelf_remove short"],
            Kind::Pack => ["shelf_pack", "shelf_pack short"],
            Kind::Unpack => ["shelf_unpack", "shelf_unpack short"],
            Kind::Room => ["shelf_room", "shelf_room short"],
        };
        if self.length < SHELF_BYTES {
            short
        } else {
            long
        }
    }

    /// The bytes of the memory beside the shelf that such an answer has written.
    fn written(&self, answer: Unpacked) -> usize {
        match self.kind {
            Kind::Pack => 4 * answer.count.div_ceil(32) as usize,
            Kind::Unpack if answer.number == DONE => 2 * self.n as usize,
            _ => 0,
        }
    }

    /// The bytes of the shelf that such an answer has written.
    fn changed(&self, answer: Unpacked) -> Range<usize> {
        match self.kind {
            Kind::Open if answer.number == DONE => 0..SHELF_BYTES,
            Kind::Put | Kind::Remove if answer.number == DONE => bytes_of(answer.count as usize),
            _ => 0..0,
        }
    }

    /// The text of a report of something wrong, with other memory if need be.
    pub fn report(&self, what: &str, memory: &[(&str, &[u8])]) -> String {
        self.with_call(|call| call.report(what, memory))
    }

    fn with_call<T>(&self, act: impl FnOnce(&Call) -> T) -> T {
        let numbers: &dyn Debug = &(self.length, self.party, self.place, self.n);
        let inputs: Vec<_> = self.inputs.iter().map(|input| ("input", input)).collect();
        act(&Call { name: self.name(), numbers, inputs: &inputs, lent: &self.lent })
    }
}

/// A shelf as the calls of either side have left it.
pub struct Shelves {
    proved: Lent,
    second: Lent,
    /// As it was before the call, and is between calls.
    before: Lent,
}

impl Shelves {
    pub fn new(shelf: Lent) -> Shelves {
        Shelves { proved: shelf.clone(), second: shelf.clone(), before: shelf }
    }

    pub fn bytes(&self) -> &[u8] {
        self.before.bytes()
    }

    pub fn apply(&mut self, patch: &Patch) {
        for shelf in [&mut self.proved, &mut self.second, &mut self.before] {
            patch.apply(shelf.bytes_mut());
        }
    }

    /// Makes the call on both sides; all memory, the whole shelf too, must be
    /// the same afterwards. Gives the answer and the memory beside the shelf.
    pub fn call(&mut self, tally: &mut Tally, call: &ShelfCall) -> Outcome<(Unpacked, Lent)> {
        let (proved, second) = (&mut self.proved, &mut self.second);
        let by_proved = |lent: &mut [u8]| call.proved(proved.bytes_mut(), lent);
        let by_second =
            |lent: &mut [u8]| call.made(&SECOND, &mut second.bytes_mut()[..call.length], lent);
        let written = |answer| call.written(answer);
        let (answer, after) =
            call.with_call(|made| counted(tally, made, by_proved, by_second, written))?;
        let changed = call.changed(answer);
        if self.proved != self.second {
            return Err(self.report(call, &format!("shelves after {answer:?}")));
        }
        if !self.proved.same_outside(&self.before, changed.clone()) {
            return Err(self.report(call, &format!("other places of the shelf after {answer:?}")));
        }
        self.before.bytes_mut()[changed.clone()].copy_from_slice(&self.proved.bytes()[changed]);
        Ok((answer, after))
    }

    /// The text of a report of something wrong with this call.
    fn report(&self, call: &ShelfCall, what: &str) -> String {
        let shelves = [
            ("shelf before", self.before.bytes()),
            ("shelf by proved", self.proved.bytes()),
            ("shelf by second", self.second.bytes()),
        ];
        call.report(what, &shelves)
    }
}
