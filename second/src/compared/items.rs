//! The reader that gives one item a call.

use std::mem::size_of;

use super::{counted, Outcome};
use crate::agreement::Call;
use crate::answers::{ItemRead, ReaderOpened, ReaderPlace};
use crate::ffi;
use crate::items;
use crate::memory::{Given, Lent};
use crate::opened::Opened;
use crate::random::Random;
use crate::tally::Tally;

/// What a reader of items reads.
#[derive(Clone, Copy)]
pub struct Items<'a> {
    pub table: &'a Opened,
    pub words: &'a Given,
}

impl Items<'_> {
    pub fn open(&self, random: &mut Random, tally: &mut Tally) -> Outcome<ReaderOpened> {
        let lent = Lent::aligned(random, size_of::<ReaderOpened>());
        let inputs = [("table", &self.table.given)];
        let call = Call { name: "open", numbers: &(), inputs: &inputs, lent: &lent };
        let proved = |memory: &mut [u8]| ffi::open(self.table.bytes(), memory);
        let second = |memory: &mut [u8]| {
            let opened = items::open(self.table.codec());
            memory.copy_from_slice(&opened.bytes());
            opened
        };
        let size = |_| size_of::<ReaderOpened>();
        counted(tally, &call, proved, second, size).map(|(opened, _)| opened)
    }

    /// Memory for the answer to the next item.
    pub fn lent(random: &mut Random) -> Lent {
        Lent::aligned(random, size_of::<ItemRead>())
    }

    /// The item at a place; all of the answer's memory is compared.
    pub fn next(&self, tally: &mut Tally, place: ReaderPlace, lent: &Lent) -> Outcome<ItemRead> {
        let inputs = self.inputs();
        let call = Call { name: "next", numbers: &place, inputs: &inputs, lent };
        let (table, words) = (self.table, self.words.bytes());
        let proved = |memory: &mut [u8]| ffi::next_item(table.bytes(), words, place, memory);
        let second = |memory: &mut [u8]| {
            let item = items::next_item(table.codec(), words, place);
            memory.copy_from_slice(&item.bytes());
            item
        };
        counted(tally, &call, proved, second, |_| size_of::<ItemRead>()).map(|(item, _)| item)
    }

    /// The text of a report of something wrong that both sides agree on.
    pub fn report(&self, place: ReaderPlace, what: &str) -> String {
        let (lent, inputs) = (Lent::nothing(), self.inputs());
        let call = Call { name: "next", numbers: &place, inputs: &inputs, lent: &lent };
        call.report(what, &[])
    }

    fn inputs(&self) -> [(&str, &Given); 2] {
        [("table", &self.table.given), ("words", self.words)]
    }
}
