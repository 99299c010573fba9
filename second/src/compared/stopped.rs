//! What must hold of the place where the reading of a row stopped, by other
//! calls of the library on the same words.

use crate::answers::Unpacked;
use crate::ffi;
use crate::opened::Opened;
use crate::random::Random;
use crate::reader::{Codec, Cursor};
use crate::refusal::{has_place, UNUSED_BIT};
use crate::row::MAX_PIXELS;

/// Holds the answer of a row call of `n` pixels against others. Says what is
/// wrong.
pub fn check_stopped(
    random: &mut Random,
    table: &Opened,
    words: &[u8],
    n: u64,
    answer: Unpacked,
) -> Result<(), String> {
    let Unpacked { number, at, .. } = answer;
    let codec = match table.codec() {
        Ok(codec) if has_place(number) => codec,
        _ if at == 0 => return Ok(()),
        _ => return Err(format!("a place that the number has not: {answer:?}")),
    };
    if u64::from(at) > n * u64::from(codec.table.worst) {
        return Err(format!("more than n times M bits before the place: {answer:?}"));
    }
    if at as usize > 32 * (words.len() / 4) {
        return Err(format!("the place is past the words: {answer:?}"));
    }
    let stop = Stop { table, words, n, answer };
    if number == UNUSED_BIT {
        stop.check_unused()
    } else {
        stop.check_item(random, codec)
    }
}

struct Stop<'a> {
    table: &'a Opened,
    words: &'a [u8],
    n: u64,
    answer: Unpacked,
}

impl Stop<'_> {
    fn unpack(&self, words: &[u8], n: usize) -> Unpacked {
        ffi::unpack(self.table.bytes(), words, n as u64, &mut vec![0; 2 * n])
    }

    /// 10: with the bits from the place on cleared, the row is read and uses
    /// the bits before it.
    fn check_unused(&self) -> Result<(), String> {
        let (mut words, at) = (self.words.to_vec(), self.answer.at as usize);
        for place in at..at.next_multiple_of(32) {
            words[place / 8] &= !(1 << (place % 8));
        }
        let cleared = self.unpack(&words, self.n as usize);
        if cleared == Unpacked::done(self.answer.at) {
            return Ok(());
        }
        Err(format!("{:?}, but with the unused bits cleared {cleared:?}", self.answer))
    }

    /// 6 to 9: the items before the faulty one take the bits before the place,
    /// and every row that reaches it gets this answer.
    fn check_item(&self, random: &mut Random, codec: &Codec) -> Result<(), String> {
        let Some(items) = items_before(codec, self.words, self.answer.at as usize) else {
            return Err(format!("no item begins at the place: {:?}", self.answer));
        };
        if items as u64 >= self.n {
            return Err(format!("no item of the row begins at the place: {:?}", self.answer));
        }
        let before = self.unpack(self.words, items);
        let at = self.answer.at;
        if before != Unpacked::done(at) && before != Unpacked::stopped(UNUSED_BIT, at) {
            return Err(format!("{:?}, but a row of {items} is {before:?}", self.answer));
        }
        let more = random.within(items + 1..=MAX_PIXELS);
        let beyond = self.unpack(self.words, more);
        if beyond == self.answer {
            return Ok(());
        }
        Err(format!("{:?}, but a row of {more} is {beyond:?}", self.answer))
    }
}

/// How many items stand before this bit, if it is where they end.
fn items_before(codec: &Codec, words: &[u8], at: usize) -> Option<usize> {
    let (mut cursor, mut items) = (Cursor::new(codec, words), 0);
    while cursor.place < at {
        cursor.next_item().ok()?;
        items += 1;
    }
    (cursor.place == at).then_some(items)
}
