//! Each call of the library, made on both sides, compared and counted.

#[cfg(feature = "sheets")]
mod deltas;
mod items;
#[cfg(feature = "sheets")]
mod maps;
#[cfg(feature = "sheets")]
mod numbers;
#[cfg(feature = "sheets")]
mod records;
mod rows;
#[cfg(feature = "sheets")]
mod scans;
#[cfg(feature = "sheets")]
mod shelves;
mod stopped;
mod walk;

use std::fmt::Debug;

#[cfg(feature = "sheets")]
pub use deltas::{DeltaCall, DeltaRead};
pub use items::Items;
#[cfg(feature = "sheets")]
pub use maps::{MapReading, MapWriting};
#[cfg(feature = "sheets")]
pub use numbers::{read_signed, read_unsigned, write_signed, write_unsigned};
#[cfg(feature = "sheets")]
pub use records::{Place, Writing};
pub use rows::{check, pack, plain_table, room, unpack};
#[cfg(feature = "sheets")]
pub use scans::{ScanHeader, ScanRow};
#[cfg(feature = "sheets")]
pub use shelves::{ShelfCall, Shelves};
pub use stopped::check_stopped;
pub use walk::walk;

use crate::agreement::Call;
use crate::answers::{Answer, Image, ItemRead, ReaderOpened, Record, Signed};
use crate::answers::{Unpacked, Unsigned, Written};
use crate::memory::Lent;
use crate::tally::Tally;

/// What a comparison gives, or the report of a difference.
pub type Outcome<T> = Result<T, String>;

/// An answer with its number, and the place where the reading of a row stopped
/// if it can say that.
trait Numbered: PartialEq + Debug + Copy {
    fn number(self) -> u32;

    fn at(self) -> u32 {
        0
    }
}

impl Numbered for (u32, u32) {
    fn number(self) -> u32 {
        self.0
    }
}

macro_rules! numbered {
    ($($answer:ty),*) => {
        $(impl Numbered for $answer {
            fn number(self) -> u32 {
                self.number
            }
        })*
    };
}

numbered!(Answer, Image, Signed, Unsigned, Written, ReaderOpened, ItemRead);

macro_rules! placed {
    ($($answer:ty),*) => {
        $(impl Numbered for $answer {
            fn number(self) -> u32 {
                self.number
            }

            fn at(self) -> u32 {
                self.at
            }
        })*
    };
}

placed!(Unpacked, Record);

/// Compares a call and counts its number.
fn counted<T: Numbered>(
    tally: &mut Tally,
    call: &Call,
    proved: impl FnOnce(&mut [u8]) -> T,
    second: impl FnOnce(&mut [u8]) -> T,
    written: impl FnOnce(T) -> usize,
) -> Outcome<(T, Lent)> {
    let (answer, lent) = call.compare(proved, second, written)?;
    tally.add(call.name, answer.number(), answer.at());
    Ok((answer, lent))
}

/// The same for a call that is lent no memory.
fn counted_answer<T: Numbered>(
    tally: &mut Tally,
    call: &Call,
    proved: impl FnOnce() -> T,
    second: impl FnOnce() -> T,
) -> Outcome<T> {
    counted(tally, call, |_| proved(), |_| second(), |_| 0).map(|(answer, _)| answer)
}
