//! Adaptive numbers.

use super::{counted, counted_answer, Outcome};
use crate::agreement::Call;
use crate::answers::{Answer, Signed, Unsigned};
use crate::calls;
use crate::ffi;
use crate::memory::{Given, Lent};
use crate::tally::Tally;

pub fn read_signed(tally: &mut Tally, bytes: &Given) -> Outcome<Signed> {
    let (lent, inputs) = (Lent::nothing(), [("bytes", bytes)]);
    let call = Call { name: "read_signed", numbers: &(), inputs: &inputs, lent: &lent };
    let second = || calls::read_signed(bytes.bytes());
    counted_answer(tally, &call, || ffi::read_signed(bytes.bytes()), second)
}

pub fn read_unsigned(tally: &mut Tally, bytes: &Given) -> Outcome<Unsigned> {
    let (lent, inputs) = (Lent::nothing(), [("bytes", bytes)]);
    let call = Call { name: "read_unsigned", numbers: &(), inputs: &inputs, lent: &lent };
    let second = || calls::read_unsigned(bytes.bytes());
    counted_answer(tally, &call, || ffi::read_unsigned(bytes.bytes()), second)
}

/// Gives the answer and the memory afterwards.
pub fn write_signed(tally: &mut Tally, value: i32, lent: &Lent) -> Outcome<(Answer, Lent)> {
    let call = Call { name: "write_signed", numbers: &value, inputs: &[], lent };
    let proved = |out: &mut [u8]| ffi::write_signed(value, out);
    let second = |out: &mut [u8]| calls::write_signed(value, out);
    counted(tally, &call, proved, second, |answer| answer.count as usize)
}

pub fn write_unsigned(tally: &mut Tally, value: u32, lent: &Lent) -> Outcome<(Answer, Lent)> {
    let call = Call { name: "write_unsigned", numbers: &value, inputs: &[], lent };
    let proved = |out: &mut [u8]| ffi::write_unsigned(value, out);
    let second = |out: &mut [u8]| calls::write_unsigned(value, out);
    counted(tally, &call, proved, second, |answer| answer.count as usize)
}
