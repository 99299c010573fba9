//! Tables, packing, unpacking and the room question.

use super::{check_stopped, counted, counted_answer, Outcome};
use crate::agreement::Call;
use crate::answers::Unpacked;
use crate::ffi;
use crate::known;
use crate::memory::{Given, Lent};
use crate::opened::Opened;
use crate::random::Random;
use crate::reader::unpack_under;
use crate::refusal::{DONE, ROOM};
use crate::row::{pack_under, room_under};
use crate::table;
use crate::tally::Tally;

pub fn check(tally: &mut Tally, table: &Given) -> Outcome<(u32, u32)> {
    let lent = Lent::nothing();
    let call = Call { name: "check", numbers: &(), inputs: &[("table", table)], lent: &lent };
    counted_answer(tally, &call, || ffi::check(table.bytes()), || table::check(table.bytes()))
}

pub fn plain_table(tally: &mut Tally, lent: &Lent) -> Outcome<(u32, u32)> {
    let call = Call { name: "plain_table", numbers: &(), inputs: &[], lent };
    let second = |out: &mut [u8]| {
        let table = known::plain_table();
        let Some(out) = out.get_mut(..table.len()) else {
            return (ROOM, 0);
        };
        out.copy_from_slice(&table);
        (DONE, table.len() as u32)
    };
    counted(tally, &call, ffi::plain_table, second, |(_, bytes)| bytes as usize)
        .map(|(answer, _)| answer)
}

pub fn pack(tally: &mut Tally, table: &Opened, pixels: &Given, lent: &Lent) -> Outcome<(u32, u32)> {
    let inputs = [("table", &table.given), ("pixels", pixels)];
    let call = Call { name: "pack", numbers: &(), inputs: &inputs, lent };
    let proved = |words: &mut [u8]| ffi::pack(table.bytes(), pixels.bytes(), words);
    let second = |words: &mut [u8]| match table.codec() {
        Ok(codec) => pack_under(&codec.table, pixels.bytes(), words),
        Err(number) => (number, 0),
    };
    let written = |(_, bits): (u32, u32)| 4 * bits.div_ceil(32) as usize;
    counted(tally, &call, proved, second, written).map(|(answer, _)| answer)
}

/// Where a refusal has a place, it is held against other calls.
pub fn unpack(
    random: &mut Random,
    tally: &mut Tally,
    table: &Opened,
    words: &Given,
    n: u64,
    lent: &Lent,
) -> Outcome<Unpacked> {
    let inputs = [("table", &table.given), ("words", words)];
    let call = Call { name: "unpack", numbers: &n, inputs: &inputs, lent };
    let proved = |pixels: &mut [u8]| ffi::unpack(table.bytes(), words.bytes(), n, pixels);
    let second = |pixels: &mut [u8]| match table.codec() {
        Ok(codec) => unpack_under(codec, words.bytes(), n, pixels),
        Err(number) => Unpacked::refused(number),
    };
    let written = |answer: Unpacked| if answer.number == DONE { 2 * n as usize } else { 0 };
    let (answer, _) = counted(tally, &call, proved, second, written)?;
    check_stopped(random, table, words.bytes(), n, answer)
        .map_err(|what| call.report(&what, &[]))?;
    Ok(answer)
}

pub fn room(tally: &mut Tally, table: &Opened, n: u64) -> Outcome<(u32, u32)> {
    let (lent, inputs) = (Lent::nothing(), [("table", &table.given)]);
    let call = Call { name: "room", numbers: &n, inputs: &inputs, lent: &lent };
    let second = || match table.codec() {
        Ok(codec) => room_under(&codec.table, n),
        Err(number) => (number, 0),
    };
    counted_answer(tally, &call, || ffi::room(table.bytes(), n), second)
}
