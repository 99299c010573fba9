//! A packed row beside the words that the former rule gave it: these are read
//! as before, and what the first height's raw form costs is known to the bit.

use crate::packing::Packed;
use crate::seen::{Case, Seen};
use crate::trial::Trial;
use second::answers::Unpacked;
use second::ffi;
use second::former::pack_under;
use second::generate::rows::pixel_bytes;
use second::memory::Lent;
use second::random::Random;
use second::refusal::DONE;
use second::row::{room_under, BIAS_SPOT};
use second::table::{Table, HEIGHT_BITS};

pub fn check(
    random: &mut Random,
    trial: &Trial,
    packed: Packed,
    seen: &mut Seen,
) -> Result<(), String> {
    let pixels = pixel_bytes(packed.pixels);
    let mut words = vec![0; 4 * room_under(trial.model(), packed.pixels.len() as u64).1 as usize];
    let (number, bits) = pack_under(trial.model(), &pixels, &mut words);
    if number != DONE {
        return Err(format!("pack: {number} by the former rule"));
    }
    words.truncate(4 * bits.div_ceil(32) as usize);
    let former = Packed { words: &words, bits, ..packed };
    check_read(random, trial, former, &pixels)?;
    seen.add(check_cost(trial.model(), packed, former)?);
    Ok(())
}

/// The library reads the former words as the row, from the former bits.
fn check_read(
    random: &mut Random,
    trial: &Trial,
    former: Packed,
    pixels: &[u8],
) -> Result<(), String> {
    let mut back = Lent::new(random, pixels.len());
    let n = former.pixels.len() as u64;
    let answer = ffi::unpack(trial.table(), former.words, n, back.bytes_mut());
    if answer == Unpacked::done(former.bits) && back.bytes() == pixels {
        return Ok(());
    }
    Err(format!("former words of {} bits: {answer:?} unpacked", former.bits))
}

/// Where the table has the first height as a step from 0, its raw form stands
/// for that step's string and no other length changes; elsewhere nothing
/// changes at all.
fn check_cost(table: &Table, packed: Packed, former: Packed) -> Result<Case, String> {
    let same = packed.words == former.words;
    let first = packed.pixels.iter().find(|&&pixel| pixel < BIAS_SPOT);
    let (case, right) = match first.and_then(|&height| table.entry_of(height.into())) {
        Some(step) => {
            let raw = table.escape().length + HEIGHT_BITS;
            (Case::StepFromZero, packed.bits + step.length == former.bits + raw && !same)
        }
        None => (Case::NoStepFromZero, same && packed.bits == former.bits),
    };
    if right {
        return Ok(case);
    }
    Err(format!("pack: {} bits, by the former rule {}", packed.bits, former.bits))
}
