//! A row that was read, packed again: in the very words that were read exactly
//! when none of their items departs from packing.

use crate::seen::{Case, Seen};
use crate::trial::Trial;
use second::answers::Unpacked;
use second::departures::{departures, Departures};
use second::ffi;
use second::random::Random;
use second::refusal::DONE;
use second::row::BIAS_SPOT;

/// An accepted reading: the pixels, and the words and the bits that it used.
#[derive(Clone, Copy)]
pub struct Reading<'a> {
    pub pixels: &'a [u8],
    pub words: &'a [u8],
    pub bits: u32,
}

impl Reading<'_> {
    fn count(&self) -> usize {
        self.pixels.len() / 2
    }

    fn has_height(&self) -> bool {
        let pixels = self.pixels.as_chunks::<2>().0.iter();
        pixels.map(|&pixel| u16::from_le_bytes(pixel)).any(|pixel| pixel < BIAS_SPOT)
    }
}

/// Packs the row in the room answered, and now and then reads it once more.
pub fn check(
    random: &mut Random,
    trial: &Trial,
    reading: Reading,
    seen: &mut Seen,
) -> Result<(), String> {
    let n = reading.count() as u64;
    let mut words = vec![0; 4 * ffi::room(trial.table(), n).1 as usize];
    let packed = ffi::pack(trial.table(), reading.pixels, &mut words);
    if packed.0 != DONE {
        return Err(format!("repacked {packed:?}"));
    }
    words.truncate(4 * packed.1.div_ceil(32) as usize);
    let codec = trial.codec().expect("a row was read under the table");
    let found = departures(codec, reading.words, reading.count())
        .ok_or("an item is refused in words that were accepted")?;
    let same = words == reading.words;
    if same == found.any() || same && packed.1 != reading.bits {
        let words = if same { "the words read" } else { "other words" };
        return Err(format!("repacked {packed:?} in {words}, though there are {found:?}"));
    }
    // Without a height there is no choice of form.
    if reading.has_height() {
        seen.add(case(found));
    }
    if random.one_in(4) {
        return check_read_again(trial, reading, &words, packed.1);
    }
    Ok(())
}

fn case(found: Departures) -> Case {
    match (found.needless_raw, found.first_by_step) {
        (false, false) => Case::Own,
        (true, false) => Case::NeedlessRaw,
        (false, true) => Case::FirstByStep,
        (true, true) => Case::Both,
    }
}

fn check_read_again(
    trial: &Trial,
    reading: Reading,
    words: &[u8],
    bits: u32,
) -> Result<(), String> {
    let mut back = vec![0; reading.pixels.len()];
    let read = ffi::unpack(trial.table(), words, reading.count() as u64, &mut back);
    if read == Unpacked::done(bits) && back == reading.pixels {
        return Ok(());
    }
    Err(format!("repacked in {bits} bits, read again {read:?}"))
}
