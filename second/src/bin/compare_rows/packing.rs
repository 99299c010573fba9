//! Packing one row, and unpacking what was packed.

use crate::progress::Progress;
use crate::trial::Trial;
use crate::{first, former, items};
use second::answers::Unpacked;
use second::ffi;
use second::generate::rows::{pixel_bytes, row, row_length, spoil};
use second::generate::runs::{plain_run, run_words};
use second::memory::Lent;
use second::random::Random;
use second::refusal::DONE;
use second::row::{pack_under, MAX_PIXELS};

/// A row, and what the library has packed it into.
#[derive(Clone, Copy)]
pub struct Packed<'a> {
    pub pixels: &'a [u16],
    pub words: &'a [u8],
    pub bits: u32,
}

pub fn compare(random: &mut Random, trial: &Trial, progress: &mut Progress) -> Result<(), String> {
    let length = row_length(random);
    let mut pixels = row(random, trial.model(), length);
    if random.one_in(12) {
        spoil(random, &mut pixels);
    }
    let mut given = pixel_bytes(&pixels);
    if random.one_in(4) {
        given.push(random.next_u64() as u8);
    }
    let room = words_lent(random, trial, &given);
    let odd = random.below(4);
    let before = Lent::new(random, 4 * room + odd);
    let (answer, after) = compare_call(trial, &given, &before)?;
    progress.rows += 1;
    progress.tally.add("pack", answer.0, 0);
    if answer.0 != DONE {
        return Ok(());
    }
    let words = &after.bytes()[..4 * answer.1.div_ceil(32) as usize];
    let packed = Packed { pixels: &pixels, words, bits: answer.1 };
    check_packed(random, trial, packed)
        .and_then(|()| first::check(random, trial, packed, &mut progress.seen))
        .and_then(|()| former::check(random, trial, packed, &mut progress.seen))
        .map_err(|what| trial.difference(&what, &[("pixels", &given), ("after", after.bytes())]))?;
    items::compare(random, trial, words, pixels.len(), progress)
}

/// Words to lend: what the row takes, more, one too few, or any number.
fn words_lent(random: &mut Random, trial: &Trial, given: &[u8]) -> usize {
    let mut ample = vec![0; 4 * 4000];
    let bits = trial.codec().map_or(0, |codec| pack_under(&codec.table, given, &mut ample).1);
    let needed = bits.div_ceil(32) as usize;
    match random.below(10) {
        0..=3 => needed,
        4..=6 => needed + random.within(1..=5),
        7..=8 => needed.saturating_sub(1),
        _ => random.below(needed + 2),
    }
}

/// Packs on both sides: same answer, same memory, input unwritten.
fn compare_call(trial: &Trial, given: &[u8], before: &Lent) -> Result<((u32, u32), Lent), String> {
    let (mut by_proved, mut by_second) = (before.clone(), before.clone());
    let input = given.to_vec();
    let proved = ffi::pack(trial.table(), &input, by_proved.bytes_mut());
    let second = match trial.codec() {
        Ok(codec) => pack_under(&codec.table, given, by_second.bytes_mut()),
        Err(number) => (number, 0),
    };
    let words = if second.0 == DONE { second.1.div_ceil(32) as usize } else { 0 };
    let wrong = if proved != second {
        "answers"
    } else if by_proved != by_second {
        "memory"
    } else if !by_proved.same_after(before, 4 * words) {
        "memory after the words counted"
    } else if input != given {
        "pixels written to"
    } else {
        return Ok((second, by_proved));
    };
    let what = format!("pack, {wrong}: proved {proved:?}, second {second:?}");
    let parts = [
        ("pixels", given),
        ("memory before", before.bytes()),
        ("memory by proved", by_proved.bytes()),
        ("memory by second", by_second.bytes()),
    ];
    Err(trial.difference(&what, &parts))
}

/// What must hold of a packed row whatever the second program says.
fn check_packed(random: &mut Random, trial: &Trial, packed: Packed) -> Result<(), String> {
    let Packed { pixels, words, bits } = packed;
    if pixels.len() > MAX_PIXELS || bits > pixels.len() as u32 * trial.model().worst {
        return Err(format!("pack: {bits} bits are too many"));
    }
    if random.one_in(4) {
        let strings = plain_run(trial.model(), pixels);
        if strings.len() != bits as usize || run_words(&strings) != words {
            return Err("pack: the words are not the row's strings".to_string());
        }
    }
    let mut back = Lent::new(random, 2 * pixels.len());
    let answer = ffi::unpack(trial.table(), words, pixels.len() as u64, back.bytes_mut());
    if answer != Unpacked::done(bits) || back.bytes() != pixel_bytes(pixels) {
        return Err(format!("round trip: {bits} bits packed, {answer:?} unpacked"));
    }
    Ok(())
}
