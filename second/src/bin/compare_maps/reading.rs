//! Maps that are changed and read.

use crate::progress::Progress;
use second::compared::{MapReading, MapWriting, Outcome};
use second::generate::maps::flaws::{change, Change, Reading, Wanted};
use second::generate::maps::Sound;
use second::map::COUNTS;
use second::memory::{Given, Lent};
use second::random::Random;
use second::refusal::DONE;

pub fn compare(
    random: &mut Random,
    sound: &Sound,
    kind: Change,
    progress: &mut Progress,
) -> Outcome<()> {
    let Reading { group, bytes, total, room, wanted } = change(random, sound, kind);
    let given = Given::new(random, &bytes);
    let call = MapReading { group, bytes: &given, total };
    let (answer, after) = call.read(&mut progress.tally, &Lent::new(random, room))?;
    let as_wanted = match wanted {
        Wanted::Same => {
            answer.pair() == (DONE, sound.form.bits() as u32)
                && after.bytes()[..2 * COUNTS] == sound.count_bytes()
        }
        Wanted::Refused(number) => answer.pair() == (number, 0),
        Wanted::Unknown => true,
    };
    if !as_wanted {
        return Err(call.report(&format!("both answer {answer:?}, made for {wanted:?}")));
    }
    if wanted == Wanted::Unknown && answer.number == DONE {
        progress.again += 1;
        return write_again(random, call, answer.count, &after, progress);
    }
    Ok(())
}

/// However a map came to be, writing its counts takes the bits that were read.
fn write_again(
    random: &mut Random,
    call: MapReading,
    bits: u32,
    read: &Lent,
    progress: &mut Progress,
) -> Outcome<()> {
    let counts = Given::new(random, &read.bytes()[..2 * COUNTS]);
    let writing = MapWriting { group: call.group, counts: &counts };
    let needed = bits.div_ceil(8) as usize;
    let (answer, after) = writing.write(&mut progress.tally, &Lent::new(random, needed))?;
    if answer.pair() != (DONE, needed as u32) {
        return Err(call.report(&format!("{bits} bits were read, writing answers {answer:?}")));
    }
    let written = Given::new(random, &after.bytes()[..needed]);
    let again = MapReading { bytes: &written, ..call };
    let lent = Lent::new(random, 2 * COUNTS);
    let (answer, after) = again.read(&mut progress.tally, &lent)?;
    if answer.pair() != (DONE, bits) || after.bytes() != counts.bytes() {
        return Err(call.report(&format!("{bits} bits were read, then written {answer:?}")));
    }
    Ok(())
}
