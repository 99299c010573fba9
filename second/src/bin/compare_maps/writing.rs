//! Maps that are written and read back.

use crate::progress::Progress;
use second::compared::{MapReading, MapWriting, Outcome};
use second::generate::maps::flaws::other_group;
use second::generate::maps::Sound;
use second::map::COUNTS;
use second::memory::{Given, Lent};
use second::random::Random;
use second::refusal::{DONE, RECORD, ROOM};

/// The bytes of as many counts as a map has.
const COUNT_BYTES: usize = 2 * COUNTS;

pub fn compare(random: &mut Random, sound: &Sound, progress: &mut Progress) -> Outcome<()> {
    let mut bytes = sound.count_bytes();
    if random.one_in(4) {
        // Half a count, which counts for nothing.
        bytes.push(random.next_u32() as u8);
    }
    let counts = Given::new(random, &bytes);
    let writing = MapWriting { group: sound.group, counts: &counts };
    let expected = &sound.bytes;
    match random.below(8) {
        0 | 1 => write_in_little(random, writing, expected.len(), progress)?,
        2 => write_other_group(random, writing, expected.len(), progress)?,
        3 => write_other_counts(random, sound, expected.len(), progress)?,
        _ => {}
    }
    let room = expected.len() + random.pick(&[0, 0, 0, 1, 3, 1000]);
    let (answer, after) = writing.write(&mut progress.tally, &Lent::new(random, room))?;
    let written = &after.bytes()[..answer.count as usize];
    if answer.number != DONE || written != expected {
        return Err(writing.report(&format!("both answer {answer:?}, or write other bits")));
    }
    read_back(random, sound, written, progress)
}

fn read_back(
    random: &mut Random,
    sound: &Sound,
    written: &[u8],
    progress: &mut Progress,
) -> Outcome<()> {
    let written = Given::new(random, written);
    let reading = MapReading { group: sound.group, bytes: &written, total: sound.photons() };
    let lent = Lent::new(random, COUNT_BYTES);
    let (answer, after) = reading.read(&mut progress.tally, &lent)?;
    if answer.pair() != (DONE, sound.form.bits() as u32) {
        return Err(reading.report(&format!("both answer {answer:?} for what was written")));
    }
    if after.bytes() != sound.count_bytes() {
        return Err(reading.report("both read other counts than were written"));
    }
    Ok(())
}

fn write_in_little(
    random: &mut Random,
    writing: MapWriting,
    needed: usize,
    progress: &mut Progress,
) -> Outcome<()> {
    let less = random.below(needed);
    let room = random.pick(&[needed - 1, needed - 1, less, 0]);
    write_refused(random, writing, room, ROOM, progress)
}

fn write_other_group(
    random: &mut Random,
    writing: MapWriting,
    needed: usize,
    progress: &mut Progress,
) -> Outcome<()> {
    let other = MapWriting { group: other_group(random), ..writing };
    let room = random.pick(&[needed, 50_000, 0]);
    write_refused(random, other, room, RECORD, progress)
}

/// Fewer counts, or more, at either group size or another.
fn write_other_counts(
    random: &mut Random,
    sound: &Sound,
    needed: usize,
    progress: &mut Progress,
) -> Outcome<()> {
    let group = if random.one_in(8) { other_group(random) } else { sound.group };
    let less = random.below(COUNT_BYTES);
    let near = random.pick(&[COUNT_BYTES - 1, COUNT_BYTES - 2, COUNT_BYTES + 2, COUNT_BYTES + 3]);
    let length = random.pick(&[near, near, 0, 1, 2 * COUNT_BYTES, 4 * COUNT_BYTES, less]);
    let mut bytes = sound.count_bytes();
    bytes.resize(length, random.pick(&[0, 1]));
    let counts = Given::new(random, &bytes);
    let room = random.pick(&[needed, 50_000, 0]);
    write_refused(random, MapWriting { group, counts: &counts }, room, RECORD, progress)
}

fn write_refused(
    random: &mut Random,
    writing: MapWriting,
    room: usize,
    number: u32,
    progress: &mut Progress,
) -> Outcome<()> {
    let (answer, _) = writing.write(&mut progress.tally, &Lent::new(random, room))?;
    if answer.pair() != (number, 0) {
        let what = format!("both answer {answer:?} with {room} bytes lent, made for {number}");
        return Err(writing.report(&what));
    }
    Ok(())
}
