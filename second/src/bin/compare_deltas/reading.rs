//! Rows that are read from arrays, as they are or changed.

use crate::progress::Progress;
use crate::seen::Made;
use second::compared::{DeltaCall, Outcome};
use second::generate::deltas::flaws::{change, Change, Wanted};
use second::generate::deltas::Sound;
use second::random::Random;
use second::refusal::DONE;

/// Arrays and lent memory that have the row's own elements and no others.
pub fn read_back(random: &mut Random, sound: &Sound, progress: &mut Progress) -> Outcome<()> {
    compare(random, sound, Change::Alone, progress)
}

pub fn compare(
    random: &mut Random,
    sound: &Sound,
    kind: Change,
    progress: &mut Progress,
) -> Outcome<()> {
    let reading = change(random, sound, kind);
    let call = DeltaCall::new(random, &reading);
    let read = call.read(&mut progress.tally)?;
    let answer = read.answer;
    let as_wanted = match &reading.wanted {
        Wanted::Row(row) => {
            answer.pair() == (DONE, row.len() as u64) && read.elements().eq(row.iter().copied())
        }
        Wanted::Refused(number) => answer.pair() == (*number, 0),
        Wanted::Unknown => answer.number != DONE || answer.count == reading.n,
    };
    if !as_wanted || !read.is_marked_well() {
        let what = format!("both answer {answer:?}, made for {:?}", reading.wanted);
        return Err(call.report(&what, &read));
    }
    progress.seen.add(&Made { reading: &reading, kind, number: answer.number });
    Ok(())
}
