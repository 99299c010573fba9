//! Sheets judged and read record by record.

use crate::progress::Progress;
use crate::trial::Trial;
use second::answers::Record;
use second::compared::{Outcome, Place};
use second::generate::entries::Entry;
use second::generate::flaws::Ending;
use second::generate::sheets::any_state;
use second::memory::{Given, Lent};
use second::opened::Opened;
use second::random::Random;
use second::refusal::{DONE, ROOM};
use second::row::MAX_PIXELS;
use second::sheet::{State, KIND_BYTES, KIND_TABLE, LENGTH_BYTES};

/// Room for every content.
const AMPLE: usize = 4 * MAX_PIXELS;

/// Reads a sound sheet, which must be read as what it was made of.
pub fn read_sound(
    random: &mut Random,
    trial: &Trial,
    records: &[Vec<u8>],
    entries: &[Entry],
    progress: &mut Progress,
) -> Outcome<()> {
    let sheet = Given::new(random, &records.concat());
    let mut place = Place { table: &trial.none, sheet: &sheet, start: 0, state: State::default() };
    for (bytes, entry) in records.iter().zip(entries) {
        let (record, content) = read_one(random, trial, &place, progress)?;
        let wanted = (DONE, entry.kind.into(), entry.count() as u32, bytes.len() as u32);
        let given = (record.number, record.kind, record.count, record.length);
        let has_content = entry.kind != KIND_TABLE;
        if given != wanted
            || has_content && content != entry.content
            || record.row != entry.row.into()
        {
            return Err(place.report(&format!("both answer {record:?}, made as {wanted:?}")));
        }
        place = Place { table: &trial.table, start: place.start + bytes.len(), ..place };
        place.state = record.state;
    }
    // No bytes are left for a length.
    read_one(random, trial, &place, progress)?;
    progress.sheets += 1;
    Ok(())
}

/// Reads until the first refusal; gives where and why it came.
pub fn read_until_refused(
    random: &mut Random,
    trial: &Trial,
    sheet: &Given,
    progress: &mut Progress,
) -> Outcome<Ending> {
    let mut place = Place { table: &trial.none, sheet, start: 0, state: State::default() };
    let own_table = table_of(random, trial, sheet.bytes());
    let mut index = 0;
    // Where no bytes are left, a record is refused too.
    loop {
        let (record, _) = read_one(random, trial, &place, progress)?;
        if record.number != DONE {
            let Record { number, at, .. } = record;
            return Ok(Ending::Refused { number, record: index, at: at as usize });
        }
        let table = own_table.as_ref().unwrap_or(&trial.table);
        let start = place.start + record.length as usize;
        place = Place { table, sheet, start, state: record.state };
        index += 1;
    }
}

/// The table that a sheet seems to begin with, if it is not the trial's.
fn table_of(random: &mut Random, trial: &Trial, sheet: &[u8]) -> Option<Opened> {
    let (length, rest) = sheet.split_first_chunk::<LENGTH_BYTES>()?;
    let body = rest.get(KIND_BYTES..u32::from_le_bytes(*length) as usize)?;
    (body != trial.table.bytes()).then(|| Opened::new(random, body))
}

/// Judges and reads a record, and gives its content; now and then under
/// another table or in another state as well.
fn read_one(
    random: &mut Random,
    trial: &Trial,
    place: &Place,
    progress: &mut Progress,
) -> Outcome<(Record, Vec<u8>)> {
    if random.one_in(4) {
        let other = match random.below(2) {
            0 => Place { table: trial.any_table(random), ..*place },
            _ => Place { state: any_state(random), ..*place },
        };
        let judged = other.judge(&mut progress.tally)?;
        read_again(random, &other, &judged, progress)?;
    }
    let judged = place.judge(&mut progress.tally)?;
    let (read, content) = read_again(random, place, &judged, progress)?;
    if judged.number != DONE || read == judged {
        return Ok((judged, content));
    }
    // Refused for room; what it holds is still to be seen.
    let lent = Lent::new(random, judged.content_bytes());
    let (read, after) = place.read(&mut progress.tally, &lent)?;
    if read != judged {
        return Err(place.report(&format!("judged {judged:?}, read {read:?}")));
    }
    Ok((judged, after.bytes().to_vec()))
}

/// Reads what was judged, with any room, and gives the content.
fn read_again(
    random: &mut Random,
    place: &Place,
    judged: &Record,
    progress: &mut Progress,
) -> Outcome<(Record, Vec<u8>)> {
    let needed = judged.content_bytes();
    let length = room(random, judged.number, needed);
    let lent = Lent::new(random, length);
    let (read, after) = place.read(&mut progress.tally, &lent)?;
    let (refused_for_room, lent) = (read.number == ROOM, lent.bytes().len());
    let right = match judged.number {
        DONE => refused_for_room == (lent < needed),
        _ => !refused_for_room || lent < AMPLE,
    };
    if !right || !refused_for_room && read != *judged {
        let what = format!("judged {judged:?}, read {read:?} with {lent} bytes lent");
        return Err(place.report(&what));
    }
    Ok((read, after.bytes()[..needed.min(after.bytes().len())].to_vec()))
}

/// Lent bytes: exact, ample or too few.
fn room(random: &mut Random, number: u32, needed: usize) -> usize {
    if number != DONE {
        let any = random.below(300);
        return random.pick(&[0, any, AMPLE]);
    }
    let less = random.below(needed + 1);
    let fewer = random.pick(&[needed.saturating_sub(1), needed.saturating_sub(2), less]);
    random.pick(&[needed, needed, needed + 1, needed + 50, fewer])
}
