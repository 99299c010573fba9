//! Sheets written record by record.

use crate::progress::Progress;
use crate::trial::Trial;
use second::compared::{Outcome, Writing};
use second::generate::entries::Entry;
use second::generate::sheets::any_state;
use second::memory::{Given, Lent};
use second::random::Random;
use second::refusal::{DONE, PLACE};
use second::row::MAX_PIXELS;
use second::sheet::{State, KIND_LINE, KIND_PACKED, KIND_PLAIN, KIND_TABLE};

/// Gives the records that both sides have written.
pub fn write_sheet(
    random: &mut Random,
    trial: &Trial,
    entries: &[Entry],
    progress: &mut Progress,
) -> Outcome<Vec<Vec<u8>>> {
    let mut state = State::default();
    let mut records = Vec::with_capacity(entries.len());
    for entry in entries {
        if random.one_in(2) {
            write_wrong(random, trial, entry, state, progress)?;
        }
        if random.one_in(4) {
            write_past(random, trial, entry, state, progress)?;
        }
        let (record, after) = write_sound(random, trial, entry, state, progress)?;
        records.push(record);
        state = after;
    }
    Ok(records)
}

/// Writes a record that is in order, at times first with too little room.
fn write_sound(
    random: &mut Random,
    trial: &Trial,
    entry: &Entry,
    state: State,
    progress: &mut Progress,
) -> Outcome<(Vec<u8>, State)> {
    let content = with_odd_end(random, entry);
    let content = Given::new(random, &content);
    // What a kind has no use for must not matter.
    let packed = entry.kind == KIND_PACKED;
    let table = if packed { &trial.table } else { trial.any_table(random) };
    let has_row = packed || entry.kind == KIND_PLAIN;
    let row = if has_row { entry.row.into() } else { random.next_u32() };
    let writing = Writing { kind: entry.kind.into(), row, content: &content, table, state };
    let expected = entry.own_record(trial.model());
    if random.one_in(3) {
        let less = random.below(expected.len());
        let length = random.pick(&[expected.len() - 1, less]);
        writing.write(&mut progress.tally, &Lent::new(random, length))?;
    }
    let room = expected.len() + random.pick(&[0, 0, 1, 3, 100]);
    let (answer, after) = writing.write(&mut progress.tally, &Lent::new(random, room))?;
    let record = &after.bytes()[..answer.count as usize];
    if answer.number != DONE || record != expected {
        return Err(writing.report(&format!("both answer {answer:?} for a sound record")));
    }
    Ok((record.to_vec(), answer.state))
}

/// The content, at times with a part of a pixel or number after it. A table
/// has no such part.
fn with_odd_end(random: &mut Random, entry: &Entry) -> Vec<u8> {
    let part = match entry.kind {
        KIND_TABLE => 0,
        KIND_LINE => random.below(4),
        _ => random.below(2),
    };
    [&entry.content[..], &random.bytes(part)].concat()
}

/// Writes with something changed, mostly for the worse.
fn write_wrong(
    random: &mut Random,
    trial: &Trial,
    entry: &Entry,
    state: State,
    progress: &mut Progress,
) -> Outcome<()> {
    let (mut kind, mut row, mut state) = (entry.kind.into(), entry.row.into(), state);
    let mut table = &trial.table;
    let mut content = entry.content.clone();
    for _ in 0..random.pick(&[1, 1, 2]) {
        match random.below(6) {
            0 => {
                let any = random.next_u32();
                kind = random.pick(&[0, 1, 2, 3, 4, 5, kind | 1 << 16, kind << 8, any]);
            }
            1 => row = random.next_u32() >> random.pick(&[0, 15, 16, 16]),
            2 => state = any_state(random),
            3 => table = trial.any_table(random),
            4 => content = too_many(random, kind),
            _ => spoil_content(random, trial, kind, &mut content),
        }
    }
    let content = Given::new(random, &content);
    let writing = Writing { kind, row, content: &content, table, state };
    let needed = writing.bytes_needed();
    let length = random.pick(&[0, needed.saturating_sub(1), needed, needed + 9]);
    writing.write(&mut progress.tally, &Lent::new(random, length)).map(|_| ())
}

/// Writes a record that is in order but for a row number above 65535, mostly
/// right in its low 16 bits. Kinds that have no row must not look at it.
fn write_past(
    random: &mut Random,
    trial: &Trial,
    entry: &Entry,
    state: State,
    progress: &mut Progress,
) -> Outcome<()> {
    let high = random.within(1..=65_535) as u32;
    let right = u32::from(entry.row);
    let row = random.pick(&[right | 1 << 16, right | high << 16, 65_536, u32::MAX]);
    let content = Given::new(random, &entry.content);
    let table = &trial.table;
    let writing = Writing { kind: entry.kind.into(), row, content: &content, table, state };
    let (answer, _) = writing.write(&mut progress.tally, &Lent::new(random, 40_000))?;
    let has_row = matches!(entry.kind, KIND_PACKED | KIND_PLAIN);
    let (wanted, count) = if has_row {
        (PLACE, &mut progress.past_rows)
    } else {
        (DONE, &mut progress.rows_not_looked_at)
    };
    *count += 1;
    if answer.number != wanted {
        return Err(writing.report(&format!("both answer {answer:?} for a row above 65535")));
    }
    Ok(())
}

/// More than 4096 pixels or numbers.
fn too_many(random: &mut Random, kind: u32) -> Vec<u8> {
    let size = if kind == KIND_LINE.into() { 4 } else { 2 };
    let count = size * (MAX_PIXELS + 1) + random.pick(&[0, 1, 1000]);
    if random.one_in(2) {
        random.bytes(count)
    } else {
        vec![0; count]
    }
}

/// A pixel above 4095, or a table that is refused.
fn spoil_content(random: &mut Random, trial: &Trial, kind: u32, content: &mut Vec<u8>) {
    if kind == KIND_TABLE.into() {
        *content = trial.refused.bytes().to_vec();
    } else if content.len() >= 2 {
        let place = 2 * random.below(content.len() / 2);
        let above = random.within(4096..=65_535) as u16;
        content[place..place + 2].copy_from_slice(&above.to_le_bytes());
    }
}
