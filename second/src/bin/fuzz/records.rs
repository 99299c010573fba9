//! Records, judged, read and written.

use crate::scene::{lent, Scene};
use second::compared::{Outcome, Place, Writing};
use second::generate::mutations::{any_number, mutate};
use second::generate::sheets::{any_state, odd_state};
use second::memory::Given;
use second::random::Random;
use second::row::MAX_PIXELS;
use second::sheet::{State, LENGTH_BYTES};
use second::tally::Tally;

/// Judges a changed record and reads it.
pub fn read(random: &mut Random, scene: &Scene, tally: &mut Tally) -> Outcome<()> {
    let other = scene.other_table(random);
    let table = other.as_ref().unwrap_or(&scene.table);
    let index = random.below(scene.records.len());
    let sheet = changed_record(random, scene, index);
    let sheet = Given::new(random, &sheet);
    let place = Place { table, sheet: &sheet, start: 0, state: state(random, scene, index) };
    let judged = place.judge(tally)?;
    let any = random.below(4 * MAX_PIXELS);
    let needed = if judged.number == 0 { judged.content_bytes() } else { any };
    place.read(tally, &lent(random, needed)).map(|_| ())
}

/// A record, mostly changed, with nothing or with other bytes after it. Where
/// the length is mended, the change gets past it.
fn changed_record(random: &mut Random, scene: &Scene, index: usize) -> Vec<u8> {
    let mut record = scene.maybe_changed(random, &scene.records[index]);
    if record.len() >= LENGTH_BYTES && random.one_in(2) {
        let length = (record.len() - LENGTH_BYTES) as u32;
        record[..LENGTH_BYTES].copy_from_slice(&length.to_le_bytes());
    }
    if random.one_in(3) {
        let after = random.below(scene.records.len());
        record.extend_from_slice(&scene.records[after]);
    }
    record
}

/// The state in which the record was written, or any other.
fn state(random: &mut Random, scene: &Scene, index: usize) -> State {
    match random.below(16) {
        0 => odd_state(random),
        1 => any_state(random),
        _ => scene.states[index],
    }
}

/// Writes a record with some argument changed.
pub fn write(random: &mut Random, scene: &Scene, tally: &mut Tally) -> Outcome<()> {
    let other = scene.other_table(random);
    let table = other.as_ref().unwrap_or(&scene.table);
    let index = random.below(scene.entries.len());
    let entry = &scene.entries[index];
    let mut content = entry.content.clone();
    if random.one_in(2) {
        // Parts of other contents, not of records, so that pixels stay pixels.
        let from = random.below(scene.entries.len());
        mutate(random, &mut content, &scene.entries[from].content);
    }
    let (mut kind, mut row) = (u32::from(entry.kind), u32::from(entry.row));
    match random.below(16) {
        0 => kind = any_number(random),
        // Right in its low 16 bits.
        1 => kind |= any_number(random) << 16,
        2..=3 => row = any_number(random),
        4 => row |= any_number(random) << 16,
        _ => {}
    }
    let content = Given::new(random, &content);
    let state = state(random, scene, index);
    let writing = Writing { kind, row, content: &content, table, state };
    let lent = lent(random, writing.bytes_needed());
    writing.write(tally, &lent).map(|_| ())
}
