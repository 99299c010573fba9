//! A table, a sheet under it, a scan and a map, whose parts are changed and
//! called with.

use second::generate::damage::{damaged_table, damages};
use second::generate::entries::Entry;
use second::generate::maps::{Sound, SORTS};
use second::generate::mutations::mutate;
use second::generate::rows::{row, row_length};
use second::generate::scans::{self, scan, Scan};
use second::generate::sheets::{sheet, Size};
use second::generate::tables::any_table;
use second::known::plain_table;
use second::map::GROUPS;
use second::memory::Lent;
use second::opened::Opened;
use second::random::Random;
use second::sheet::{State, KIND_LINE, KIND_TABLE};
use second::table::Table;

pub struct Scene {
    pub table: Opened,
    pub row: Vec<u16>,
    pub entries: Vec<Entry>,
    pub records: Vec<Vec<u8>>,
    /// The state before each record.
    pub states: Vec<State>,
    pub scan: Scan,
    pub map: Sound,
    pub calls: usize,
}

impl Scene {
    pub fn any(random: &mut Random) -> Scene {
        let bytes = if random.one_in(10) { plain_table() } else { any_table(random).bytes() };
        let table = Opened::new(random, &bytes);
        let model = &table.codec().expect("made by the rules").table;
        let size = Size { records: random.within(3..=6), ..Size::small(random) };
        let entries = sheet(random, &bytes, model, size);
        let records = entries.iter().map(|entry| entry.foreign_record(random, model)).collect();
        let n = row_length(random);
        let row = row(random, model, n);
        let size = scans::Size { width: 4, rows: 2, ..scans::Size::any(random) };
        let scan = scan(random, model, size);
        let (group, sort) = (random.pick(&GROUPS), random.pick(&SORTS));
        let map = Sound::new(random, group, sort);
        // Fewer for a large table, which the library checks at every call.
        let calls = if bytes.len() < 5000 { 400 } else { 20 };
        Scene { row, records, states: states(&entries), entries, scan, map, table, calls }
    }

    pub fn model(&self) -> &Table {
        &self.table.codec().expect("made by the rules").table
    }

    /// Now and then another table, changed or damaged; mostly none.
    pub fn other_table(&self, random: &mut Random) -> Option<Opened> {
        if !random.one_in(8) {
            return None;
        }
        let bytes = if random.one_in(2) {
            let damage = random.pick(&damages());
            damaged_table(random, damage)
        } else {
            self.changed(random, self.table.bytes())
        };
        Some(Opened::new(random, &bytes))
    }

    /// The bytes with some change, parts of the sheet's records among them.
    pub fn changed(&self, random: &mut Random, bytes: &[u8]) -> Vec<u8> {
        let mut bytes = bytes.to_vec();
        let other = random.below(self.records.len());
        mutate(random, &mut bytes, &self.records[other]);
        bytes
    }

    /// The bytes as they are, or changed.
    pub fn maybe_changed(&self, random: &mut Random, bytes: &[u8]) -> Vec<u8> {
        match random.one_in(4) {
            true => bytes.to_vec(),
            false => self.changed(random, bytes),
        }
    }
}

fn states(entries: &[Entry]) -> Vec<State> {
    let mut state = State::default();
    let before = |entry: &Entry| {
        let before = state;
        match entry.kind {
            KIND_TABLE => state.has_table = 1,
            KIND_LINE => {}
            _ => state.least_row = u32::from(entry.row) + 1,
        }
        before
    };
    entries.iter().map(before).collect()
}

/// Memory around what is needed: exact, more, less or any.
pub fn lent(random: &mut Random, needed: usize) -> Lent {
    let more = needed + random.below(12);
    let any = random.below(needed + 20);
    let length = random.pick(&[needed, more, needed.saturating_sub(1), any]);
    Lent::new(random, length)
}

#[cfg(test)]
mod tests {
    use super::*;
    use second::sheet::judge_record;

    /// As they stand, a scene's records are accepted in their states.
    #[test]
    fn scenes_are_sound() {
        for seed in 0..50 {
            let scene = Scene::any(&mut Random::new(seed));
            for (record, &state) in scene.records.iter().zip(&scene.states) {
                let answer = judge_record(state, scene.table.codec(), record);
                assert_eq!((answer.number, answer.used), (0, record.len()));
            }
        }
    }
}
