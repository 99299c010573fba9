//! Sheets to list.

use crate::Case;
use second::generate::entries::Entry;
use second::generate::flaws::{flaws, spoil};
use second::generate::sheets::{sheet, Size};
use second::generate::tables::{any_table, table, Draft, SHAPES};
use second::known::plain_table;
use second::random::Random;
use second::sheet::{KIND_PACKED, KIND_PLAIN};
use second::table::Table;

/// The sheet with this index: some that are known, then spoiled ones, every
/// flaw in turn, and sound ones of all sizes.
pub fn any(random: &mut Random, index: usize) -> Case {
    match index {
        0 => worked_example(),
        1..=8 => short(random, index - 1),
        9..=10 => many_records(random),
        _ if random.one_in(200) => many_records(random),
        _ if random.one_in(3) => sound(random),
        _ => spoiled(random, index),
    }
}

/// The sheet that document 01 lists, packed by the rule of ticket 5.
fn worked_example() -> Case {
    let table = Table::parse(&plain_table()).expect("the plain table is accepted");
    let entries = [
        Entry::of_table(&plain_table()),
        Entry { kind: KIND_PACKED, row: 0, content: vec![204, 0, 255, 15] },
        Entry { kind: KIND_PACKED, row: 5, content: vec![254, 2] },
    ];
    let records: Vec<_> = entries.iter().map(|entry| entry.own_record(&table)).collect();
    Case { name: "document 01's sheet".to_string(), bytes: records.concat() }
}

/// So many bytes, which are too few for a record.
fn short(random: &mut Random, length: usize) -> Case {
    Case { name: format!("{length} bytes"), bytes: random.bytes(length) }
}

fn records(random: &mut Random, table: &Draft, size: Size) -> (Table, Vec<Vec<u8>>) {
    let bytes = table.bytes();
    let table = Table::parse(&bytes).expect("made by the rules");
    let entries = sheet(random, &bytes, &table, size);
    let records = entries.iter().map(|entry| entry.foreign_record(random, &table)).collect();
    (table, records)
}

fn sound(random: &mut Random) -> Case {
    let table = any_table(random);
    let size = Size { records: random.pick(&[0, 1, 5, 40]), ..Size::small(random) };
    Case { name: "sound".to_string(), bytes: records(random, &table, size).1.concat() }
}

fn spoiled(random: &mut Random, index: usize) -> Case {
    let flaws = flaws();
    let flaw = flaws[index % flaws.len()];
    loop {
        let size = Size { records: random.within(1..=9), ..Size::small(random) };
        let table = any_table(random);
        let (table, records) = records(random, &table, size);
        // Not every sheet has a place for every flaw.
        if let Some((bytes, _)) = spoil(random, &table, &records, flaw) {
            return Case { name: format!("{flaw:?}"), bytes };
        }
    }
}

/// Thousands of records, at times with a fault near the end. The table is
/// small, as a lister may check it for each of them.
fn many_records(random: &mut Random) -> Case {
    let count = random.pick(&[1000, 5000, 20_000]);
    let size = Size { records: random.within(count..=2 * count), longest: 6 };
    let (shape, entries) = (random.pick(&SHAPES), random.within(1..=64));
    let table = table(random, shape, entries);
    let (_, mut records) = records(random, &table, size);
    if random.one_in(2) {
        let row = [random.next_u32() as u8, 0];
        records.push([&[6, 0, 0, 0, KIND_PLAIN as u8, 0][..], &row, &[0, 0]].concat());
    }
    Case { name: format!("{} records", records.len()), bytes: records.concat() }
}

#[cfg(test)]
mod tests {
    use super::*;
    use second::listing::list_sheet;

    #[test]
    fn sheets_of_all_sizes() {
        let mut random = Random::new(50);
        let text = list_sheet(&any(&mut random, 0).bytes);
        assert_eq!(text.lines().nth(1), Some("row 0 pixels 2 bits 17 words 1"));
        assert_eq!(text.lines().nth(3), Some("done rows 2"));
        assert!(any(&mut random, 1).bytes.is_empty());
        let many = list_sheet(&any(&mut random, 9).bytes).lines().count();
        assert!(many > 1000, "{many}");
        let done = |index| list_sheet(&any(&mut random, index).bytes).contains("done rows");
        let done = (20..120).map(done).filter(|&done| done).count();
        assert!((20..80).contains(&done), "{done}");
    }
}
