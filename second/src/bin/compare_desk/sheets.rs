//! Sheets to draw and to convert.

use crate::trial::Case;
use second::generate::entries::framed;
use second::generate::flaws::{flaws, spoil};
use second::generate::grids::{grid, Grid, BIG, SMALL};
use second::generate::tables::any_table;
use second::known::plain_table;
use second::picture::Extent;
use second::random::Random;
use second::sheet::{KIND_LINE, KIND_PACKED, KIND_PLAIN};
use second::stored::Stored;
use second::table::Table;

/// No sheet has more heights than so many, missing ones counted.
const MOST_HEIGHTS: usize = 4_000_000;

/// The sheet with this index: a big one of each sort, then spoiled ones, every
/// flaw in turn, and sound ones of all shapes.
pub fn any(random: &mut Random, index: usize) -> Case {
    if let Some(&shape) = BIG.get(index) {
        return sound(random, shape);
    }
    loop {
        let case = match random.below(100) {
            0 => {
                let shape = random.pick(&BIG[..2]);
                sound(random, shape)
            }
            1..=15 => sound(random, Grid::Whole),
            16..=45 => sound(random, SMALL[index % SMALL.len()]),
            _ => spoiled(random, index),
        };
        // A row number in the wrong place may ask for far too large a picture.
        let Extent { width, height } = Extent::of(&Stored::read(&case.bytes));
        if width * height <= MOST_HEIGHTS {
            return case;
        }
    }
}

fn records(random: &mut Random, shape: Grid) -> (Table, Vec<Vec<u8>>) {
    let bytes = if random.one_in(4) { plain_table() } else { any_table(random).bytes() };
    let table = Table::parse(&bytes).expect("made by the rules");
    let entries = grid(random, &bytes, &table, shape);
    let records = entries.iter().map(|entry| entry.foreign_record(random, &table)).collect();
    (table, records)
}

fn sound(random: &mut Random, shape: Grid) -> Case {
    let big = BIG.contains(&shape);
    Case { name: format!("{shape:?}"), bytes: records(random, shape).1.concat(), big }
}

fn spoiled(random: &mut Random, index: usize) -> Case {
    let flaws = flaws();
    let flaw = flaws[index % flaws.len()];
    loop {
        let shape = random.pick(&SMALL);
        let (table, records) = records(random, shape);
        // Not every sheet has a place for every flaw.
        if let Some((mut bytes, _)) = spoil(random, &table, &records, flaw) {
            if random.one_in(3) {
                bytes.extend(behind(random));
            }
            return Case { name: format!("{shape:?}, {flaw:?}"), bytes, big: false };
        }
    }
}

/// Small records, mostly of rows, at times too short for a row number: they say
/// how high the picture of a refused sheet is, if the fault is in front of them.
fn behind(random: &mut Random) -> Vec<u8> {
    let record = |random: &mut Random| {
        let kind = random.pick(&[KIND_PACKED, KIND_PLAIN, KIND_LINE, KIND_PACKED + 256]);
        let length = random.below(6);
        let mut body = random.bytes(length);
        if let Some(high) = body.get_mut(1) {
            *high = random.pick(&[0, 1, 3]);
        }
        framed(kind, &body)
    };
    (0..random.within(1..=3)).flat_map(|_| record(random)).collect()
}
