//! A table under which a number of sheets is tried.

use second::generate::damage::{damaged_table, damages};
use second::generate::tables::any_table;
use second::opened::Opened;
use second::random::Random;
use second::table::Table;

pub struct Trial {
    pub table: Opened,
    /// What is handed in before there is a table.
    pub none: Opened,
    /// A refused one, now and then handed in where it must not matter.
    pub refused: Opened,
    pub sheets: usize,
}

impl Trial {
    /// Fewer sheets for a large table: the library checks it at every call.
    pub fn new(random: &mut Random, table: &[u8]) -> Trial {
        let refused = loop {
            let damage = random.pick(&damages());
            let bytes = damaged_table(random, damage);
            let opened = Opened::new(random, &bytes);
            if opened.codec().is_err() {
                break opened;
            }
        };
        let sheets = match table.len() / 4 {
            0..=80 => 12,
            81..=1100 => 6,
            _ => 1,
        };
        let (table, none) = (Opened::new(random, table), Opened::new(random, &[]));
        Trial { table, none, refused, sheets }
    }

    pub fn any(random: &mut Random) -> Trial {
        let table = any_table(random).bytes();
        Trial::new(random, &table)
    }

    pub fn model(&self) -> &Table {
        &self.table.codec().expect("a trial's table is accepted").table
    }

    /// The table, no table or a refused one.
    pub fn any_table(&self, random: &mut Random) -> &Opened {
        match random.below(3) {
            0 => &self.table,
            1 => &self.none,
            _ => &self.refused,
        }
    }
}
