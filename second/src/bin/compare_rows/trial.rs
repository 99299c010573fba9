//! A table under which a number of rows and runs is tried.

use second::command::hex;
use second::generate::damage::{damaged_table, damages};
use second::generate::tables::any_table;
use second::known::plain_table;
use second::opened::Opened;
use second::random::Random;
use second::reader::Codec;
use second::table::Table;

pub struct Trial {
    /// The table, and the second program's reading of it, done once.
    pub opened: Opened,
    pub cases: usize,
    /// What rows are made for: this table, or the plain one if refused.
    model: Table,
}

impl Trial {
    pub fn new(random: &mut Random, table: &[u8], cases: usize) -> Trial {
        let opened = Opened::new(random, table);
        let model = match opened.codec() {
            Ok(codec) => codec.table.clone(),
            Err(_) => Table::parse(&plain_table()).expect("the plain table is accepted"),
        };
        Trial { opened, cases, model }
    }

    /// Any table, for fewer cases if it is large: the library checks it at
    /// every call.
    pub fn any(random: &mut Random) -> Trial {
        if random.one_in(8) {
            let damage = random.pick(&damages());
            let table = damaged_table(random, damage);
            return Trial::new(random, &table, 10);
        }
        let draft = any_table(random);
        let cases = match draft.entries() {
            0..=64 => 100,
            65..=1024 => 60,
            _ => 20,
        };
        Trial::new(random, &draft.bytes(), cases)
    }

    pub fn table(&self) -> &[u8] {
        self.opened.bytes()
    }

    pub fn codec(&self) -> Result<&Codec, u32> {
        self.opened.codec()
    }

    pub fn model(&self) -> &Table {
        &self.model
    }

    /// Fails if a call has written to the table.
    pub fn check_unwritten(&self) -> Result<(), String> {
        if self.opened.given.is_untouched() {
            return Ok(());
        }
        Err(self.difference("a call wrote to the table", &[]))
    }

    /// The text of a report: what differs, and all bytes given and got.
    pub fn difference(&self, what: &str, parts: &[(&str, &[u8])]) -> String {
        let mut text = format!("{what}\ntable\n{}", hex(self.opened.given.original()));
        for (name, bytes) in parts {
            text.push_str(&format!("{name}, {} bytes\n{}", bytes.len(), hex(bytes)));
        }
        text
    }
}
