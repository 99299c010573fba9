//! PGM pictures that become sheets.

use crate::outcomes::{number_of, Outcomes};
use crate::trial::{Case, Desk};
use second::desk::pgm_to_sheet;
use second::generate::damage::{damaged_table, damages};
use second::generate::pgms::flaws::{change, changes, Change};
use second::generate::pgms::{pgm, size};
use second::generate::tables::any_table;
use second::known::plain_table;
use second::random::Random;
use second::table::Table;

pub fn compare(
    desk: &Desk,
    random: &mut Random,
    index: usize,
    outcomes: &mut Outcomes,
) -> Result<(), String> {
    let table = table(random, index);
    let case = picture(random, index, table.as_deref());
    let mut options = Vec::new();
    if let Some(table) = &table {
        options = vec!["--table".into(), desk.file("table", table)?];
    }
    let printed = desk.compare(random, "pgm_to_sheet", &options, &case, |name| {
        pgm_to_sheet(name, &case.bytes, table.as_deref())
    })?;
    let said = String::from_utf8_lossy(&printed.complaints);
    let more = said.starts_with("pgm_to_sheet: ");
    outcomes.add("pgm_to_sheet", if more { "0 and more bytes" } else { number_of(&said) })
}

/// None, a sound one, or one of the damages in turn.
fn table(random: &mut Random, index: usize) -> Option<Vec<u8>> {
    let damages = damages();
    match random.below(8) {
        0 => Some(damaged_table(random, damages[index % damages.len()])),
        1..=2 => Some(any_table(random).bytes()),
        3 => Some(plain_table()),
        _ => None,
    }
}

/// Some that are known, sound ones, and every change in turn.
fn picture(random: &mut Random, index: usize, table: Option<&[u8]>) -> Case {
    let changes = changes();
    let (size, kind) = match index {
        0 => ((1, 1), Change::Nothing),
        1 => ((4096, 700), Change::Nothing),
        2 => ((1, 65_536), Change::MoreBytes),
        _ if random.one_in(3) => (size(random), Change::Nothing),
        _ => (size(random), changes[index % changes.len()]),
    };
    // Heights that suit a table; where it is refused, any will do.
    let table = table.and_then(|table| Table::parse(table).ok());
    let table = table.or_else(|| Table::parse(&plain_table()).ok()).expect("it is accepted");
    let mut pgm = pgm(random, &table, size);
    let (bytes, _) = change(random, &mut pgm, kind);
    Case { name: format!("{kind:?}"), bytes, big: false }
}
