//! Random sheets: a table, then rows and lines, row numbers rising.

use super::entries::Entry;
use super::rows::row_length;
use crate::random::Random;
use crate::row::MAX_PIXELS;
use crate::sheet::{State, KIND_LINE, KIND_PACKED, KIND_PLAIN};
use crate::table::Table;

/// How large a sheet is to be.
#[derive(Clone, Copy)]
pub struct Size {
    /// Records after the table's.
    pub records: usize,
    /// The most pixels of a row or numbers of a line.
    pub longest: usize,
}

impl Size {
    /// Few records, none at times; a whole row or line at times.
    pub fn small(random: &mut Random) -> Size {
        let records = random.pick(&[0, 1, 2, 4, 6, 9]);
        Size { records, longest: MAX_PIXELS }
    }
}

/// The contents of a sheet that keeps all rules.
pub fn sheet(random: &mut Random, bytes: &[u8], table: &Table, size: Size) -> Vec<Entry> {
    let mut entries = vec![Entry::of_table(bytes)];
    let mut least = first_row(random);
    for _ in 0..size.records {
        let n = row_length(random).min(size.longest);
        let kind = random.pick(&[KIND_PACKED, KIND_PACKED, KIND_PLAIN, KIND_LINE]);
        let row = least + rise(random, least);
        match u16::try_from(row) {
            Ok(row) if kind != KIND_LINE => {
                entries.push(Entry::of_row(random, table, kind, row, n));
                least = u32::from(row) + 1;
            }
            // A line, or no row number is left.
            _ => entries.push(Entry::of_line(random, n)),
        }
    }
    entries
}

/// Any state within its limits, though no sheet may lead to it.
pub fn any_state(random: &mut Random) -> State {
    let has_table = random.pick(&[0, 1, 1, 1]);
    let low = random.below(20) as u32;
    let any = random.below(65_537) as u32;
    State { has_table, least_row: random.pick(&[0, low, any, 65_535, 65_536]) }
}

/// Any state outside its limits.
pub fn odd_state(random: &mut Random) -> State {
    let odd = random.next_u32().max(2);
    let has_table = random.pick(&[0, 1, 2, 256, u32::MAX, odd]);
    let least = random.within(65_537..=1 << 31) as u32;
    let outside = random.pick(&[65_537, 1 << 17, u32::MAX, least]);
    let within = random.below(65_537) as u32;
    let least_row = if has_table > 1 { random.pick(&[0, within, outside]) } else { outside };
    State { has_table, least_row }
}

fn first_row(random: &mut Random) -> u32 {
    match random.below(8) {
        0 => random.within(65_530..=65_535) as u32,
        1 => random.below(65_536) as u32,
        _ => 0,
    }
}

/// Mostly to the next number, at times far, at times to the very last.
fn rise(random: &mut Random, least: u32) -> u32 {
    match random.below(100) {
        0..=59 => 0,
        60..=94 => random.below(10) as u32,
        95..=98 => random.below(1000) as u32,
        _ => 65_535u32.saturating_sub(least),
    }
}

#[cfg(test)]
mod tests {
    use super::*;
    use crate::known::plain_table;
    use crate::listing::list_sheet;

    #[test]
    fn sheets_keep_all_rules() {
        let (mut random, bytes) = (Random::new(34), plain_table());
        let table = Table::parse(&bytes).unwrap();
        let mut last_row = false;
        for _ in 0..200 {
            let size = Size { longest: 30, ..Size::small(&mut random) };
            let entries = sheet(&mut random, &bytes, &table, size);
            assert_eq!(entries.len(), size.records + 1);
            last_row |= entries.iter().any(|entry| entry.row == u16::MAX);
            let records = entries.iter().map(|entry| entry.foreign_record(&mut random, &table));
            let text = list_sheet(&records.collect::<Vec<_>>().concat());
            assert!(text.contains("\ndone rows"), "{text}");
        }
        assert!(last_row, "the greatest row number arises");
    }

    #[test]
    fn states() {
        let mut random = Random::new(37);
        let within = |state: State| state.has_table <= 1 && state.least_row <= 65_536;
        for _ in 0..500 {
            assert!(within(any_state(&mut random)));
            assert!(!within(odd_state(&mut random)));
        }
    }
}
