//! Random sheets whose rows lie in many shapes, to be drawn and converted.

use super::entries::Entry;
use crate::random::Random;
use crate::row::MAX_PIXELS;
use crate::sheet::{KIND_PACKED, KIND_PLAIN};
use crate::table::Table;

/// How the rows of a sheet lie.
#[derive(Clone, Copy, PartialEq, Eq, Debug)]
pub enum Grid {
    /// No row missing, and all of one length.
    Whole,
    /// Row numbers missing.
    Gaps,
    /// Rows of any length, at times of none.
    Uneven,
    /// Both.
    Ragged,
    /// No height at all, at times no row.
    Hollow,
    /// Few narrow rows, up to the greatest number.
    Far,
    /// The longest rows, or nearly so.
    Wide,
    /// Thousands of narrow rows.
    Tall,
    /// The longest rows, and many.
    Large,
}

use Grid::*;

/// Those with few heights.
pub const SMALL: [Grid; 6] = [Whole, Gaps, Uneven, Ragged, Hollow, Far];
pub const BIG: [Grid; 3] = [Wide, Tall, Large];

/// The contents of a sheet that keeps all rules: a table, then rows and lines.
pub fn grid(random: &mut Random, bytes: &[u8], table: &Table, grid: Grid) -> Vec<Entry> {
    let mut entries = vec![Entry::of_table(bytes)];
    let lines_share = random.pick(&[3, 10, 1000]);
    let plain_share = random.pick(&[1, 2, 10, 1000]);
    for (number, n) in outline(random, grid) {
        while random.one_in(lines_share) {
            let numbers = random.below(9);
            entries.push(Entry::of_line(random, numbers));
        }
        let kind = if random.one_in(plain_share) { KIND_PLAIN } else { KIND_PACKED };
        entries.push(Entry::of_row(random, table, kind, number, n));
    }
    entries
}

/// The numbers of the rows, and how many heights they have.
fn outline(random: &mut Random, grid: Grid) -> Vec<(u16, usize)> {
    let few = random.within(1..=24);
    let width = width(random);
    let any = |random: &mut Random| random.within(0..=width);
    match grid {
        Whole => (0..).zip(vec![width; few]).collect(),
        Gaps => numbers(random, few).into_iter().zip(vec![width; few]).collect(),
        Uneven => (0..few as u16).map(|number| (number, any(random))).collect(),
        Ragged => numbers(random, few).into_iter().map(|number| (number, any(random))).collect(),
        Hollow => {
            let few = random.below(4);
            numbers(random, few).into_iter().zip(vec![0; few]).collect()
        }
        Far => far(random),
        Wide => {
            let width = random.within(MAX_PIXELS - 9..=MAX_PIXELS);
            (0..).zip(vec![width; few]).collect()
        }
        Tall => {
            let (width, rows) = (random.within(1..=12), random.within(1000..=5000));
            (0..).zip(vec![width; rows]).collect()
        }
        Large => {
            let rows = random.within(300..=700);
            (0..).zip(vec![MAX_PIXELS; rows]).collect()
        }
    }
}

fn width(random: &mut Random) -> usize {
    let wider = random.within(1..=300);
    let width = random.within(1..=40);
    random.pick(&[1, width, width, wider])
}

/// So many numbers, at times with others between them.
fn numbers(random: &mut Random, count: usize) -> Vec<u16> {
    let mut least = random.pick(&[0, 0, 1, 7]);
    let mut next = || {
        let number = least + random.pick(&[0, 0, 0, 1, 2, 30]);
        least = number + 1;
        number
    };
    (0..count).map(|_| next()).collect()
}

fn far(random: &mut Random) -> Vec<(u16, usize)> {
    let mut numbers: Vec<u16> =
        (0..random.within(1..=5)).map(|_| random.next_u32() as u16).collect();
    let last = random.pick(&[u16::MAX, u16::MAX - 1, numbers[0]]);
    numbers.push(last);
    numbers.sort_unstable();
    numbers.dedup();
    numbers.into_iter().map(|number| (number, random.within(1..=8))).collect()
}

#[cfg(test)]
mod tests {
    use super::*;
    use crate::known::plain_table;
    use crate::stored::Stored;

    /// Width, height and rows of such a sheet.
    fn sizes(random: &mut Random, kind: Grid) -> (usize, usize, usize) {
        let bytes = plain_table();
        let table = Table::parse(&bytes).unwrap();
        let entries = grid(random, &bytes, &table, kind);
        let records: Vec<_> = entries.iter().map(|entry| entry.own_record(&table)).collect();
        let sheet = records.concat();
        let stored = Stored::read(&sheet);
        assert!(stored.is_accepted(), "{kind:?}: {}", stored.verdict);
        (stored.width(), stored.height(), stored.rows.len())
    }

    #[test]
    fn grids_keep_all_rules() {
        let mut random = Random::new(80);
        for kind in SMALL {
            for _ in 0..60 {
                let (width, height, rows) = sizes(&mut random, kind);
                assert!(kind != Hollow || width == 0);
                assert!(kind != Whole || height == rows);
                assert!(width <= 300 && (kind == Far || height <= 1000));
            }
        }
        let (width, _, rows) = sizes(&mut random, Wide);
        assert!(width >= 4087 && rows <= 24);
        let (width, height, _) = sizes(&mut random, Tall);
        assert!(width <= 12 && height >= 1000);
    }
}
