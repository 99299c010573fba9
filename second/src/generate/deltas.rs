//! Random rows of DELTA arrays.

pub mod flaws;
mod foreign;
mod rows;

#[cfg(test)]
mod tests;

use crate::delta::{largest, least, write, Flag, Written, WIDTHS};
use crate::random::Random;

/// The bits of DATA's elements and of VALUE's.
#[derive(Clone, Copy, PartialEq, Eq, Debug)]
pub struct Widths {
    pub data: u32,
    pub value: u32,
}

impl Widths {
    pub fn all() -> impl Iterator<Item = Widths> {
        WIDTHS.into_iter().flat_map(|data| WIDTHS.map(|value| Widths { data, value }))
    }

    pub fn any(random: &mut Random) -> Widths {
        Widths { data: random.pick(&WIDTHS), value: random.pick(&WIDTHS) }
    }

    /// Whether two elements are enough for a sum that leaves 32 bits.
    pub fn leave_soon(self) -> bool {
        self.data == 32 || self.value == 32
    }

    /// MAX, the largest element of DATA.
    fn max(self) -> i32 {
        largest(self.data)
    }

    /// The largest element that is no flag.
    pub fn most(self) -> i32 {
        Flag::Fulls.element(self.max()) - 1
    }
}

/// What a row looks like, or how it is stored.
#[derive(Clone, Copy, PartialEq, Eq, Debug)]
pub enum Sort {
    /// Small differences.
    Walk,
    /// Differences on either side of what DATA can have.
    Edges,
    /// Any value after any other.
    Jumps,
    /// The least and the largest values.
    Ends,
    /// Many values that are the same as the one before.
    Runs,
    /// Many bad elements.
    Spots,
    /// All of these.
    Mixed,
    /// One value all along, or none.
    OneRun,
    /// In arrays that no writer makes: flags where others would do, counts of 1.
    Foreign,
}

pub const SORTS: [Sort; 9] = [
    Sort::Walk,
    Sort::Edges,
    Sort::Jumps,
    Sort::Ends,
    Sort::Runs,
    Sort::Spots,
    Sort::Mixed,
    Sort::OneRun,
    Sort::Foreign,
];

/// What an element of DATA is, and what it takes.
#[derive(Clone, Copy, Debug)]
pub struct Item {
    /// A difference has none.
    pub flag: Option<Flag>,
    /// The elements of the row before it, and how many it gives without the
    /// good one after bad ones.
    start: usize,
    elements: usize,
    /// The values before its own, and how many these are.
    value: usize,
    values: usize,
    /// The counts before its own.
    count: usize,
}

impl Item {
    pub fn has_count(&self) -> bool {
        self.flag.is_some_and(Flag::has_count)
    }

    fn is_bad(&self) -> bool {
        self.flag.is_some_and(Flag::is_bad)
    }
}

/// A row of one element or more, and arrays of it.
#[derive(Clone)]
pub struct Sound {
    pub widths: Widths,
    pub row: Vec<Option<i32>>,
    pub written: Written,
    pub items: Vec<Item>,
}

impl Sound {
    pub fn new(random: &mut Random, widths: Widths, sort: Sort) -> Sound {
        let length = length(random);
        let (row, written) = match sort {
            Sort::Foreign => foreign::row(random, widths, length),
            _ => {
                let row = rows::row(random, widths, sort, length);
                let written = write(&row, widths.data);
                (row, written)
            }
        };
        let items = items(widths, &written, row.len());
        Sound { widths, row, written, items }
    }
}

/// Mostly short.
fn length(random: &mut Random) -> usize {
    match random.below(200) {
        0..=19 => random.within(1..=3),
        20..=189 => random.within(1..=50),
        190..=198 => random.within(50..=600),
        _ => random.within(600..=5000),
    }
}

fn items(widths: Widths, written: &Written, n: usize) -> Vec<Item> {
    let (mut start, mut value, mut count) = (0, 0, 0);
    let item = |&element: &i32| {
        let flag = Flag::of(element, widths.max());
        let mut item = Item { flag, start, elements: 1, value, values: 0, count };
        if item.has_count() {
            item.elements = written.counts[count] as usize;
            count += 1;
        }
        item.values = match flag {
            None => 0,
            Some(Flag::Full | Flag::Alike) => 1,
            Some(Flag::BadRun | Flag::OneBad) => usize::from(start + item.elements < n),
            Some(Flag::Fulls) => item.elements,
        };
        start += item.elements + if item.is_bad() { item.values } else { 0 };
        value += item.values;
        item
    };
    written.data.iter().map(item).collect()
}

/// A number of so many bits: any, a small one, or one near either end.
fn any_of_width(random: &mut Random, bits: u32) -> i32 {
    let any = random.next_u32() as i32 >> (32 - bits);
    let (low, high) = (least(bits), largest(bits));
    let near = random.below(8) as i32;
    random.pick(&[any, any, near - 4, low + near, high - near, low, high])
}

/// The number as near as the bits allow.
fn within_bits(number: i64, bits: u32) -> i32 {
    number.clamp(least(bits).into(), largest(bits).into()) as i32
}
