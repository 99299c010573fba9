//! Random tables that keep all rules.

use crate::known::table_bytes;
use crate::random::Random;
use crate::table::{
    Codeword, HEADER_WORDS, MAX_ENTRIES, MAX_ESCAPE_LENGTH, MAX_LENGTH, ZERO_DIFFERENCE,
};

/// How the codewords of a table lie in their tree.
#[derive(Clone, Copy, PartialEq, Eq, Debug)]
pub enum Shape {
    /// All of one length.
    Balanced,
    /// Uneven halves and some unused branches.
    Skewed,
    /// One codeword parts at each bit, as long as the lengths allow.
    Chain,
    /// Uneven halves and no unused branch.
    Full,
    /// A long common beginning, so that most strings are near 27 bits.
    Deep,
}

pub const SHAPES: [Shape; 5] =
    [Shape::Balanced, Shape::Skewed, Shape::Chain, Shape::Full, Shape::Deep];

/// A table's words, to be damaged or turned into bytes.
#[derive(Clone)]
pub struct Draft {
    pub words: Vec<u32>,
}

impl Draft {
    pub fn bytes(&self) -> Vec<u8> {
        table_bytes(&self.words)
    }

    pub fn entries(&self) -> usize {
        self.words.len() - HEADER_WORDS
    }
}

/// Mostly small, seldom large: large tables take long to check by pairs.
pub fn entry_count(random: &mut Random) -> usize {
    let most = MAX_ENTRIES as usize;
    match random.below(1000) {
        0..=99 => random.within(1..=4),
        100..=799 => random.within(1..=64),
        800..=979 => random.within(65..=1024),
        980..=996 => random.within(1025..=most),
        _ => random.pick(&[most - 1, most]),
    }
}

pub fn any_table(random: &mut Random) -> Draft {
    let (shape, entries) = (random.pick(&SHAPES), entry_count(random));
    table(random, shape, entries)
}

/// A table of the given shape and number of entries.
pub fn table(random: &mut Random, shape: Shape, entries: usize) -> Draft {
    let count = entries + 3;
    let (escape, mut others) = match shape {
        Shape::Balanced => balanced(random, count),
        _ => grown(random, shape, count),
    };
    random.shuffle(&mut others);
    let low_limit = low_limit(random, entries);
    if random.one_in(2) {
        fit(&mut others[2..], low_limit);
    }
    let mut words = vec![random.next_u32(), low_limit as u32, entries as u32, escape.to_word()];
    words.extend(others.iter().map(|codeword| codeword.to_word()));
    Draft { words }
}

/// Differences around 0, at either end, or anywhere.
fn low_limit(random: &mut Random, entries: usize) -> usize {
    let greatest = MAX_ENTRIES as usize - entries;
    let centred = (ZERO_DIFFERENCE as usize).saturating_sub(entries / 2).min(greatest);
    match random.below(8) {
        0 => 0,
        1 => greatest,
        2 => random.within(0..=greatest),
        _ => centred,
    }
}

/// Gives the shortest codewords to the smallest differences.
fn fit(entries: &mut [Codeword], low_limit: usize) {
    entries.sort_by_key(|codeword| codeword.length);
    let mut places: Vec<usize> = (0..entries.len()).collect();
    places.sort_by_key(|&place| (place + low_limit).abs_diff(ZERO_DIFFERENCE as usize));
    let sorted = entries.to_vec();
    for (place, codeword) in places.into_iter().zip(sorted) {
        entries[place] = codeword;
    }
}

/// Distinct strings of one length, which suits the escape as well.
fn balanced(random: &mut Random, count: usize) -> (Codeword, Vec<Codeword>) {
    let least = count.next_power_of_two().trailing_zeros();
    let most = (least + 2).min(MAX_ESCAPE_LENGTH);
    let length = random.within(least as usize..=most as usize) as u32;
    let mut strings: Vec<u32> = (0..1 << length).collect();
    random.shuffle(&mut strings);
    let mut codewords = strings[..count].iter().map(|&bits| Codeword { bits, length });
    let escape = codewords.next().expect("a table has four codewords or more");
    (escape, codewords.collect())
}

fn grown(random: &mut Random, shape: Shape, count: usize) -> (Codeword, Vec<Codeword>) {
    let parting = random.pick(&[1, 3, 20, 1000]);
    let mut grower = Grower { random, shape, parting, escape: None, others: Vec::new() };
    grower.grow(Codeword { bits: 0, length: 0 }, count, true);
    (grower.escape.expect("grown from the root"), grower.others)
}

/// Deals codewords out to the branches of a tree.
struct Grower<'a> {
    random: &'a mut Random,
    shape: Shape,
    /// Once in so many branchings the escape may leave the larger part.
    parting: usize,
    escape: Option<Codeword>,
    others: Vec<Codeword>,
}

/// The codewords that a branch at this depth can hold; one of them being the
/// escape, which ends at 15 bits and so wastes what lies below.
fn capacity(depth: u32, has_escape: bool) -> usize {
    let all = 1 << (MAX_LENGTH - depth);
    let wasted = (1 << (MAX_LENGTH - MAX_ESCAPE_LENGTH)) - 1;
    if has_escape {
        all - wasted
    } else {
        all
    }
}

/// The number nearest to the wanted one that both branches can hold.
fn fitting_share(wanted: usize, depth: u32, count: usize, escape_side: Option<bool>) -> usize {
    let in_zero = escape_side == Some(false);
    let in_one = escape_side == Some(true);
    let least = count.saturating_sub(capacity(depth, in_zero)).max(usize::from(in_one));
    let most = capacity(depth, in_one).min(count - usize::from(in_zero));
    wanted.clamp(least, most)
}

impl Grower<'_> {
    /// Puts `count` codewords below `at`, the escape among them or not.
    fn grow(&mut self, at: Codeword, count: usize, has_escape: bool) {
        if count == 1 && !self.stretches(at.length, has_escape) {
            match has_escape {
                true => self.escape = Some(at),
                false => self.others.push(at),
            }
        } else if count > 0 {
            let wanted = self.wanted_share(count);
            let escape_side = has_escape.then(|| self.escape_side(wanted, count));
            let ones = fitting_share(wanted, at.length + 1, count, escape_side);
            for (bit, share) in [(false, count - ones), (true, ones)] {
                let bits = at.bits | u32::from(bit) << at.length;
                let child = Codeword { bits, length: at.length + 1 };
                self.grow(child, share, escape_side == Some(bit));
            }
        }
    }

    /// Whether a lone codeword goes on, leaving unused branches behind.
    fn stretches(&mut self, depth: u32, is_escape: bool) -> bool {
        let longest = if is_escape { MAX_ESCAPE_LENGTH } else { MAX_LENGTH };
        depth == 0 || depth < longest && self.shape != Shape::Full && self.random.one_in(6)
    }

    /// The branch of the escape: any, or the one with more codewords, where
    /// it gets longer.
    fn escape_side(&mut self, ones: usize, count: usize) -> bool {
        if self.random.one_in(self.parting) {
            self.random.one_in(2)
        } else {
            2 * ones > count
        }
    }

    /// How many codewords the shape would send to the 1-branch.
    fn wanted_share(&mut self, count: usize) -> usize {
        let all_on_one_side = self.random.pick(&[0, count]);
        match self.shape {
            _ if count == 1 => all_on_one_side,
            Shape::Full => self.random.within(1..=count - 1),
            Shape::Chain => self.random.pick(&[1, count - 1]),
            Shape::Deep if !self.random.one_in(30) => all_on_one_side,
            Shape::Skewed if self.random.one_in(10) => all_on_one_side,
            Shape::Skewed => count / self.random.within(2..=9),
            _ => count / 2,
        }
    }
}

#[cfg(test)]
mod tests {
    use super::*;
    use crate::table::{check, Table};

    #[test]
    fn every_shape_and_size_is_accepted() {
        let mut random = Random::new(1);
        for shape in SHAPES {
            for entries in [1, 2, 3, 31, 500, 8187] {
                let draft = table(&mut random, shape, entries);
                assert_eq!(draft.entries(), entries);
                assert_eq!(check(&draft.bytes()).0, 0, "{shape:?} {entries}");
            }
        }
    }

    #[test]
    fn lengths_of_all_kinds_arise() {
        let mut random = Random::new(2);
        let (mut escapes, mut others) = ([false; 16], [false; 28]);
        for _ in 0..2000 {
            let (shape, entries) = (random.pick(&SHAPES), random.within(1..=40));
            let table = Table::parse(&table(&mut random, shape, entries).bytes()).unwrap();
            escapes[table.escape().length as usize] = true;
            table.codewords[1..].iter().for_each(|c| others[c.length as usize] = true);
        }
        assert!(escapes[1..].iter().all(|&seen| seen), "{escapes:?}");
        assert!(others[1..].iter().all(|&seen| seen), "{others:?}");
    }

    #[test]
    fn full_tables_have_no_unused_branch() {
        let mut random = Random::new(3);
        for entries in [1, 10, 300] {
            let bytes = table(&mut random, Shape::Full, entries).bytes();
            let codewords = Table::parse(&bytes).unwrap().codewords;
            let share: u64 = codewords.iter().map(|c| 1 << (27 - c.length)).sum();
            assert_eq!(share, 1 << 27);
        }
    }
}
