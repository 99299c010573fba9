//! Random scans: FITS files of two axes of 16-bit pixels.

pub mod cards;
pub mod flaws;

use super::rows::row;
use crate::fits::{BLOCK_BYTES, CARD_BYTES, FIRST_KEYWORDS, MAX_AXIS, MOST_BLOCKS};
use crate::random::Random;
use crate::table::Table;
use cards::{blank_cards, end, fixed, other_cards, scaling, spelled, Card};

/// The most cards that a header may have, END's among them.
pub const MOST_CARDS: usize = MOST_BLOCKS * BLOCK_BYTES / CARD_BYTES;
/// Cards of a block.
const BLOCK_CARDS: usize = BLOCK_BYTES / CARD_BYTES;
/// The cards that come first.
const FIRST: usize = FIRST_KEYWORDS.len();

/// A FITS file in its parts.
#[derive(Clone)]
pub struct Scan {
    /// END's is the last.
    pub cards: Vec<Card>,
    /// What follows END; as much of it stands as its block has room for.
    pub fill: Vec<Card>,
    pub width: usize,
    /// Row after row.
    pub pixels: Vec<i16>,
    /// What follows the last row.
    pub after: Vec<u8>,
}

/// How large a scan is to be.
#[derive(Clone, Copy)]
pub struct Size {
    pub width: usize,
    pub rows: usize,
    /// Cards between the first five and END's.
    pub others: usize,
}

impl Size {
    /// Mostly a small image, at times the longest rows, rarely the most rows.
    pub fn any(random: &mut Random) -> Size {
        let (width, rows) = match random.below(4000) {
            0 => (random.within(1..=3), random.within(MAX_AXIS - 1..=MAX_AXIS)),
            1..=40 => (random.within(MAX_AXIS - 1..=MAX_AXIS), random.within(1..=3)),
            41..=400 => (random.within(1..=300), random.within(1..=12)),
            401..=800 => (1, random.within(1..=4)),
            _ => (random.within(1..=24), random.within(1..=5)),
        };
        Size { width, rows, others: others(random) }
    }
}

/// Mostly few cards; at times END is the last of its block or the first of
/// the next, at times the very last that is looked at.
fn others(random: &mut Random) -> usize {
    let most = MOST_CARDS - FIRST - 1;
    match random.below(40) {
        0 => random.within(most - 2..=most),
        1 => random.below(most + 1),
        2..=7 => random.below(3 * BLOCK_CARDS),
        8..=13 => {
            let blocks = random.pick(&[1, 1, 2, 3]);
            blocks * BLOCK_CARDS - FIRST - random.below(3)
        }
        _ => random.below(7),
    }
}

/// A scan that keeps all rules.
pub fn scan(random: &mut Random, plain: &Table, size: Size) -> Scan {
    let mut cards = first_cards(random, size.width, size.rows);
    cards.extend(other_cards(random, size.others));
    cards.push(end(random));
    let heights = |random: &mut Random| row(random, plain, size.width);
    let pixels = (0..size.rows).flat_map(|_| heights(random)).map(|pixel| pixel as i16).collect();
    let (fill, after) = (fill(random), after(random, size));
    Scan { cards, fill, width: size.width, pixels, after }
}

fn first_cards(random: &mut Random, width: usize, rows: usize) -> Vec<Card> {
    let mut cards = vec![fixed(random, FIRST_KEYWORDS[0], "T")];
    let values = [16, 2, width, rows];
    for (keyword, value) in FIRST_KEYWORDS[1..].iter().zip(values) {
        let value = spelled(random, value);
        cards.push(fixed(random, keyword, &value));
    }
    cards
}

/// Blank, as it should be, or anything: it is not looked at.
fn fill(random: &mut Random) -> Vec<Card> {
    let mut cards = blank_cards(BLOCK_CARDS - 1);
    match random.below(4) {
        0 => cards.iter_mut().for_each(|card| random.fill(card)),
        1 => {
            cards[0] = scaling(random);
            cards[1] = end(random);
        }
        _ => {}
    }
    cards
}

/// Zeros to the block's end, nothing, or anything.
fn after(random: &mut Random, size: Size) -> Vec<u8> {
    let bytes = 2 * size.width * size.rows;
    let padding = bytes.next_multiple_of(BLOCK_BYTES) - bytes;
    let few = random.below(200);
    match random.below(4) {
        0 => Vec::new(),
        1 => random.bytes(few),
        _ => vec![0; padding],
    }
}

impl Scan {
    pub fn rows(&self) -> usize {
        self.pixels.len() / self.width
    }

    /// Where the image begins.
    pub fn start(&self) -> usize {
        CARD_BYTES * self.cards.len().next_multiple_of(BLOCK_CARDS)
    }

    /// Where a row begins.
    fn row_start(&self, row: usize) -> usize {
        self.start() + 2 * self.width * row
    }

    fn end_start(&self) -> usize {
        CARD_BYTES * (self.cards.len() - 1)
    }

    /// Puts a card somewhere between the first five and END, in place of
    /// another where there is no room for one more.
    fn put(&mut self, random: &mut Random, card: Card) {
        let last = self.cards.len() - 1;
        let any = random.within(FIRST..=last);
        let place = random.pick(&[FIRST, last, any]);
        if self.cards.len() < MOST_CARDS {
            self.cards.insert(place, card);
        } else {
            self.cards[place.min(last - 1)] = card;
        }
    }

    pub fn bytes(&self) -> Vec<u8> {
        let left = self.start() / CARD_BYTES - self.cards.len();
        let cards = self.cards.iter().chain(&self.fill[..left]);
        let mut bytes: Vec<u8> = cards.flatten().copied().collect();
        bytes.extend(self.pixels.iter().flat_map(|pixel| pixel.to_be_bytes()));
        bytes.extend_from_slice(&self.after);
        bytes
    }
}

#[cfg(test)]
mod tests {
    use super::*;
    use crate::conversion::Verdict;
    use crate::fits::Converter;

    #[test]
    fn scans_keep_all_rules() {
        let converter = Converter::default();
        let mut random = Random::new(50);
        let mut lengths = Vec::new();
        for _ in 0..500 {
            let size = Size { others: others(&mut random), width: 5, rows: 3 };
            let scan = scan(&mut random, &converter.codec().table, size);
            let (_, verdict) = converter.sheet(&scan.bytes());
            assert_eq!(verdict, Verdict::Done { rows: 3 });
            let image = converter.header(&scan.bytes(), &mut [0; 2078]);
            assert_eq!((image.width, image.rows, image.start), (5, 3, scan.start() as u32));
            lengths.push(scan.cards.len());
        }
        for length in [6, BLOCK_CARDS, BLOCK_CARDS + 1, 2 * BLOCK_CARDS, MOST_CARDS] {
            assert!(lengths.contains(&length), "{length}");
        }
    }

    #[test]
    fn sizes_reach_the_ends() {
        let mut random = Random::new(51);
        let sizes: Vec<Size> = (0..20_000).map(|_| Size::any(&mut random)).collect();
        for axis in [1, 4095, 4096] {
            assert!(sizes.iter().any(|size| size.width == axis), "{axis}");
        }
        assert!(sizes.iter().any(|size| size.rows >= MAX_AXIS - 1));
    }
}
