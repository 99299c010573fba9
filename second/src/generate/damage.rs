//! Tables damaged in each way that the rules forbid.

use super::tables::{any_table, table, Draft, SHAPES};
use crate::known::table_bytes;
use crate::random::Random;
use crate::refusal::{PREFIX, STRING_WORD, TABLE_SHAPE};
use crate::table::{Codeword, HEADER_WORDS, MAX_ENTRIES, MAX_ESCAPE_LENGTH, MAX_LENGTH};

#[derive(Clone, Copy, PartialEq, Eq, Debug)]
pub enum Damage {
    WordMissing,
    WordExtra,
    IncompleteWord,
    SizeZero,
    SizeTooLarge,
    SizeWraps,
    LowLimitTooLarge,
    LowLimitWraps,
    LengthZero,
    LengthTooLong,
    EscapeTooLong,
    BitAbove,
    EntryTwice,
    SpecialTwice,
    EntryIsSpecial,
    EntryBeginsEntry,
    EntryBeginsSpecial,
    SpecialBeginsEntry,
    SpecialBeginsSpecial,
    StringAndPrefix,
    ShapeAndString,
    BitFlipped,
    RandomWords,
}

use Damage::*;

const SHAPE_DAMAGES: [Damage; 8] = [
    WordMissing,
    WordExtra,
    IncompleteWord,
    SizeZero,
    SizeTooLarge,
    SizeWraps,
    LowLimitTooLarge,
    LowLimitWraps,
];
const STRING_DAMAGES: [Damage; 4] = [LengthZero, LengthTooLong, EscapeTooLong, BitAbove];
const PREFIX_DAMAGES: [Damage; 7] = [
    EntryTwice,
    SpecialTwice,
    EntryIsSpecial,
    EntryBeginsEntry,
    EntryBeginsSpecial,
    SpecialBeginsEntry,
    SpecialBeginsSpecial,
];

pub fn damages() -> Vec<Damage> {
    let others = [StringAndPrefix, ShapeAndString, BitFlipped, RandomWords];
    [&SHAPE_DAMAGES[..], &STRING_DAMAGES, &PREFIX_DAMAGES, &others].concat()
}

impl Damage {
    /// The number that the damage must be refused with, if it is certain.
    pub fn expected(self) -> Option<u32> {
        match self {
            BitFlipped | RandomWords => None,
            ShapeAndString => Some(TABLE_SHAPE),
            StringAndPrefix => Some(STRING_WORD),
            _ if SHAPE_DAMAGES.contains(&self) => Some(TABLE_SHAPE),
            _ if STRING_DAMAGES.contains(&self) => Some(STRING_WORD),
            _ => Some(PREFIX),
        }
    }
}

/// A table with the given damage.
pub fn damaged_table(random: &mut Random, damage: Damage) -> Vec<u8> {
    let mut draft = any_table(random);
    if draft.entries() < 2 {
        // Some damages need two entries.
        let shape = random.pick(&SHAPES);
        draft = table(random, shape, 2);
    }
    apply(random, &mut draft, damage)
}

fn apply(random: &mut Random, draft: &mut Draft, damage: Damage) -> Vec<u8> {
    match damage {
        StringAndPrefix | ShapeAndString => return apply_two(random, draft, damage),
        BitFlipped => {
            let word = random.below(draft.words.len());
            draft.words[word] ^= 1 << random.below(32);
        }
        RandomWords => return random_words(random),
        IncompleteWord => return incomplete(random, draft),
        _ if SHAPE_DAMAGES.contains(&damage) => damage_shape(random, draft, damage),
        _ if STRING_DAMAGES.contains(&damage) => damage_string(random, draft, damage),
        _ => damage_prefix(random, draft, damage),
    }
    draft.bytes()
}

/// Any bytes at all, or a right header with random strings after it.
fn random_words(random: &mut Random) -> Vec<u8> {
    if random.one_in(2) {
        let count = random.below(60);
        return random.bytes(count);
    }
    let entries = random.within(1..=5) as u32;
    let mut words = vec![random.next_u32(), random.below(8183) as u32, entries];
    for _ in 0..entries + 3 {
        let length = random.within(1..=6) as u32;
        words.push((random.next_u32() & ((1 << length) - 1)) << 5 | length);
    }
    table_bytes(&words)
}

/// The damage with the lower number is done last, so that it stands whole.
fn apply_two(random: &mut Random, draft: &mut Draft, damage: Damage) -> Vec<u8> {
    let (first, second) = match damage {
        StringAndPrefix => (random.pick(&PREFIX_DAMAGES), random.pick(&STRING_DAMAGES)),
        _ => (random.pick(&STRING_DAMAGES), random.pick(&SHAPE_DAMAGES)),
    };
    apply(random, draft, first);
    apply(random, draft, second)
}

fn incomplete(random: &mut Random, draft: &Draft) -> Vec<u8> {
    let mut bytes = draft.bytes();
    if random.one_in(2) {
        let extra = random.within(1..=3);
        bytes.extend(random.bytes(extra));
    } else {
        bytes.truncate(bytes.len() - random.within(1..=3));
    }
    bytes
}

fn damage_shape(random: &mut Random, draft: &mut Draft, damage: Damage) {
    let size = draft.entries() as u32;
    match damage {
        WordMissing => {
            let keep = random.below(draft.words.len());
            let keep = random.pick(&[keep, draft.words.len() - 1, keep.min(HEADER_WORDS)]);
            draft.words.truncate(keep);
        }
        WordExtra => {
            let extra = random.within(1..=3);
            draft.words.extend((0..extra).map(|_| random.next_u32()));
        }
        SizeZero => {
            // Also with no entries, so that the word count agrees.
            draft.words[2] = 0;
            draft.words.truncate(random.pick(&[HEADER_WORDS, draft.words.len()]));
        }
        SizeTooLarge => size_too_large(random, draft),
        // Four times the size wraps to the true number of bytes.
        SizeWraps => draft.words[2] = size | (random.within(1..=3) as u32) << 30,
        LowLimitTooLarge => {
            let least = MAX_ENTRIES - size + 1;
            let other = random.next_u32().max(least);
            draft.words[1] = random.pick(&[least, least + 1, MAX_ENTRIES, other]);
        }
        // The sum wraps to less than the size.
        _ => draft.words[1] = (random.below(size as usize) as u32).wrapping_sub(size),
    }
}

/// 8188 entries or more, with the words for them, all else being right.
fn size_too_large(random: &mut Random, draft: &mut Draft) {
    let more = random.within(8189..=9000);
    let size = random.pick(&[8188, more]) as u32;
    draft.words = vec![random.next_u32(), 0, size];
    draft.words.extend((0..size + 3).map(|bits| Codeword { bits, length: 14 }.to_word()));
}

fn damage_string(random: &mut Random, draft: &mut Draft, damage: Damage) {
    let word = random.within(3..=draft.words.len() - 1);
    match damage {
        LengthZero => {
            let kept = random.pick(&[0, draft.words[word]]);
            draft.words[word] = kept & !31;
        }
        LengthTooLong => {
            let other = random.next_u32();
            let kept = random.pick(&[0, draft.words[word], other]);
            draft.words[word] = kept & !31 | random.within(28..=31) as u32;
        }
        EscapeTooLong => {
            // A longer escape clashes with no other string.
            let longest = random.within(MAX_ESCAPE_LENGTH as usize + 1..=MAX_LENGTH as usize);
            draft.words[3] = extended(random, draft.words[3], longest as u32);
        }
        _ => {
            // A string of 27 bits has no bit above it.
            if draft.words[word] & 31 == MAX_LENGTH {
                draft.words[word] = 1;
            }
            let above = 5 + (draft.words[word] & 31) as usize;
            draft.words[word] |= 1 << random.within(above..=31);
        }
    }
}

/// The string of a word, with random bits after it up to `length`.
fn extended(random: &mut Random, word: u32, length: u32) -> u32 {
    let (bits, old) = (word >> 5, word & 31);
    let tail = random.next_u32() & ((1 << (length - old)) - 1);
    Codeword { bits: bits | tail << old, length }.to_word()
}

fn damage_prefix(random: &mut Random, draft: &mut Draft, damage: Damage) {
    let special = 3..=5;
    let entry = HEADER_WORDS..=draft.words.len() - 1;
    let (of_first, of_second) = match damage {
        EntryTwice | EntryBeginsEntry => (entry.clone(), entry),
        SpecialTwice | SpecialBeginsSpecial => (special.clone(), special),
        EntryIsSpecial | EntryBeginsSpecial => (entry, special),
        _ => (special, entry),
    };
    let first = random.within(of_first);
    let mut second = random.within(of_second.clone());
    while second == first {
        second = random.within(of_second.clone());
    }
    if matches!(damage, EntryTwice | SpecialTwice | EntryIsSpecial) {
        // The escape's string fits everywhere, another may be too long for it.
        let (from, to) = if second == 3 { (second, first) } else { (first, second) };
        draft.words[to] = draft.words[from];
    } else {
        make_begin(random, draft, first, second);
    }
}

/// Makes string `first` a proper beginning of string `second`.
fn make_begin(random: &mut Random, draft: &mut Draft, first: usize, second: usize) {
    let longest = if second == 3 { MAX_ESCAPE_LENGTH } else { MAX_LENGTH };
    let old = draft.words[first];
    let length = (old & 31).min(longest - 1);
    let bits = old >> 5 & ((1 << length) - 1);
    draft.words[first] = Codeword { bits, length }.to_word();
    let longer = random.within(length as usize + 1..=longest as usize) as u32;
    draft.words[second] = extended(random, draft.words[first], longer);
}

#[cfg(test)]
mod tests {
    use super::*;
    use crate::table::check;

    fn small_table(random: &mut Random) -> Draft {
        let (shape, entries) = (random.pick(&SHAPES), random.within(2..=40));
        table(random, shape, entries)
    }

    #[test]
    fn every_damage_has_its_number() {
        let mut random = Random::new(5);
        for damage in damages() {
            for _ in 0..300 {
                let mut draft = small_table(&mut random);
                let bytes = apply(&mut random, &mut draft, damage);
                if let Some(number) = damage.expected() {
                    assert_eq!(check(&bytes), (number, 0), "{damage:?}");
                }
            }
        }
    }

    /// An escape of 16 bits or more must be the only fault, so the same word
    /// must pass as an entry's.
    #[test]
    fn longer_escape_is_prefix_free() {
        let (mut random, mut seen) = (Random::new(6), 0);
        for _ in 0..300 {
            let mut draft = small_table(&mut random);
            apply(&mut random, &mut draft, EscapeTooLong);
            draft.words.swap(3, 6);
            if draft.words[3] & 31 <= MAX_ESCAPE_LENGTH {
                assert_eq!(check(&draft.bytes()).0, 0);
                seen += 1;
            }
        }
        assert!(seen > 0);
    }
}
