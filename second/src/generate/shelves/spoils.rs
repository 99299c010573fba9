//! Changes to a place that no call makes.

use crate::random::Random;
use crate::shelf::{bytes_of, PLACE_BYTES, SIZE};
use crate::table::{HEADER_WORDS, MAX_ENTRIES};

#[derive(Clone, Copy, PartialEq, Eq, Debug)]
pub enum Spoil {
    /// A bit of the table.
    Bit,
    SizeZero,
    SizeTooLarge,
    SizeOther,
    /// A word of the table becomes 0.
    WordGone,
    /// A string is written over another.
    StringTwice,
    /// The bytes after the table.
    After,
    Whole,
}

use Spoil::*;

pub const SPOILS: [Spoil; 8] =
    [Bit, SizeZero, SizeTooLarge, SizeOther, WordGone, StringTwice, After, Whole];

/// Bytes that are written to a shelf.
pub struct Patch {
    pub place: usize,
    at: usize,
    bytes: Vec<u8>,
}

impl Patch {
    /// To the front of a place.
    pub fn new(place: usize, bytes: Vec<u8>) -> Patch {
        Patch { place, at: bytes_of(place).start, bytes }
    }

    pub fn apply(&self, shelf: &mut [u8]) {
        shelf[self.at..self.at + self.bytes.len()].copy_from_slice(&self.bytes);
    }
}

/// Spoils a place of a shelf that has it.
pub fn spoil(random: &mut Random, shelf: &[u8], place: usize, kind: Spoil) -> Patch {
    let held = &shelf[bytes_of(place)];
    let (at, bytes) = change(random, held, kind);
    Patch { place, at: bytes_of(place).start + at, bytes }
}

/// Where in the place something is written, and what.
fn change(random: &mut Random, place: &[u8], kind: Spoil) -> (usize, Vec<u8>) {
    let size = word(place, SIZE.start / 4);
    let words = HEADER_WORDS + size.min(MAX_ENTRIES) as usize;
    let size_word = |size: u32| (SIZE.start, size.to_le_bytes().to_vec());
    match kind {
        Bit => {
            let byte = random.below(4 * words);
            (byte, vec![place[byte] ^ 1 << random.below(8)])
        }
        SizeZero => size_word(0),
        SizeTooLarge => size_word(too_large(random, size)),
        SizeOther => size_word(other(random, size)),
        WordGone => (4 * random.below(words), vec![0; 4]),
        StringTwice => {
            let [from, to] = [(); 2].map(|()| random.within(3..=words - 1));
            (4 * to, place[4 * from..4 * from + 4].to_vec())
        }
        After => (4 * words, random.bytes(PLACE_BYTES - 4 * words)),
        Whole => (0, random.bytes(PLACE_BYTES)),
    }
}

/// Some are right in their low bits.
fn too_large(random: &mut Random, size: u32) -> u32 {
    let any = random.next_u32().max(MAX_ENTRIES + 1);
    let low = size.min(MAX_ENTRIES);
    random.pick(&[MAX_ENTRIES + 1, MAX_ENTRIES + 2, 1 << 16 | low, 1 << 30 | low, u32::MAX, any])
}

fn other(random: &mut Random, size: u32) -> u32 {
    let any = random.within(1..=MAX_ENTRIES as usize) as u32;
    let near = size.clamp(2, MAX_ENTRIES - 1);
    random.pick(&[near - 1, near + 1, any, MAX_ENTRIES])
}

fn word(place: &[u8], index: usize) -> u32 {
    place[4 * index..4 * index + 4].iter().rfold(0, |word, &byte| word << 8 | u32::from(byte))
}
