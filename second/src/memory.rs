//! Memory for the calls, inputs and what is lent for writing, at any address.
//! Where it stands changes from one to the next: on the heap, whose ends a
//! sanitizer or valgrind watches, or at the edge of pages, where the processor
//! does.

mod pages;

use std::hint::black_box;
use std::ops::Range;

use crate::random::Random;
use pages::{Block, Edge};

const GUARD: usize = 16;

/// Bytes with what stands beside them.
enum Whole {
    Heap(Box<[u8]>),
    Pages(Block),
}

impl Whole {
    fn bytes(&self) -> &[u8] {
        match self {
            Whole::Heap(bytes) => bytes,
            Whole::Pages(block) => block.bytes(),
        }
    }

    fn bytes_mut(&mut self) -> &mut [u8] {
        match self {
            Whole::Heap(bytes) => bytes,
            Whole::Pages(block) => block.bytes_mut(),
        }
    }
}

impl Clone for Whole {
    fn clone(&self) -> Whole {
        match self {
            Whole::Heap(bytes) => Whole::Heap(bytes.clone()),
            Whole::Pages(block) => Whole::Pages(Block::new(block.bytes(), block.edge())),
        }
    }
}

/// An input. It ends where its allocation ends, or begins or ends at the edge
/// of pages that are read-only.
pub struct Given {
    whole: Whole,
    start: usize,
    untouched: Box<[u8]>,
}

impl Given {
    pub fn new(random: &mut Random, bytes: &[u8]) -> Given {
        let drawn = random.below(3 * 16);
        let (start, stand) = (drawn / 3, drawn % 3);
        let mut whole = random.bytes(start);
        whole.extend_from_slice(bytes);
        // Boxed, it has no spare capacity.
        let whole = whole.into_boxed_slice();
        match stand {
            0 => Given { untouched: whole.clone(), whole: Whole::Heap(whole), start },
            1 => {
                let block = Block::read_only(&whole, Edge::End);
                Given { untouched: whole, whole: Whole::Pages(block), start }
            }
            _ => {
                let block = Block::read_only(bytes, Edge::Start);
                Given { untouched: bytes.into(), whole: Whole::Pages(block), start: 0 }
            }
        }
    }

    pub fn bytes(&self) -> &[u8] {
        &self.whole.bytes()[self.start..]
    }

    /// What was given, whatever a call has done since.
    pub fn original(&self) -> &[u8] {
        &self.untouched[self.start..]
    }

    pub fn is_untouched(&self) -> bool {
        // A shared slice counts as unchanged for the compiler.
        black_box(self.whole.bytes()) == black_box(&self.untouched[..])
    }
}

/// Memory lent for writing, with random contents. A guard stands on either
/// side of it, which a comparison sees, or on one side the end of the
/// allocation or the edge of its pages.
#[derive(Clone)]
pub struct Lent {
    whole: Whole,
    lent: Range<usize>,
}

impl Lent {
    pub fn new(random: &mut Random, length: usize) -> Lent {
        let drawn = random.below(4 * 8);
        Lent::standing(random, GUARD + drawn / 4, length, drawn % 4)
    }

    /// For an answer of C's: at a multiple of 8, as the length must be.
    pub fn aligned(random: &mut Random, length: usize) -> Lent {
        // All memory that is asked for begins at a multiple of 16.
        let stand = random.below(4);
        Lent::standing(random, GUARD, length, stand)
    }

    /// With so many bytes before it, unless it begins its pages.
    fn standing(random: &mut Random, before: usize, length: usize, stand: usize) -> Lent {
        let whole = random.bytes(before + length + GUARD);
        let lent = before..before + length;
        let heap = |bytes: &[u8]| Whole::Heap(bytes.into());
        match stand {
            0 => Lent { whole: heap(&whole), lent },
            1 => Lent { whole: heap(&whole[..lent.end]), lent },
            2 => Lent { whole: Whole::Pages(Block::new(&whole[..lent.end], Edge::End)), lent },
            _ => {
                let block = Block::new(&whole[before..], Edge::Start);
                Lent { whole: Whole::Pages(block), lent: 0..length }
            }
        }
    }

    /// For calls that are lent no memory.
    pub fn nothing() -> Lent {
        Lent { whole: Whole::Heap(Box::new([])), lent: 0..0 }
    }

    pub fn bytes(&self) -> &[u8] {
        &self.whole.bytes()[self.lent.clone()]
    }

    pub fn bytes_mut(&mut self) -> &mut [u8] {
        let lent = self.lent.clone();
        &mut self.whole.bytes_mut()[lent]
    }

    /// Whether nothing but the first `count` lent bytes differs, guards
    /// included.
    pub fn same_after(&self, other: &Lent, count: usize) -> bool {
        self.same_outside(other, 0..count)
    }

    /// Whether nothing but these of the lent bytes differ, guards included.
    pub fn same_outside(&self, other: &Lent, range: Range<usize>) -> bool {
        let (start, end) = (self.lent.start + range.start, self.lent.start + range.end);
        let (these, others) = (self.whole.bytes(), other.whole.bytes());
        these[..start] == others[..start] && these[end..] == others[end..]
    }
}

impl PartialEq for Lent {
    fn eq(&self, other: &Lent) -> bool {
        self.lent == other.lent && self.whole.bytes() == other.whole.bytes()
    }
}

#[cfg(test)]
mod tests;
