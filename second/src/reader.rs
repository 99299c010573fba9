//! Reading packed words bit by bit along a tree of the codewords.

use crate::answers::Unpacked;
use crate::refusal::{
    DONE, ESCAPED_BAD, HEIGHT, NO_CODEWORD, ROOM, TOO_MANY, UNUSED_BIT, WORDS_END,
};
use crate::row::{BIAS_SPOT, MAX_HEIGHT, MAX_PIXELS, PIXEL_SPOT};
use crate::table::{Codeword, Table, BAD_BIAS, BAD_PIXEL, ESCAPE, HEIGHT_BITS};

/// Where a branch leads.
#[derive(Clone, Copy)]
enum Branch {
    Unused,
    Node(u32),
    /// The end of a codeword, by its index in the table.
    Leaf(u32),
}

/// A checked table with the binary tree of its codewords.
pub struct Codec {
    pub table: Table,
    nodes: Vec<[Branch; 2]>,
}

impl Codec {
    /// Checks the table, or gives the number of its refusal.
    pub fn open(table: &[u8]) -> Result<Codec, u32> {
        Table::parse(table).map(Codec::new)
    }

    pub fn new(table: Table) -> Codec {
        let mut nodes = vec![[Branch::Unused; 2]];
        for (index, &codeword) in table.codewords.iter().enumerate() {
            insert(&mut nodes, codeword, index as u32);
        }
        Codec { table, nodes }
    }
}

fn insert(nodes: &mut Vec<[Branch; 2]>, codeword: Codeword, index: u32) {
    let mut node = 0;
    for place in 0..codeword.length - 1 {
        let bit = (codeword.bits >> place & 1) as usize;
        if let Branch::Node(next) = nodes[node][bit] {
            node = next as usize;
        } else {
            // No leaf is on the way: the table is prefix-free.
            nodes[node][bit] = Branch::Node(nodes.len() as u32);
            node = nodes.len();
            nodes.push([Branch::Unused; 2]);
        }
    }
    let last = (codeword.bits >> (codeword.length - 1) & 1) as usize;
    nodes[node][last] = Branch::Leaf(index);
}

#[derive(Clone, Copy, PartialEq, Eq, Debug)]
pub enum Item {
    Difference(i32),
    BadPixel,
    BadBias,
    Escaped(u16),
}

/// An item with its pixel, or a refusal; the bits it uses either way.
struct Read {
    outcome: Result<(Item, u16), u32>,
    used: usize,
}

fn fault(number: u32, used: usize) -> Read {
    Read { outcome: Err(number), used }
}

/// A place in a row's words, with what the row has come to there.
#[derive(Clone)]
pub struct Cursor<'a> {
    codec: &'a Codec,
    /// The whole words lent.
    words: &'a [u8],
    pub place: usize,
    /// None until some pixel has become previous.
    pub previous: Option<i64>,
}

impl<'a> Cursor<'a> {
    pub fn new(codec: &'a Codec, words: &'a [u8]) -> Cursor<'a> {
        // An incomplete word at the end counts for nothing.
        let words = &words[..words.len() / 4 * 4];
        Cursor { codec, words, place: 0, previous: None }
    }

    /// Gives one item with its pixel and moves past it, or refuses and stays.
    pub fn next_item(&mut self) -> Result<(Item, u16), u32> {
        let read = self.read_item();
        if let Ok((item, pixel)) = read.outcome {
            self.advance(item, pixel, read.used);
        }
        read.outcome
    }

    fn advance(&mut self, item: Item, pixel: u16, used: usize) {
        self.place += used;
        match item {
            Item::Difference(_) => self.previous = Some(i64::from(pixel)),
            Item::Escaped(_) => self.previous = self.previous.or(Some(i64::from(pixel))),
            Item::BadPixel | Item::BadBias => {}
        }
    }

    fn left(&self) -> usize {
        // A caller's own place may be past the words.
        (8 * self.words.len()).saturating_sub(self.place)
    }

    /// Words and bits both run upward, so bit `place` is found by its byte.
    #[inline]
    fn bit(&self, place: usize) -> usize {
        usize::from(self.words[place >> 3] >> (place & 7) & 1)
    }

    fn read_item(&self) -> Read {
        let (mut node, left) = (0, self.left());
        for used in 1..=left {
            match self.codec.nodes[node][self.bit(self.place + used - 1)] {
                Branch::Node(next) => node = next as usize,
                Branch::Leaf(index) => return self.item_of(index as usize, used),
                Branch::Unused => return fault(NO_CODEWORD, used),
            }
        }
        fault(WORDS_END, left)
    }

    /// The item whose codeword ends `used` bits after the place.
    fn item_of(&self, index: usize, used: usize) -> Read {
        match index {
            ESCAPE => self.escaped(used),
            BAD_PIXEL => Read { outcome: Ok((Item::BadPixel, PIXEL_SPOT)), used },
            BAD_BIAS => Read { outcome: Ok((Item::BadBias, BIAS_SPOT)), used },
            _ => {
                let difference = self.codec.table.difference_of(index);
                let height = self.previous.unwrap_or(0) + i64::from(difference);
                if !(0..=i64::from(MAX_HEIGHT)).contains(&height) {
                    return fault(HEIGHT, used);
                }
                Read { outcome: Ok((Item::Difference(difference), height as u16)), used }
            }
        }
    }

    fn escaped(&self, used: usize) -> Read {
        let bits = HEIGHT_BITS as usize;
        if self.left() < used + bits {
            return fault(WORDS_END, self.left());
        }
        let start = self.place + used;
        let height = (0..bits).fold(0, |height, b| height | self.bit(start + b) << b);
        let used = used + bits;
        if height > MAX_HEIGHT as usize {
            return fault(ESCAPED_BAD, used);
        }
        let height = height as u16;
        Read { outcome: Ok((Item::Escaped(height), height)), used }
    }

    /// The refusal of a row that is read up to here.
    fn stopped(&self, number: u32) -> Unpacked {
        Unpacked::stopped(number, self.place as u32)
    }

    /// Whether the last used word has a bit set after the used ones.
    fn unused_bit_set(&self) -> bool {
        let end = self.place.next_multiple_of(32);
        (self.place..end).any(|place| self.bit(place) == 1)
    }
}

/// Unpacks `n` pixels; answers the bits, or where the reading stopped.
pub fn unpack(table: &[u8], words: &[u8], n: u64, pixels: &mut [u8]) -> Unpacked {
    match Codec::open(table) {
        Ok(codec) => unpack_under(&codec, words, n, pixels),
        Err(number) => Unpacked::refused(number),
    }
}

/// Unpacks under a table that is already checked.
pub fn unpack_under(codec: &Codec, words: &[u8], n: u64, pixels: &mut [u8]) -> Unpacked {
    unpack_measured(codec, words, n, pixels).0
}

/// As `unpack_under`, and gives the bits that the reading, refused or not, used
/// by definition.
pub fn unpack_measured(
    codec: &Codec,
    words: &[u8],
    n: u64,
    pixels: &mut [u8],
) -> (Unpacked, usize) {
    if n > MAX_PIXELS as u64 {
        return (Unpacked::refused(TOO_MANY), 0);
    }
    let (lent, _) = pixels.as_chunks_mut::<2>();
    let Some(lent) = lent.get_mut(..n as usize) else {
        return (Unpacked::refused(ROOM), 0);
    };
    // Read aside first: a refused call must leave the lent memory alone.
    let mut row = [0; MAX_PIXELS];
    let row = &mut row[..n as usize];
    let (answer, used) = read_row(Cursor::new(codec, words), row);
    if answer.number == DONE {
        for (lent, pixel) in lent.iter_mut().zip(row) {
            *lent = pixel.to_le_bytes();
        }
    }
    (answer, used)
}

/// Fills the row; gives the answer and the bits used, refused or not.
fn read_row(mut cursor: Cursor, row: &mut [u16]) -> (Unpacked, usize) {
    for place in row {
        let read = cursor.read_item();
        match read.outcome {
            Ok((item, pixel)) => {
                *place = pixel;
                cursor.advance(item, pixel, read.used);
            }
            // The item's first bit, however many bits it uses.
            Err(number) => return (cursor.stopped(number), cursor.place + read.used),
        }
    }
    // The first unused bit, whichever of them is set.
    let refused = cursor.unused_bit_set().then(|| cursor.stopped(UNUSED_BIT));
    (refused.unwrap_or(Unpacked::done(cursor.place as u32)), cursor.place)
}

#[cfg(test)]
mod tests;
