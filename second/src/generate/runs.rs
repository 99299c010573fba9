//! Random runs of words to unpack, sound and damaged.
//!
//! A run is written bit by bit into a list, apart from the packer, and comes
//! with the answer that the rules demand where that is known.

use crate::random::Random;
use crate::refusal::{ESCAPED_BAD, HEIGHT};
use crate::row::{BIAS_SPOT, MAX_HEIGHT, PIXEL_SPOT};
use crate::table::{Codeword, Table, BAD_BIAS, BAD_PIXEL, FIRST_ENTRY, HEIGHT_BITS};

/// What a run must be read as.
#[derive(Clone, PartialEq, Eq, Debug)]
pub enum Expected {
    /// These pixels, from so many bits.
    Pixels(Vec<u16>, usize),
    /// By this number, with this place.
    Refused(u32, usize),
    Unknown,
}

/// A run's bits, the bit where each of its items begins, and what it must be
/// read as.
pub struct Run {
    pub bits: Vec<bool>,
    pub starts: Vec<usize>,
    pub expected: Expected,
}

impl Run {
    /// Where the first item begins that does not end in so many bits; they are
    /// fewer than the run has.
    pub fn cut_item(&self, bits: usize) -> usize {
        let after = self.starts.partition_point(|&start| start <= bits);
        // An item that begins just there has nothing left, and is the one.
        self.starts[after - 1]
    }
}

/// A fault put in the place of an item.
#[derive(Clone, Copy, PartialEq, Eq, Debug)]
pub enum Fault {
    EscapedBad,
    Height,
}

/// A bit list under way, with the rules' previous height.
struct Writer<'a> {
    table: &'a Table,
    bits: Vec<bool>,
    previous: Option<i32>,
}

impl Writer<'_> {
    fn put(&mut self, string: Codeword) {
        self.bits.extend((0..string.length).map(|place| string.bits >> place & 1 == 1));
    }

    fn escape(&mut self, height: u32) {
        self.put(self.table.escape());
        self.put(Codeword { bits: height, length: HEIGHT_BITS });
    }

    /// Writes a pixel; a height that `departs` in another form than packing
    /// would choose, if it has two.
    fn pixel(&mut self, pixel: u16, departs: bool) {
        match pixel {
            PIXEL_SPOT => self.put(self.table.codewords[BAD_PIXEL]),
            BIAS_SPOT => self.put(self.table.codewords[BAD_BIAS]),
            _ => self.height(i32::from(pixel), departs),
        }
    }

    fn height(&mut self, height: i32, departs: bool) {
        let entry = self.table.entry_of(height - self.previous.unwrap_or(0));
        // Packing escapes the first height and prefers the entry for others.
        let by_entry = self.is_first() == departs;
        match entry {
            Some(codeword) if by_entry => {
                self.put(codeword);
                self.previous = Some(height);
            }
            _ => {
                self.escape(height as u32);
                if self.previous.is_none() {
                    self.previous = Some(height);
                }
            }
        }
    }

    /// Whether no height has been written yet.
    fn is_first(&self) -> bool {
        self.previous.is_none()
    }

    /// Writes a faulty item and gives its number, or writes nothing where
    /// the table has no such item.
    fn fault(&mut self, random: &mut Random, fault: Fault) -> Option<u32> {
        if fault == Fault::EscapedBad {
            self.escape(random.pick(&[4094, 4095]));
            return Some(ESCAPED_BAD);
        }
        let from = self.previous.unwrap_or(0);
        let lowest = self.table.difference_of(FIRST_ENTRY);
        let highest = lowest + self.table.entries() as i32 - 1;
        // The first differences past either end, and the table's last ones.
        let mut steps = vec![-1 - from, MAX_HEIGHT + 1 - from, lowest, highest];
        steps.retain(|step| !(0..=MAX_HEIGHT).contains(&(from + step)));
        random.shuffle(&mut steps);
        let codeword = steps.iter().find_map(|&step| self.table.entry_of(step))?;
        self.put(codeword);
        Some(HEIGHT)
    }
}

/// A run for the row, as often as not with its first height by a difference as
/// the former rule has it, now and then with a needless escape, and at item
/// `fault.0` with a fault instead, if the table allows it.
pub fn run(random: &mut Random, table: &Table, row: &[u16], fault: Option<(usize, Fault)>) -> Run {
    let drawn = random.below(8);
    let (needless, former) = ([2, 8, 100, 10_000][drawn / 2], drawn % 2 == 1);
    let mut writer = Writer { table, bits: Vec::new(), previous: None };
    let (mut starts, mut refused) = (Vec::with_capacity(row.len()), None);
    for (index, &pixel) in row.iter().enumerate() {
        let start = writer.bits.len();
        let faulty = fault.filter(|(item, _)| *item == index);
        let number = faulty.and_then(|(_, fault)| writer.fault(random, fault));
        match number {
            Some(number) => refused = Some(Expected::Refused(number, start)),
            None => {
                let escapes = random.one_in(needless);
                writer.pixel(pixel, if writer.is_first() { former } else { escapes });
            }
        }
        starts.push(start);
    }
    let expected = refused.unwrap_or(Expected::Pixels(row.to_vec(), writer.bits.len()));
    Run { bits: writer.bits, starts, expected }
}

/// The very strings that packing must write for the row.
pub fn plain_run(table: &Table, row: &[u16]) -> Vec<bool> {
    let mut writer = Writer { table, bits: Vec::new(), previous: None };
    row.iter().for_each(|&pixel| writer.pixel(pixel, false));
    writer.bits
}

/// The bits in words of 32, zeros after them.
pub fn run_words(bits: &[bool]) -> Vec<u8> {
    let byte = |chunk: &[bool]| {
        chunk.iter().enumerate().fold(0, |byte, (place, &bit)| byte | u8::from(bit) << place)
    };
    let mut bytes: Vec<u8> = bits.chunks(8).map(byte).collect();
    bytes.resize(bits.len().div_ceil(32) * 4, 0);
    bytes
}

/// Random words, or words of one bit value only.
pub fn random_words(random: &mut Random, words: usize) -> Vec<u8> {
    match random.below(4) {
        0 => vec![random.pick(&[0, 255]); 4 * words],
        _ => random.bytes(4 * words),
    }
}

/// Flips up to three bits.
pub fn flip(random: &mut Random, words: &mut [u8]) {
    if !words.is_empty() {
        for _ in 0..random.within(1..=3) {
            let byte = random.below(words.len());
            words[byte] ^= 1 << random.below(8);
        }
    }
}

/// Sets one of the bits after the first `used` in the last used word, if it
/// has any.
pub fn set_unused(random: &mut Random, words: &mut [u8], used: usize) -> bool {
    let end = used.next_multiple_of(32);
    if used == end {
        return false;
    }
    let place = random.within(used..=end - 1);
    words[place / 8] |= 1 << (place % 8);
    true
}

#[cfg(test)]
mod tests {
    use super::*;
    use crate::answers::Unpacked;
    use crate::known::plain_table;
    use crate::reader::{unpack_under, Codec};
    use crate::refusal::WORDS_END;

    #[test]
    fn runs_are_as_expected() {
        let codec = Codec::open(&plain_table()).unwrap();
        let mut random = Random::new(10);
        let row = [5, 4095, 700, 4094, 710, 2, 4093];
        for fault in [None, Some((3, Fault::EscapedBad)), Some((4, Fault::Height))] {
            let run = run(&mut random, &codec.table, &row, fault);
            let mut pixels = [0; 14];
            let answer = unpack_under(&codec, &run_words(&run.bits), 7, &mut pixels);
            let read = pixels.as_chunks::<2>().0.iter().map(|&pixel| u16::from_le_bytes(pixel));
            let answer = match answer.number {
                0 => Expected::Pixels(read.collect(), answer.count as usize),
                number => Expected::Refused(number, answer.at as usize),
            };
            assert_eq!(answer, run.expected);
        }
    }

    /// 10 bits by the former rule or 14, 3, 14 and 10: the second word begins
    /// within the last.
    #[test]
    fn cut_runs() {
        let codec = Codec::open(&plain_table()).unwrap();
        let (mut random, row) = (Random::new(11), [5, 4095, 700, 7]);
        for starts in [[0, 10, 13, 27], [0, 14, 17, 31]] {
            let run = loop {
                let run = run(&mut random, &codec.table, &row, None);
                if run.bits.len() == starts[3] + 10 {
                    break run;
                }
            };
            assert_eq!(run.starts, starts);
            let ends = [starts[1], starts[2], starts[3], run.bits.len()];
            for (start, end) in starts.into_iter().zip(ends) {
                assert_eq!([start, end - 1].map(|bits| run.cut_item(bits)), [start; 2]);
            }
            for words in 0..2 {
                let cut = &run_words(&run.bits)[..4 * words];
                let at = run.cut_item(32 * words) as u32;
                let answer = unpack_under(&codec, cut, 4, &mut [0; 8]);
                assert_eq!(answer, Unpacked::stopped(WORDS_END, at));
            }
        }
    }

    /// The first height 5 takes 10 bits or 14, and so does 7 after it.
    #[test]
    fn both_departures_arise() {
        let table = Table::parse(&plain_table()).unwrap();
        let (mut random, mut counts) = (Random::new(12), [[0; 2]; 2]);
        for _ in 0..1000 {
            let Run { starts, bits, .. } = run(&mut random, &table, &[4094, 5, 7], None);
            let lengths = [starts[2] - starts[1], bits.len() - starts[2]];
            assert!(lengths.iter().all(|length| [10, 14].contains(length)), "{lengths:?}");
            counts[usize::from(lengths[0] == 10)][usize::from(lengths[1] == 14)] += 1;
        }
        assert!(counts.iter().flatten().all(|&count| count > 50), "{counts:?}");
        assert_eq!(plain_run(&table, &[4094, 5, 7]).len(), 3 + 14 + 10);
    }

    #[test]
    fn words_hold_the_bits_in_order() {
        let mut bits = vec![false; 33];
        bits[0] = true;
        bits[9] = true;
        bits[32] = true;
        assert_eq!(run_words(&bits), [1, 2, 0, 0, 1, 0, 0, 0]);
        let mut words = vec![0; 8];
        assert!(set_unused(&mut Random::new(1), &mut words, 63));
        assert_eq!(words, [0, 0, 0, 0, 0, 0, 0, 128]);
        assert!(!set_unused(&mut Random::new(1), &mut words, 32));
    }
}
