//! Random PGM pictures with maxval 4095.

pub mod flaws;

use super::rows::row;
use crate::pgm::{MAGIC, MAXVAL};
use crate::random::Random;
use crate::row::MAX_PIXELS;
use crate::table::Table;

/// Blanks.
const BLANKS: [u8; 6] = [b'\t', b'\n', 0x0b, 0x0c, b'\r', b' '];
/// What a careless reader takes for more than a comment.
const COMMENTS: [&str; 6] = ["", " a foot", "# 9 9", "P5 7 7 4095 ", " 4095", "\u{b}7\u{c}"];

/// A picture in its parts.
#[derive(Clone)]
pub struct Pgm {
    pub magic: Vec<u8>,
    /// Width, rows and maxval: what stands before each, and the number.
    pub fields: [(Vec<u8>, String); 3],
    /// What follows maxval.
    pub end: Vec<u8>,
    pub width: usize,
    /// Row after row.
    pub samples: Vec<u16>,
    /// What follows the last row.
    pub after: Vec<u8>,
}

impl Pgm {
    pub fn rows(&self) -> usize {
        self.samples.len() / self.width
    }

    /// Up to the first sample.
    pub fn header(&self) -> Vec<u8> {
        let mut bytes = self.magic.clone();
        for (separators, number) in &self.fields {
            bytes.extend(separators);
            bytes.extend(number.as_bytes());
        }
        bytes.extend(&self.end);
        bytes
    }

    pub fn bytes(&self) -> Vec<u8> {
        let samples = self.samples.iter().flat_map(|sample| sample.to_be_bytes());
        self.header().into_iter().chain(samples).chain(self.after.iter().copied()).collect()
    }
}

/// How many samples a row has, and how many rows there are; mostly few.
pub fn size(random: &mut Random) -> (usize, usize) {
    match random.below(400) {
        0 => (random.within(1..=2), 1 << 16),
        1..=4 => (random.within(MAX_PIXELS - 1..=MAX_PIXELS), random.within(1..=20)),
        5..=60 => (random.within(1..=300), random.within(1..=40)),
        61..=99 => (1, random.within(1..=4)),
        _ => (random.within(1..=24), random.within(1..=8)),
    }
}

/// A picture that keeps all rules.
pub fn pgm(random: &mut Random, table: &Table, (width, rows): (usize, usize)) -> Pgm {
    let fields = [width, rows, MAXVAL.into()].map(|number| {
        let separators = separators(random);
        (separators, spelled(random, number as u128))
    });
    let samples = (0..rows).flat_map(|_| row(random, table, width)).collect();
    let end = vec![random.pick(&BLANKS)];
    Pgm { magic: MAGIC.to_vec(), fields, end, width, samples, after: Vec::new() }
}

/// Mostly a blank; at times several, and comments among them.
fn separators(random: &mut Random) -> Vec<u8> {
    match random.below(3) {
        0 => vec![random.pick(b"\n ")],
        1 => vec![random.pick(&BLANKS)],
        _ => (0..random.within(1..=4)).flat_map(|_| separator(random)).collect(),
    }
}

fn separator(random: &mut Random) -> Vec<u8> {
    if random.one_in(2) {
        return vec![random.pick(&BLANKS)];
    }
    let any = random.below(30);
    let any = random.bytes(any).into_iter().filter(|&byte| !ends_line(byte)).collect();
    let known = random.pick(&COMMENTS).into();
    let text = if random.one_in(3) { any } else { known };
    comment(random, text)
}

fn ends_line(byte: u8) -> bool {
    byte == b'\n' || byte == b'\r'
}

fn comment(random: &mut Random, text: Vec<u8>) -> Vec<u8> {
    [&b"#"[..], &text, &[random.pick(b"\n\r")]].concat()
}

/// A number, at times with zeros before it.
fn spelled(random: &mut Random, number: u128) -> String {
    let zeros = random.pick(&[0, 0, 0, 0, 0, 1, 3, 30]);
    "0".repeat(zeros) + &number.to_string()
}
