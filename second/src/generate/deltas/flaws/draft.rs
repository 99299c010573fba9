//! A row's arrays before they are placed in larger ones.

use super::{Reading, Wanted};
use crate::delta::{largest, number_bytes, First, Written, FLAGS};
use crate::generate::deltas::{any_of_width, Sound, Widths};
use crate::random::Random;

pub struct Draft {
    pub widths: Widths,
    pub n: usize,
    pub written: Written,
    /// Whether an array ends with these elements.
    pub ends: Ends,
    pub wanted: Wanted,
}

#[derive(Clone, Copy, Default)]
pub struct Ends {
    pub data: bool,
    pub value: bool,
    pub repeat: bool,
}

impl Draft {
    pub fn new(sound: &Sound) -> Draft {
        Draft {
            widths: sound.widths,
            n: sound.row.len(),
            written: sound.written.clone(),
            ends: Ends::default(),
            wanted: Wanted::Row(sound.row.clone()),
        }
    }

    /// Nothing but these elements, and the room that is needed.
    pub fn alone(self) -> Reading {
        let Widths { data, value } = self.widths;
        let [data, value, repeat] = self.written.bytes(data, value);
        Reading {
            n: self.n as u64,
            widths: self.widths,
            data,
            value,
            repeat,
            first: First::default(),
            row_room: 4 * self.n,
            marks_room: self.n,
            wanted: self.wanted,
        }
    }

    /// With other elements before and behind, incomplete ones at the ends, and
    /// more room.
    pub fn among(self, random: &mut Random) -> Reading {
        let (widths, ends) = (self.widths, self.ends);
        let mut reading = self.alone();
        let arrays = [
            (&mut reading.data, widths.data, ends.data),
            (&mut reading.value, widths.value, ends.value),
            (&mut reading.repeat, 32, ends.repeat),
        ];
        let [data, value, repeat] =
            arrays.map(|(array, bits, ends)| surround(random, array, bits, ends));
        reading.first = First { data, value, repeat };
        reading.row_room += random.pick(&[0, 0, 1, 2, 3, 4, 50]);
        reading.marks_room += random.pick(&[0, 0, 1, 2, 50]);
        reading
    }
}

/// Gives the place where the array's own elements begin.
fn surround(random: &mut Random, array: &mut Vec<u8>, bits: u32, ends: bool) -> u64 {
    let before = others(random, bits);
    let place = before.len() as u64 / u64::from(bits / 8);
    array.splice(..0, before);
    if !ends {
        array.extend(others(random, bits));
    }
    if random.one_in(2) {
        // Less than an element.
        let count = random.below(bits as usize / 8);
        array.extend(random.bytes(count));
    }
    place
}

/// Elements that the row is not to use; at times none.
fn others(random: &mut Random, bits: u32) -> Vec<u8> {
    let few = random.within(1..=20);
    let count = random.pick(&[0, 1, few]);
    let numbers: Vec<i32> = (0..count).map(|_| any_element(random, bits)).collect();
    number_bytes(&numbers, bits)
}

/// Any number of so many bits, often one that a row may have.
pub fn any_element(random: &mut Random, bits: u32) -> i32 {
    let any = any_of_width(random, bits);
    let flag = random.pick(&FLAGS).element(largest(bits));
    let few = random.below(5) as i32;
    random.pick(&[any, flag, few])
}
