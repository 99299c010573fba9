//! Random adaptive numbers, as values and as bytes in every form.

use crate::random::Random;
use crate::refusal::{BYTES_END, NUMBER_RANGE};

pub const MAX_BYTES: usize = 5;

#[derive(Clone, Copy, PartialEq, Eq, Debug)]
pub enum Sort {
    Signed,
    Unsigned,
}

pub const SORTS: [Sort; 2] = [Sort::Signed, Sort::Unsigned];

impl Sort {
    /// The least and the greatest value.
    pub fn range(self) -> (i64, i64) {
        match self {
            Sort::Signed => (i64::from(i32::MIN), i64::from(i32::MAX)),
            Sort::Unsigned => (0, i64::from(u32::MAX)),
        }
    }

    /// The least and the greatest value that so many bytes have room for,
    /// whether in range or not.
    fn room(self, bytes: usize) -> (i64, i64) {
        let values = 1 << (7 * bytes);
        match self {
            Sort::Signed => (-values / 2, values / 2 - 1),
            Sort::Unsigned => (0, values - 1),
        }
    }

    fn fewest_bytes(self, value: i64) -> usize {
        let fits = |&bytes: &usize| (self.room(bytes).0..=self.room(bytes).1).contains(&value);
        (1..MAX_BYTES).find(fits).unwrap_or(MAX_BYTES)
    }
}

/// A value in range: the ends, where the length changes, small, or any.
pub fn value(random: &mut Random, sort: Sort) -> i64 {
    let (least, most) = sort.range();
    let near = random.below(5) as i64 - 2;
    let value = match random.below(8) {
        0 => random.pick(&[least, most, 0]) + near,
        1..=3 => {
            let room = sort.room(random.within(1..=MAX_BYTES - 1));
            random.pick(&[room.0, room.1]) + near
        }
        4..=5 => random.below(200) as i64 - 100,
        _ => ((random.next_u64() >> 31) as i64 - (1 << 32)) >> random.below(32),
    };
    value.clamp(least, most)
}

/// The value in so many bytes: groups of 7 bits, the highest first.
fn form(value: i64, bytes: usize) -> Vec<u8> {
    let group = |later: usize| {
        let more = if later > 0 { 128 } else { 0 };
        (value >> (7 * later)) as u8 & 127 | more
    };
    (0..bytes).rev().map(group).collect()
}

/// The value in the fewest bytes.
pub fn shortest_form(sort: Sort, value: i64) -> Vec<u8> {
    form(value, sort.fewest_bytes(value))
}

/// The value in any form that holds it, the shortest or a longer one.
pub fn any_form(random: &mut Random, sort: Sort, value: i64) -> Vec<u8> {
    let fewest = sort.fewest_bytes(value);
    let longer = random.within(fewest..=MAX_BYTES);
    form(value, random.pick(&[fewest, longer]))
}

/// Five bytes or more that all continue.
pub fn sixth_asked(random: &mut Random) -> Vec<u8> {
    let count = random.within(MAX_BYTES..=MAX_BYTES + 3);
    random.bytes(count).iter().map(|byte| byte | 128).collect()
}

/// Five bytes that end, with a value outside the range.
pub fn outside(random: &mut Random, sort: Sort) -> Vec<u8> {
    let (least, most) = sort.range();
    let (lowest, highest) = sort.room(MAX_BYTES);
    let above = random.below((highest - most) as usize) as i64;
    let mut values = vec![highest, most + 1, most + 1 + above];
    if lowest < least {
        let below = random.below((least - lowest) as usize) as i64;
        values.extend([lowest, least - 1, least - 1 - below]);
    }
    form(random.pick(&values), MAX_BYTES)
}

/// What bytes must be read as.
#[derive(Clone, Copy, PartialEq, Eq, Debug)]
pub enum Expected {
    /// This value, from so many bytes.
    Value(i64, usize),
    Refused(u32),
    Unknown,
}

/// Bytes to read, mostly with others after the number.
pub fn sample(random: &mut Random, sort: Sort) -> (Vec<u8>, Expected) {
    let value = value(random, sort);
    let (mut bytes, expected) = match random.below(12) {
        0..=5 => {
            let bytes = any_form(random, sort, value);
            let used = bytes.len();
            (bytes, Expected::Value(value, used))
        }
        6..=7 => return (cut_number(random, sort, value), Expected::Refused(BYTES_END)),
        8 => (sixth_asked(random), Expected::Refused(NUMBER_RANGE)),
        9 => (outside(random, sort), Expected::Refused(NUMBER_RANGE)),
        _ => {
            let count = random.below(8);
            (random.bytes(count), Expected::Unknown)
        }
    };
    let more = random.below(4);
    bytes.extend(random.bytes(more));
    (bytes, expected)
}

/// A number without its last bytes, or four bytes at most that all continue.
fn cut_number(random: &mut Random, sort: Sort, value: i64) -> Vec<u8> {
    let mut bytes = match random.one_in(3) {
        true => sixth_asked(random),
        false => any_form(random, sort, value),
    };
    let whole = bytes.len().min(MAX_BYTES);
    bytes.truncate(random.below(whole));
    bytes
}

#[cfg(test)]
mod tests {
    use super::*;
    use crate::adaptive::{read_signed, read_unsigned, write_signed, write_unsigned};

    fn read(sort: Sort, bytes: &[u8]) -> (u32, i64, usize) {
        match sort {
            Sort::Signed => {
                let (number, value, used) = read_signed(bytes);
                (number, i64::from(value), used)
            }
            Sort::Unsigned => {
                let (number, value, used) = read_unsigned(bytes);
                (number, i64::from(value), used)
            }
        }
    }

    #[test]
    fn samples_are_read_as_expected() {
        let mut random = Random::new(30);
        for _ in 0..20_000 {
            let sort = random.pick(&SORTS);
            let (bytes, expected) = sample(&mut random, sort);
            let answer = read(sort, &bytes);
            match expected {
                Expected::Value(value, used) => assert_eq!(answer, (0, value, used)),
                Expected::Refused(number) => assert_eq!(answer, (number, 0, 0), "{bytes:x?}"),
                Expected::Unknown => {}
            }
        }
    }

    #[test]
    fn shortest_forms_are_the_written_ones() {
        let mut random = Random::new(31);
        for _ in 0..2000 {
            let (mut out, wanted) = ([0; 5], value(&mut random, Sort::Signed));
            let (_, bytes) = write_signed(wanted as i32, &mut out);
            assert_eq!(shortest_form(Sort::Signed, wanted), out[..bytes]);
            let wanted = value(&mut random, Sort::Unsigned);
            let (_, bytes) = write_unsigned(wanted as u32, &mut out);
            assert_eq!(shortest_form(Sort::Unsigned, wanted), out[..bytes]);
        }
    }

    #[test]
    fn ends_and_lengths_arise() {
        let mut random = Random::new(32);
        for sort in SORTS {
            let values: Vec<i64> = (0..5000).map(|_| value(&mut random, sort)).collect();
            assert!(values.contains(&sort.range().0) && values.contains(&sort.range().1));
            for bytes in 1..=5 {
                let of_this_length = values.iter().filter(|&&v| sort.fewest_bytes(v) == bytes);
                assert!(of_this_length.count() > 100, "{sort:?} {bytes}");
            }
        }
    }
}
