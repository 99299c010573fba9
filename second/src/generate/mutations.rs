//! Small random changes to any bytes.

use super::runs::flip;
use crate::random::Random;

/// Longer than any input that is accepted.
const LONGEST: usize = 70_000;

/// Numbers on either side of the limits, and some others.
const TELLING: [u32; 22] = [
    0,
    1,
    2,
    3,
    4,
    5,
    15,
    16,
    27,
    28,
    4093,
    4094,
    4095,
    4096,
    4097,
    8187,
    8188,
    32_774,
    32_775,
    65_535,
    65_536,
    u32::MAX,
];

/// A telling number or any.
pub fn any_number(random: &mut Random) -> u32 {
    let any = random.next_u32() >> random.below(32);
    let telling = random.pick(&TELLING);
    random.pick(&[any, telling])
}

/// Changes the bytes in one to four ways; `other` lends parts of itself.
pub fn mutate(random: &mut Random, bytes: &mut Vec<u8>, other: &[u8]) {
    for _ in 0..random.pick(&[1, 1, 2, 4]) {
        match random.below(10) {
            0 | 1 => flip(random, bytes),
            2 => set_field(random, bytes, 1),
            3 => set_field(random, bytes, 2),
            4 => set_field(random, bytes, 4),
            5 => step_field(random, bytes),
            6 => bytes.truncate(random.below(bytes.len() + 1)),
            _ => splice(random, bytes, other),
        }
    }
    bytes.truncate(LONGEST);
}

/// Where a field of this size may stand; mostly at a multiple of it.
fn field_place(random: &mut Random, length: usize, size: usize) -> Option<usize> {
    let last = length.checked_sub(size)?;
    let place = random.within(0..=last);
    Some(random.pick(&[place, place / size * size]))
}

fn set_field(random: &mut Random, bytes: &mut [u8], size: usize) {
    if let Some(place) = field_place(random, bytes.len(), size) {
        let number = any_number(random).to_le_bytes();
        bytes[place..place + size].copy_from_slice(&number[..size]);
    }
}

/// Makes a 2-byte field a little larger or smaller.
fn step_field(random: &mut Random, bytes: &mut [u8]) {
    if let Some(place) = field_place(random, bytes.len(), 2) {
        let number = u16::from_le_bytes([bytes[place], bytes[place + 1]]);
        let step = random.pick(&[1, 2, 4, u16::MAX, u16::MAX - 1]);
        bytes[place..place + 2].copy_from_slice(&number.wrapping_add(step).to_le_bytes());
    }
}

/// Puts random bytes, or a part of these or of other bytes, in the place of
/// some bytes or of none.
fn splice(random: &mut Random, bytes: &mut Vec<u8>, other: &[u8]) {
    let count = random.below(12);
    let part = match random.below(4) {
        0 => random.bytes(count),
        1 => part_of(random, other),
        2 => part_of(random, bytes),
        _ => Vec::new(),
    };
    let start = random.below(bytes.len() + 1);
    let most = bytes.len() - start;
    let gone = random.pick(&[0, part.len().min(most), count.min(most)]);
    bytes.splice(start..start + gone, part);
}

fn part_of(random: &mut Random, bytes: &[u8]) -> Vec<u8> {
    let start = random.below(bytes.len() + 1);
    let few = random.below(40);
    let end = random.pick(&[bytes.len(), bytes.len().min(start + few)]);
    bytes[start..end].to_vec()
}

#[cfg(test)]
mod tests {
    use super::*;

    #[test]
    fn all_lengths_are_changed() {
        let mut random = Random::new(40);
        for length in [0, 1, 2, 3, 4, 100] {
            let original = random.bytes(length);
            let (mut shorter, mut longer, mut alike) = (0, 0, 0);
            for _ in 0..1000 {
                let mut bytes = original.clone();
                mutate(&mut random, &mut bytes, &[1; 9]);
                shorter += u32::from(bytes.len() < length);
                longer += u32::from(bytes.len() > length);
                alike += u32::from(bytes.len() == length && bytes != original);
            }
            assert!(longer > 50, "{length}");
            assert_eq!(shorter > 50, length > 0, "{length}");
            assert_eq!(alike > 50, length > 0, "{length}");
        }
    }

    #[test]
    fn never_longer_than_the_longest() {
        let (mut random, other) = (Random::new(41), vec![0; LONGEST]);
        let mut bytes = Vec::new();
        for _ in 0..300 {
            mutate(&mut random, &mut bytes, &other);
            assert!(bytes.len() <= LONGEST);
        }
    }
}
