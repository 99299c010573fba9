//! Random rows of pixels.

use crate::random::Random;
use crate::row::{BIAS_SPOT, MAX_HEIGHT, MAX_PIXELS, PIXEL_SPOT};
use crate::table::{Table, FIRST_ENTRY};

/// How a row moves from pixel to pixel.
#[derive(Clone, Copy)]
enum Course {
    /// Small steps around a walk.
    Walk,
    /// Steps that the table has, as far as the heights allow.
    InTable,
    /// Any height after any other.
    Jumps,
    /// Steps just inside and just outside the table.
    Edges,
    /// The lowest and the highest heights.
    Ends,
}

const COURSES: [Course; 5] =
    [Course::Walk, Course::InTable, Course::Jumps, Course::Edges, Course::Ends];

/// Mostly short; at times a whole row or nearly so, at times too many.
pub fn row_length(random: &mut Random) -> usize {
    match random.below(200) {
        0..=9 => random.below(3),
        10..=179 => random.within(0..=64),
        180..=196 => random.within(65..=512),
        197 => random.within(513..=MAX_PIXELS),
        198 => random.within(MAX_PIXELS - 2..=MAX_PIXELS),
        _ => random.within(MAX_PIXELS + 1..=MAX_PIXELS + 40),
    }
}

/// A row of pixels, each at most 4095.
pub fn row(random: &mut Random, table: &Table, length: usize) -> Vec<u16> {
    let bad_share = random.pick(&[2, 10, 50, 1000]);
    let mut course = random.pick(&COURSES);
    let mut height = if random.one_in(2) { 0 } else { random.below(4094) as i32 };
    let mut pixels = Vec::with_capacity(length);
    for _ in 0..length {
        if random.one_in(40) {
            course = random.pick(&COURSES);
        }
        if random.one_in(bad_share) {
            pixels.push(random.pick(&[BIAS_SPOT, PIXEL_SPOT]));
        } else {
            height = next_height(random, table, course, height);
            pixels.push(height as u16);
        }
    }
    pixels
}

fn next_height(random: &mut Random, table: &Table, course: Course, height: i32) -> i32 {
    let lowest = table.difference_of(FIRST_ENTRY);
    let highest = lowest + table.entries() as i32 - 1;
    let wanted = match course {
        Course::Walk => height + random.below(15) as i32 - 7,
        Course::InTable => height + lowest + random.below(table.entries()) as i32,
        Course::Jumps => random.below(4094) as i32,
        Course::Edges => height + random.pick(&[lowest - 1, lowest, highest, highest + 1]),
        Course::Ends => random.pick(&[0, 1, MAX_HEIGHT - 1, MAX_HEIGHT]),
    };
    wanted.clamp(0, MAX_HEIGHT)
}

/// Puts a pixel above 4095 somewhere.
pub fn spoil(random: &mut Random, pixels: &mut [u16]) {
    if !pixels.is_empty() {
        let place = random.below(pixels.len());
        let above = random.within(4096..=65535) as u16;
        pixels[place] = random.pick(&[4096, 65535, above]);
    }
}

pub fn pixel_bytes(pixels: &[u16]) -> Vec<u8> {
    pixels.iter().flat_map(|pixel| pixel.to_le_bytes()).collect()
}

#[cfg(test)]
mod tests {
    use super::*;
    use crate::known::plain_table;

    #[test]
    fn rows_keep_to_their_pixels() {
        let table = Table::parse(&plain_table()).unwrap();
        let mut random = Random::new(8);
        let all: Vec<u16> = (0..200).flat_map(|_| row(&mut random, &table, 300)).collect();
        assert!(all.iter().all(|&pixel| pixel <= 4095));
        for pixel in [0, 1, 4092, 4093, 4094, 4095] {
            assert!(all.contains(&pixel), "{pixel}");
        }
        let mut pixels = row(&mut random, &table, 20);
        spoil(&mut random, &mut pixels);
        assert_eq!(pixels.iter().filter(|&&pixel| pixel > 4095).count(), 1);
    }

    #[test]
    fn lengths_reach_both_sides_of_4096() {
        let mut random = Random::new(9);
        let lengths: Vec<usize> = (0..20_000).map(|_| row_length(&mut random)).collect();
        for length in [0, 1, 64, 4095, 4096, 4097] {
            assert!(lengths.contains(&length), "{length}");
        }
    }
}
