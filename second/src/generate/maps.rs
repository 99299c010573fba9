//! Random pressure mat maps.

pub mod flaws;
pub mod forms;

use super::rows::pixel_bytes;
use crate::map::COUNTS;
use crate::random::Random;
use forms::Form;

/// What a map looks like.
#[derive(Clone, Copy, PartialEq, Eq, Debug)]
pub enum Sort {
    Empty,
    /// One pixel is not 0.
    OneHot,
    /// Two photons in a pixel, here and there.
    TwoInOne,
    /// Photons anywhere.
    Sparse,
    /// A heel, a ball and toes, and little around them.
    Footprint,
    /// Few photons in each group, so that each code is at hand.
    FewEach,
    /// Every form of a pixel in most groups.
    Dense,
    /// The same count everywhere.
    Alike,
    /// Counts on either side of what a form can hold.
    Edges,
    AnyCounts,
}

pub const SORTS: [Sort; 10] = [
    Sort::Empty,
    Sort::OneHot,
    Sort::TwoInOne,
    Sort::Sparse,
    Sort::Footprint,
    Sort::FewEach,
    Sort::Dense,
    Sort::Alike,
    Sort::Edges,
    Sort::AnyCounts,
];

/// A map, and the very bits that writing must give.
#[derive(Clone)]
pub struct Sound {
    pub group: u32,
    pub counts: Vec<u16>,
    pub form: Form,
    pub bytes: Vec<u8>,
}

impl Sound {
    pub fn new(random: &mut Random, group: u32, sort: Sort) -> Sound {
        let counts = counts(random, group, sort);
        let form = Form::plain(group, &counts);
        Sound { group, counts, bytes: form.bytes(), form }
    }

    pub fn photons(&self) -> u64 {
        self.counts.iter().map(|&count| u64::from(count)).sum()
    }

    /// The counts as they stand in memory.
    pub fn count_bytes(&self) -> Vec<u8> {
        pixel_bytes(&self.counts)
    }

    /// The pixels of a group.
    fn pixels(&self, index: usize) -> &[u16] {
        let group = self.group as usize;
        &self.counts[index * group..][..group]
    }
}

pub fn counts(random: &mut Random, group: u32, sort: Sort) -> Vec<u16> {
    let mut counts = vec![0; COUNTS];
    match sort {
        Sort::Empty => {}
        Sort::OneHot => {
            let any = random.below(COUNTS);
            counts[random.pick(&[any, 0, COUNTS - 1])] = edge_or_any(random).max(1);
        }
        Sort::TwoInOne => {
            for _ in 0..random.within(1..=300) {
                counts[random.below(COUNTS)] = 2;
            }
        }
        Sort::Sparse => {
            for _ in 0..random.within(1..=2000) {
                counts[random.below(COUNTS)] += 1;
            }
        }
        Sort::Footprint => footprint(random, &mut counts),
        Sort::FewEach => few_each(random, group, &mut counts),
        Sort::Dense => counts.fill_with(|| random.below(40) as u16),
        Sort::Alike => counts.fill(random.pick(&[1, 2, 3, 17, 18, 65535])),
        Sort::Edges => counts.fill_with(|| random.pick(&EDGES)),
        Sort::AnyCounts => counts.fill_with(|| random.next_u32() as u16),
    }
    counts
}

const EDGES: [u16; 12] = [0, 1, 2, 3, 4, 16, 17, 18, 19, 32767, 32768, 65535];

fn edge_or_any(random: &mut Random) -> u16 {
    let (edge, any) = (random.pick(&EDGES), random.next_u32() as u16);
    random.pick(&[edge, any])
}

/// Row and column of the middle, and the reach in either direction.
const HEEL: [f64; 4] = [98.0, 60.0, 16.0, 13.0];
const BALL: [f64; 4] = [42.0, 66.0, 18.0, 24.0];
const TOES: [f64; 4] = [12.0, 70.0, 7.0, 26.0];

fn footprint(random: &mut Random, counts: &mut [u16]) {
    let weight = random.pick(&[1.0, 5.0, 30.0, 200.0]);
    for (row, line) in counts.chunks_exact_mut(128).enumerate() {
        for (column, count) in line.iter_mut().enumerate() {
            let pressures = [HEEL, BALL, TOES].map(|part| pressure(part, row, column));
            let pressure = pressures.into_iter().fold(0.0, f64::max);
            *count = (weight * pressure + 1.01 * random.fraction()) as u16;
        }
    }
}

/// From 1 in the middle down to 0 and below.
fn pressure([row, column, rows, columns]: [f64; 4], at_row: usize, at_column: usize) -> f64 {
    let (down, across) = ((at_row as f64 - row) / rows, (at_column as f64 - column) / columns);
    1.0 - down * down - across * across
}

/// None to five photons a group, anywhere in it or all in one pixel.
fn few_each(random: &mut Random, group: u32, counts: &mut [u16]) {
    let most = random.within(1..=5);
    for pixels in counts.chunks_exact_mut(group as usize) {
        let photons = random.within(0..=most);
        if random.one_in(4) {
            pixels[random.below(pixels.len())] = photons as u16;
        } else {
            (0..photons).for_each(|_| pixels[random.below(pixels.len())] += 1);
        }
    }
}

#[cfg(test)]
mod tests {
    use super::*;
    use crate::map::{read_map, write_map, GROUPS};

    /// The form is written apart from the writer, and reading undoes both.
    #[test]
    fn maps_are_written_as_their_forms() {
        let mut random = Random::new(70);
        for (group, sort) in GROUPS.iter().flat_map(|&group| SORTS.map(|sort| (group, sort))) {
            for _ in 0..5 {
                let sound = Sound::new(&mut random, group, sort);
                let written = write_map(group, &sound.counts);
                assert_eq!(written.as_ref(), Ok(&sound.bytes), "{sort:?}");
                let map = read_map(group, &sound.bytes, sound.photons());
                let map = map.ok().expect("a sound map");
                assert!(map.counts == sound.counts, "{sort:?}");
                assert_eq!(map.bits as usize, sound.form.bits(), "{sort:?}");
            }
        }
    }

    #[test]
    fn sorts_differ() {
        let mut random = Random::new(71);
        let mut filled = |sort| {
            let counts = counts(&mut random, 4, sort);
            counts.iter().filter(|&&count| count > 0).count()
        };
        assert_eq!((filled(Sort::Empty), filled(Sort::OneHot)), (0, 1));
        assert!((1..=2000).contains(&filled(Sort::Sparse)));
        let footprint = filled(Sort::Footprint);
        assert!((500..=8000).contains(&footprint), "{footprint}");
        assert!(filled(Sort::Dense) > 15_000);
    }
}
