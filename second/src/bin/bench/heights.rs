//! Rows of heights as a scanner gives them, and the tables that they are packed
//! under.

use crate::fitted::fitted_table;
use second::known::{memo_table, plain_table, Labels};
use second::random::Random;

/// Of the differences between neighbours.
pub const SIGMA: f64 = 6.0;
/// The pixels of the rows: the sample's, a middling row's, the longest row's.
pub const WIDTHS: [usize; 3] = [160, 1024, 4096];

pub fn tables() -> [(&'static str, Vec<u8>); 3] {
    [
        ("plain", plain_table()),
        ("memo's 32", memo_table(Labels::Version11)),
        ("fitted 512", fitted_table(SIGMA)),
    ]
}

/// Noise on a slow curve, with some bad spots and some jumps.
pub fn row(random: &mut Random, width: usize) -> Vec<u16> {
    let phase = 6.0 * random.fraction();
    (0..width).map(|place| pixel(random, place, phase)).collect()
}

fn pixel(random: &mut Random, place: usize, phase: f64) -> u16 {
    match random.below(1000) {
        0..=7 => random.pick(&[4094, 4095]),
        8..=11 => random.below(4094) as u16,
        _ => {
            let curve = 2000.0 + 900.0 * (phase + place as f64 / 700.0).sin();
            // Differences of such noise have the sigma wanted.
            let noise = random.gaussian(SIGMA / 2f64.sqrt());
            (curve + noise).round() as u16
        }
    }
}
