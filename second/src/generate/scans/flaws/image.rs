//! Files that are cut, and pixels that no sheet has.

use super::super::{Scan, FIRST};
use super::{done, refused, Change};
use crate::conversion::Verdict;
use crate::fits::{BLOCK_BYTES, CARD_BYTES};
use crate::random::Random;
use crate::refusal::{FITS_HEADER, IMAGE_END, PIXEL};

pub fn change(random: &mut Random, scan: &mut Scan, change: Change) -> (Vec<u8>, Verdict) {
    match change {
        Change::CutBeforeEnd | Change::CutWithinEnd | Change::CutAtBlock => {
            (cut_header(random, scan, change), refused(FITS_HEADER))
        }
        Change::CutAfterEnd => cut_after_end(random, scan),
        Change::CutInRow | Change::CutByOneByte | Change::PixelInCutRow => {
            cut_in_row(random, scan, change)
        }
        Change::CutAfterImage => {
            let mut bytes = scan.bytes();
            let end = scan.row_start(scan.rows());
            bytes.truncate(random.within(end..=bytes.len()));
            (bytes, done(scan))
        }
        Change::PixelAfterImage => {
            scan.after = [above(random), below(random)].map(i16::to_be_bytes).concat();
            (scan.bytes(), done(scan))
        }
        _ => bad_pixels(random, scan, change),
    }
}

/// Cut so that END's card is not whole.
fn cut_header(random: &mut Random, scan: &Scan, change: Change) -> Vec<u8> {
    let end = scan.end_start();
    let length = match change {
        Change::CutWithinEnd => {
            let any = random.within(1..=79);
            end + random.pick(&[1, 3, 8, 79, any])
        }
        Change::CutAtBlock => BLOCK_BYTES * random.within(0..=end / BLOCK_BYTES),
        _ => {
            let any = random.within(0..=end);
            let within_first = random.below(FIRST * CARD_BYTES);
            random.pick(&[any, any, within_first, FIRST * CARD_BYTES, end, 0])
        }
    };
    let mut bytes = scan.bytes();
    bytes.truncate(length);
    bytes
}

/// Cut where END has come but the image has not begun.
fn cut_after_end(random: &mut Random, scan: &Scan) -> (Vec<u8>, Verdict) {
    let (first, start) = (scan.end_start() + CARD_BYTES, scan.start());
    let any = random.within(first..=start);
    let mut bytes = scan.bytes();
    bytes.truncate(random.pick(&[first, any, start - (start - first).min(1), start]));
    (bytes, Verdict::Row { number: IMAGE_END, row: 0 })
}

fn cut_in_row(random: &mut Random, scan: &mut Scan, change: Change) -> (Vec<u8>, Verdict) {
    let row = random.below(scan.rows());
    if change == Change::PixelInCutRow {
        // The row's first pixel, which the cut leaves if it leaves any.
        scan.pixels[row * scan.width] = below_or_above(random);
    }
    let (start, end) = (scan.row_start(row), scan.row_start(row + 1));
    let length = match change {
        Change::CutByOneByte => end - 1,
        _ => {
            let any = random.within(start..=end - 1);
            random.pick(&[start, end - 1, any])
        }
    };
    let mut bytes = scan.bytes();
    bytes.truncate(length);
    (bytes, Verdict::Row { number: IMAGE_END, row })
}

fn bad_pixels(random: &mut Random, scan: &mut Scan, change: Change) -> (Vec<u8>, Verdict) {
    let place = random.below(scan.pixels.len());
    let place = random.pick(&[place, 0, scan.pixels.len() - 1]);
    scan.pixels[place] = match change {
        Change::PixelBelow => below(random),
        Change::PixelAbove => above(random),
        _ => below_or_above(random),
    };
    if change == Change::PixelsInTwoRows {
        let later = random.within(place..=scan.pixels.len() - 1);
        scan.pixels[later] = below_or_above(random);
    }
    (scan.bytes(), Verdict::Row { number: PIXEL, row: place / scan.width })
}

/// Those that a mask would make small are among them.
fn below(random: &mut Random) -> i16 {
    let any = random.within(1..=32_768) as i32;
    random.pick(&[-1, -2, -4096, -4095, -32_768, -32_767, -256, -any]) as i16
}

fn above(random: &mut Random) -> i16 {
    let any = random.within(4096..=32_767) as i16;
    random.pick(&[4096, 4097, 8191, 8192, 32_767, 16_384, any])
}

fn below_or_above(random: &mut Random) -> i16 {
    let either = [below(random), above(random)];
    random.pick(&either)
}
