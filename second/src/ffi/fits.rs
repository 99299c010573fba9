//! FITS images.
//!
//! SAFETY, for both calls: pointers and lengths are those of live slices, and
//! the one that is written to overlaps no other.

use super::{at, at_mut};
use crate::answers::{Answer, Image};

extern "C" {
    fn tahliruz_fits_header(
        fits: *const u8,
        fits_len: usize,
        out: *mut u8,
        out_len: usize,
    ) -> Image;
    fn tahliruz_fits_row(
        width: u64,
        row: u64,
        image: *const u8,
        image_len: usize,
        out: *mut u8,
        out_len: usize,
    ) -> Answer;
}

/// The header at the front of `fits`.
pub fn fits_header(fits: &[u8], out: &mut [u8]) -> Image {
    unsafe { tahliruz_fits_header(at(fits), fits.len(), at_mut(out), out.len()) }
}

/// The row at the front of `image`.
pub fn fits_row(width: u64, row: u64, image: &[u8], out: &mut [u8]) -> Answer {
    unsafe { tahliruz_fits_row(width, row, at(image), image.len(), at_mut(out), out.len()) }
}
