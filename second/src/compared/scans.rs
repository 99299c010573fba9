//! FITS headers and rows.

use super::{counted, Outcome};
use crate::agreement::Call;
use crate::answers::{Answer, Image};
use crate::ffi;
use crate::fits::Converter;
use crate::memory::{Given, Lent};
use crate::tally::Tally;

/// A file, or the beginning of one.
#[derive(Clone, Copy)]
pub struct ScanHeader<'a> {
    pub converter: &'a Converter,
    pub fits: &'a Given,
}

impl ScanHeader<'_> {
    /// Gives the answer and the memory afterwards.
    pub fn write(&self, tally: &mut Tally, lent: &Lent) -> Outcome<(Image, Lent)> {
        let (fits, inputs) = (self.fits.bytes(), [("fits", self.fits)]);
        let call = Call { name: "fits_header", numbers: &(), inputs: &inputs, lent };
        let proved = |out: &mut [u8]| ffi::fits_header(fits, out);
        let second = |out: &mut [u8]| self.converter.header(fits, out);
        counted(tally, &call, proved, second, |image| image.count as usize)
    }

    /// The text of a report of something wrong that both sides agree on.
    pub fn report(&self, what: &str) -> String {
        let (lent, inputs) = (Lent::nothing(), [("fits", self.fits)]);
        let call = Call { name: "fits_header", numbers: &(), inputs: &inputs, lent: &lent };
        call.report(what, &[])
    }
}

/// A row of a file.
#[derive(Clone, Copy)]
pub struct ScanRow<'a> {
    pub converter: &'a Converter,
    pub fits: &'a Given,
    /// The bytes of the file that stand before the row; nothing is left of it
    /// where they are more than it has.
    pub start: usize,
    pub width: u64,
    pub row: u64,
}

impl ScanRow<'_> {
    fn image(&self) -> &[u8] {
        self.fits.bytes().get(self.start..).unwrap_or_default()
    }

    /// Gives the answer and the memory afterwards.
    pub fn write(&self, tally: &mut Tally, lent: &Lent) -> Outcome<(Answer, Lent)> {
        let ScanRow { converter, fits, start, width, row } = *self;
        let (numbers, inputs) = ((width, row, start), [("fits", fits)]);
        let call = Call { name: "fits_row", numbers: &numbers, inputs: &inputs, lent };
        let proved = |out: &mut [u8]| ffi::fits_row(width, row, self.image(), out);
        let second = |out: &mut [u8]| converter.row(width, row, self.image(), out);
        counted(tally, &call, proved, second, |answer| answer.count as usize)
    }

    /// The bytes that the record takes, or 0 if the row is refused.
    pub fn bytes_needed(&self) -> usize {
        let mut ample = vec![0; 8000];
        let answer = self.converter.row(self.width, self.row, self.image(), &mut ample);
        answer.count as usize
    }

    /// The text of a report of something wrong that both sides agree on.
    pub fn report(&self, what: &str) -> String {
        let (lent, inputs) = (Lent::nothing(), [("fits", self.fits)]);
        let numbers = (self.width, self.row, self.start);
        let call = Call { name: "fits_row", numbers: &numbers, inputs: &inputs, lent: &lent };
        call.report(what, &[])
    }
}
