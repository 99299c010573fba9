//! A scan's header and then its rows, one call after another, beside the whole
//! conversion.

use crate::progress::Progress;
use crate::written::heights;
use second::answers::Image;
use second::compared::{Outcome, ScanHeader, ScanRow};
use second::conversion::Verdict;
use second::fits::{Converter, TABLE_RECORD_BYTES};
use second::generate::scans::Scan;
use second::memory::{Given, Lent};
use second::random::Random;
use second::refusal::{DONE, ROOM};

/// A file and what it was made of.
pub struct Case<'a> {
    pub converter: &'a Converter,
    pub scan: &'a Scan,
    pub bytes: &'a [u8],
    /// How it must end, if that is certain.
    pub wanted: Option<Verdict>,
}

impl Case<'_> {
    pub fn compare(&self, random: &mut Random, progress: &mut Progress) -> Outcome<()> {
        let given = Given::new(random, self.bytes);
        let header = ScanHeader { converter: self.converter, fits: &given };
        let (image, mut sheet) = write_header(random, header, progress)?;
        let verdict = match image.number {
            DONE => self.write_rows(random, &given, image, &mut sheet, progress)?,
            number => Verdict::Header { number },
        };
        self.judge(image, &sheet, verdict, progress).map_err(|what| header.report(&what))
    }

    /// Appends the records of the rows up to the first that is refused.
    fn write_rows(
        &self,
        random: &mut Random,
        fits: &Given,
        image: Image,
        sheet: &mut Vec<u8>,
        progress: &mut Progress,
    ) -> Outcome<Verdict> {
        let (width, rows) = (u64::from(image.width), image.rows as usize);
        for row in 0..rows {
            let start = image.start as usize + 2 * image.width as usize * row;
            let call = ScanRow { converter: self.converter, fits, start, width, row: row as u64 };
            let (number, record) = write_row(random, call, progress)?;
            if number != DONE {
                return Ok(Verdict::Row { number, row });
            }
            sheet.extend(record);
        }
        Ok(Verdict::Done { rows })
    }

    /// What both sides came to, beside the whole conversion and what the scan
    /// was made for; the sheet is read back.
    fn judge(
        &self,
        image: Image,
        sheet: &[u8],
        verdict: Verdict,
        progress: &mut Progress,
    ) -> Result<(), String> {
        let whole = self.converter.sheet(self.bytes);
        if (sheet, verdict) != (&whole.0, whole.1) {
            return Err(format!("both end with {verdict:?}, the whole conversion {:?}", whole.1));
        }
        if self.wanted.is_some_and(|wanted| wanted != verdict) {
            return Err(format!("both end with {verdict:?}, made for {:?}", self.wanted));
        }
        let rows = match verdict {
            Verdict::Header { .. } => return Ok(()),
            Verdict::Row { row, .. } => row,
            Verdict::Done { rows } => rows,
        };
        let found = [image.width, image.rows, image.start].map(|field| field as usize);
        if self.wanted.is_some() && found != [self.scan.width, self.scan.rows(), self.scan.start()]
        {
            return Err(format!("both answer {image:?}, made otherwise"));
        }
        progress.sheets += 1;
        progress.rows += rows as u64;
        if heights(self.converter.codec(), sheet)? != self.pixels(image, rows) {
            return Err("the sheet has other heights than the scan".to_string());
        }
        Ok(())
    }

    /// The first rows of the file, as the heights that they are.
    fn pixels(&self, image: Image, rows: usize) -> Vec<Vec<u16>> {
        let row_bytes = 2 * image.width as usize;
        let image = self.bytes.get(image.start as usize..).unwrap_or_default();
        let pixel = |bytes: &[u8; 2]| u16::from_be_bytes(*bytes);
        let row = |bytes: &[u8]| bytes.as_chunks::<2>().0.iter().map(pixel).collect();
        image.chunks_exact(row_bytes).take(rows).map(row).collect()
    }
}

/// The header with some room, and with enough if that was too little.
fn write_header(
    random: &mut Random,
    header: ScanHeader,
    progress: &mut Progress,
) -> Outcome<(Image, Vec<u8>)> {
    let needed = TABLE_RECORD_BYTES;
    let less = random.below(needed);
    let room = random.pick(&[needed, needed, needed + 9, needed - 1, less]);
    let (image, after) = header.write(&mut progress.tally, &Lent::new(random, room))?;
    if image.number != ROOM {
        return Ok((image, after.bytes()[..image.count as usize].to_vec()));
    }
    let (image, after) = header.write(&mut progress.tally, &Lent::new(random, needed))?;
    if room >= needed || image.number != DONE {
        return Err(header.report(&format!("both refuse 5 with {room} bytes lent, then {image:?}")));
    }
    Ok((image, after.bytes()[..needed].to_vec()))
}

/// A row, at times first with too little room.
fn write_row(
    random: &mut Random,
    call: ScanRow,
    progress: &mut Progress,
) -> Outcome<(u32, Vec<u8>)> {
    let needed = call.bytes_needed();
    if needed > 0 && random.one_in(4) {
        let less = random.below(needed);
        let room = random.pick(&[needed - 1, less]);
        let (answer, _) = call.write(&mut progress.tally, &Lent::new(random, room))?;
        if answer.number != ROOM {
            return Err(call.report(&format!("both answer {answer:?} with {room} bytes lent")));
        }
    }
    let room = needed + random.pick(&[0, 0, 1, 50]);
    let (answer, after) = call.write(&mut progress.tally, &Lent::new(random, room))?;
    Ok((answer.number, after.bytes()[..answer.count as usize].to_vec()))
}
