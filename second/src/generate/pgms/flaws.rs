//! Pictures changed in each way that the rules speak of, with the verdict that
//! each must come to.

use super::{comment, spelled, Pgm};
use crate::conversion::Verdict;
use crate::generate::mutations::mutate;
use crate::generate::rows;
use crate::pgm::{MAXVAL, MOST_HEADER, MOST_ROWS};
use crate::random::Random;
use crate::refusal::{IMAGE_END, PGM_HEADER, PIXEL, TOO_MANY};
use crate::row::MAX_PIXELS;

#[derive(Clone, Copy, PartialEq, Eq, Debug)]
pub enum Change {
    Nothing,
    MoreBytes,
    LongestHeader,
    OtherMagic,
    NoSeparator,
    OtherSeparator,
    NoNumber,
    AxisZero,
    OtherMaxval,
    NoBlankAtEnd,
    HeaderCut,
    HeaderTooLong,
    AxisTooLong,
    TwoFaults,
    Cut,
    SampleAbove,
    SampleInCutRow,
    BytesMixed,
    HeaderMixed,
    RandomBytes,
}

use Change::*;

const SOUND: [Change; 3] = [Nothing, MoreBytes, LongestHeader];
const HEADERS: [Change; 11] = [
    OtherMagic,
    NoSeparator,
    OtherSeparator,
    NoNumber,
    AxisZero,
    OtherMaxval,
    NoBlankAtEnd,
    HeaderCut,
    HeaderTooLong,
    AxisTooLong,
    TwoFaults,
];
const IMAGES: [Change; 3] = [Cut, SampleAbove, SampleInCutRow];
const ANY: [Change; 3] = [BytesMixed, HeaderMixed, RandomBytes];

pub fn changes() -> Vec<Change> {
    [&SOUND[..], &HEADERS, &IMAGES, &ANY].concat()
}

/// The file of a sound picture that is changed so, and its verdict, if that is
/// certain.
pub fn change(random: &mut Random, pgm: &mut Pgm, change: Change) -> (Vec<u8>, Option<Verdict>) {
    if SOUND.contains(&change) {
        sound(random, pgm, change);
        (pgm.bytes(), Some(Verdict::Done { rows: pgm.rows() }))
    } else if HEADERS.contains(&change) {
        let number = if change == AxisTooLong { TOO_MANY } else { PGM_HEADER };
        (header(random, pgm, change), Some(Verdict::Header { number }))
    } else if IMAGES.contains(&change) {
        let (bytes, verdict) = image(random, pgm, change);
        (bytes, Some(verdict))
    } else {
        (any(random, pgm, change), None)
    }
}

fn sound(random: &mut Random, pgm: &mut Pgm, change: Change) {
    match change {
        MoreBytes => {
            let count = random.pick(&[1, 2, 9, 70_000]);
            pgm.after = random.bytes(count);
        }
        LongestHeader => lengthen(random, pgm, MOST_HEADER),
        _ => {}
    }
}

/// Puts a comment into the header, which is then so long.
fn lengthen(random: &mut Random, pgm: &mut Pgm, length: usize) {
    let text = vec![b'x'; length - pgm.header().len() - 2];
    let long = comment(random, text);
    pgm.fields[random.below(3)].0.extend(long);
}

fn header(random: &mut Random, pgm: &mut Pgm, change: Change) -> Vec<u8> {
    let field = random.below(3);
    let (separators, number) = &mut pgm.fields[field];
    match change {
        OtherMagic => {
            let others = ["P2", "P6", "p5", "P 5", "5P", "P", "", " P5", "#\nP5", "P55"];
            pgm.magic = random.pick(&others).into();
        }
        NoSeparator => separators.clear(),
        OtherSeparator => separators.push(random.pick(&[8, 14, 0, b',', b'/', 0xA0])),
        NoNumber => *number = random.pick(&["", "-3", "+3", "x", "0x3", "#"]).to_string(),
        AxisZero => pgm.fields[random.below(2)].1 = random.pick(&["0", "000"]).to_string(),
        OtherMaxval => other_maxval(random, pgm),
        NoBlankAtEnd => {
            let ends = [&b""[..], b"#\n", b"x", b"#x\r", b"\x08", b"\x0e", b"."];
            pgm.end = random.pick(&ends).to_vec();
            // A sample that is a blank, or a digit, would mend it.
            pgm.samples[0] |= 0x0f00;
        }
        HeaderCut => {
            let mut bytes = pgm.header();
            bytes.truncate(random.below(bytes.len()));
            return bytes;
        }
        HeaderTooLong => {
            let more = random.pick(&[1, 2, 5000]);
            lengthen(random, pgm, MOST_HEADER + more);
        }
        AxisTooLong => axis_too_long(random, pgm),
        _ => {
            axis_too_long(random, pgm);
            other_maxval(random, pgm);
        }
    }
    pgm.bytes()
}

fn other_maxval(random: &mut Random, pgm: &mut Pgm) {
    let others = [0, 1, 255, 4094, 4096, 40950, 65535, 4294967295, wrapped(random, MAXVAL.into())];
    pgm.fields[2].1 = random.pick(&others).to_string();
}

/// What a careless reader takes for the same number.
fn wrapped(random: &mut Random, number: u128) -> u128 {
    number + (1 << random.pick(&[32, 33, 64, 65]))
}

fn axis_too_long(random: &mut Random, pgm: &mut Pgm) {
    let axis = random.below(2);
    let least = [MAX_PIXELS, MOST_ROWS][axis] + 1;
    let longer = random.within(least..=u32::MAX as usize);
    let same = wrapped(random, [pgm.width, pgm.rows()][axis] as u128);
    let number = random.pick(&[least as u128, longer as u128, 1 << 32, same]);
    pgm.fields[axis].1 = spelled(random, number);
}

fn image(random: &mut Random, pgm: &mut Pgm, change: Change) -> (Vec<u8>, Verdict) {
    let (start, width) = (pgm.header().len(), pgm.width);
    let mut end = start + 2 * pgm.samples.len();
    let row_of = |place: usize| (place - start) / (2 * width);
    let verdict = match change {
        Cut => {
            let any = random.within(start..=end - 1);
            end = random.pick(&[any, end - 1]);
            Verdict::Row { number: IMAGE_END, row: row_of(end) }
        }
        SampleAbove => {
            let row = random.below(pgm.rows());
            let verdict = Verdict::Row { number: PIXEL, row };
            rows::spoil(random, &mut pgm.samples[width * row..][..width]);
            let more = random.below(9);
            let bytes = [pgm.bytes(), random.bytes(more)].concat();
            return (bytes, verdict);
        }
        // The cut is seen first.
        _ => {
            let last = pgm.samples.len() - width;
            rows::spoil(random, &mut pgm.samples[last..]);
            end -= 1;
            Verdict::Row { number: IMAGE_END, row: row_of(end) }
        }
    };
    let mut bytes = pgm.bytes();
    bytes.truncate(end);
    (bytes, verdict)
}

/// What comes of these is for both converters to say.
fn any(random: &mut Random, pgm: &Pgm, change: Change) -> Vec<u8> {
    let mut bytes = pgm.bytes();
    match change {
        BytesMixed => {
            let other = bytes.clone();
            mutate(random, &mut bytes, &other);
        }
        HeaderMixed => {
            let mut header = pgm.header();
            let other = header.clone();
            mutate(random, &mut header, &other);
            bytes.splice(..other.len(), header);
        }
        _ => {
            let count = random.below(200);
            bytes = random.bytes(count);
        }
    }
    bytes
}

#[cfg(test)]
mod tests {
    use super::super::{pgm, size};
    use super::*;
    use crate::conversion::Conversion;
    use crate::known::plain_table;
    use crate::pgm::convert;

    #[test]
    fn changes_come_to_their_verdicts() {
        let conversion = Conversion::new(&plain_table()).unwrap();
        let mut random = Random::new(81);
        for kind in changes() {
            for _ in 0..300 {
                let (width, rows) = size(&mut random);
                let size = (width.min(30), rows.min(6));
                let mut pgm = pgm(&mut random, &conversion.codec.table, size);
                let (bytes, verdict) = change(&mut random, &mut pgm, kind);
                let came = convert(&conversion, &bytes);
                let certain = verdict.unwrap_or(came.verdict);
                let header = String::from_utf8_lossy(&bytes[..bytes.len().min(99)]);
                assert_eq!(came.verdict, certain, "{kind:?}: {header:?}");
                assert!(!came.more || matches!(kind, MoreBytes) || verdict.is_none());
            }
        }
    }
}
