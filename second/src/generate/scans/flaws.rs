//! Scans changed in each way that the rules speak of, with the verdict that
//! each must come to.

mod bytes;
mod ends;
mod first;
mod image;

use super::Scan;
use crate::conversion::Verdict;
use crate::random::Random;

#[derive(Clone, Copy, PartialEq, Eq, Debug)]
pub enum Change {
    Nothing,
    KeywordWrong,
    CardsSwapped,
    CardMissing,
    CardBetween,
    IndicatorWrong,
    LogicalWrong,
    ValueOther,
    NumberNotRight,
    NumberParted,
    NumberCharacter,
    NumberSigns,
    NumberMissing,
    AxisZero,
    AxisNegative,
    AxisAbove,
    BothAxesAbove,
    AxisAboveAndZero,
    AxisAboveAndScaled,
    Scaled,
    ScaledAfterEnd,
    ScaledNearly,
    EndLast,
    EndLate,
    EndNearly,
    EndTwice,
    CutBeforeEnd,
    CutWithinEnd,
    CutAtBlock,
    CutAfterEnd,
    CutInRow,
    CutByOneByte,
    CutAfterImage,
    PixelBelow,
    PixelAbove,
    PixelInCutRow,
    PixelsInTwoRows,
    PixelAfterImage,
    CharacterChanged,
    CardsMixed,
    BitsFlipped,
    RandomBytes,
}

use Change::*;

const FIRST_CARDS: [Change; 12] = [
    KeywordWrong,
    CardsSwapped,
    CardMissing,
    CardBetween,
    IndicatorWrong,
    LogicalWrong,
    ValueOther,
    NumberNotRight,
    NumberParted,
    NumberCharacter,
    NumberSigns,
    NumberMissing,
];
const AXES: [Change; 6] =
    [AxisZero, AxisNegative, AxisAbove, BothAxesAbove, AxisAboveAndZero, AxisAboveAndScaled];
const LATER_CARDS: [Change; 7] =
    [Scaled, ScaledAfterEnd, ScaledNearly, EndLast, EndLate, EndNearly, EndTwice];
const CUTS: [Change; 7] =
    [CutBeforeEnd, CutWithinEnd, CutAtBlock, CutAfterEnd, CutInRow, CutByOneByte, CutAfterImage];
const PIXELS: [Change; 5] =
    [PixelBelow, PixelAbove, PixelInCutRow, PixelsInTwoRows, PixelAfterImage];
const ANY: [Change; 4] = [CharacterChanged, CardsMixed, BitsFlipped, RandomBytes];

pub fn changes() -> Vec<Change> {
    [&[Nothing][..], &FIRST_CARDS, &AXES, &LATER_CARDS, &CUTS, &PIXELS, &ANY].concat()
}

/// The file of a sound scan that is changed so, and its verdict, if that is
/// certain.
pub fn change(random: &mut Random, scan: &mut Scan, change: Change) -> (Vec<u8>, Option<Verdict>) {
    if FIRST_CARDS.contains(&change) || AXES.contains(&change) {
        let verdict = first::change(random, scan, change);
        (scan.bytes(), Some(verdict))
    } else if LATER_CARDS.contains(&change) {
        let verdict = ends::change(random, scan, change);
        (scan.bytes(), Some(verdict))
    } else if CUTS.contains(&change) || PIXELS.contains(&change) {
        let (bytes, verdict) = image::change(random, scan, change);
        (bytes, Some(verdict))
    } else if ANY.contains(&change) {
        (bytes::change(random, scan, change), None)
    } else {
        (scan.bytes(), Some(done(scan)))
    }
}

fn refused(number: u32) -> Verdict {
    Verdict::Header { number }
}

fn done(scan: &Scan) -> Verdict {
    Verdict::Done { rows: scan.rows() }
}

#[cfg(test)]
mod tests {
    use super::super::{scan, Size};
    use super::*;
    use crate::fits::Converter;

    #[test]
    fn changes_come_to_their_verdicts() {
        let converter = Converter::default();
        let mut random = Random::new(52);
        for kind in changes() {
            for _ in 0..300 {
                let size = Size::any(&mut random);
                let size = Size { width: size.width.min(30), rows: size.rows.min(6), ..size };
                let mut scan = scan(&mut random, &converter.codec().table, size);
                let (bytes, verdict) = change(&mut random, &mut scan, kind);
                let (_, came) = converter.sheet(&bytes);
                assert!(verdict.is_none_or(|verdict| verdict == came), "{kind:?}: {came:?}");
            }
        }
    }
}
