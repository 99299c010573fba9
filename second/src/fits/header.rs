//! The header of an image: what a scan must have in it, and its two axes.

use super::card::Card;
use super::{BLOCK_BYTES, CARD_BYTES, FIRST_KEYWORDS, MAX_AXIS, MOST_BLOCKS};
use crate::refusal::{FITS_HEADER, TOO_MANY};

#[derive(Clone, Copy, PartialEq, Eq, Debug)]
pub struct Header {
    pub width: usize,
    pub rows: usize,
    /// Where the image begins: the first block after END's.
    pub start: usize,
}

impl Header {
    /// Reads a header, or gives the number of its refusal. What follows END
    /// is not looked at.
    pub fn read(fits: &[u8]) -> Result<Header, u32> {
        let cards = Card::all(fits).take(MOST_BLOCKS * BLOCK_BYTES / CARD_BYTES);
        let cards: Vec<Card> = cards.collect();
        let end = cards.iter().position(|card| card.has_keyword("END")).ok_or(FITS_HEADER)?;
        let axes = axes(&cards[..end]).ok_or(FITS_HEADER)?;
        if axes.iter().any(|&axis| axis > MAX_AXIS as i128) {
            return Err(TOO_MANY);
        }
        let [width, rows] = axes.map(|axis| axis as usize);
        let start = ((end + 1) * CARD_BYTES).next_multiple_of(BLOCK_BYTES);
        Ok(Header { width, rows, start })
    }
}

/// Both axes, each at least 1, if the cards before END are those of an
/// unscaled image of 16-bit pixels.
fn axes(cards: &[Card]) -> Option<[i128; 2]> {
    let [simple, bitpix, naxis, naxis1, naxis2, others @ ..] = cards else {
        return None;
    };
    let is_scaling = |card: &Card| card.has_keyword("BSCALE") || card.has_keyword("BZERO");
    let is_image = simple.is_true(FIRST_KEYWORDS[0])
        && bitpix.integer(FIRST_KEYWORDS[1]) == Some(16)
        && naxis.integer(FIRST_KEYWORDS[2]) == Some(2)
        && !others.iter().any(is_scaling);
    let axes = [naxis1.integer(FIRST_KEYWORDS[3])?, naxis2.integer(FIRST_KEYWORDS[4])?];
    (is_image && axes.iter().all(|&axis| axis >= 1)).then_some(axes)
}
