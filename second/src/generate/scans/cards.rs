//! Cards of a header, eighty characters each.

use crate::fits::CARD_BYTES;
use crate::random::Random;

pub type Card = [u8; CARD_BYTES];

/// Columns 9 to 30: the value indicator and a value in fixed format.
const VALUE_COLUMNS: usize = 20;
/// After the last column that is looked at.
const COMMENT: usize = 30;
/// What a card without a fixed value holds after its keyword.
const TEXTS: [&str; 8] = [
    "a foot on the glass",
    "= 'left'",
    "=                  1.0 / BSCALE = 2",
    "= 4.5E3",
    "  'a string that goes on&'",
    "END",
    "=                   16",
    "",
];
const OTHER_KEYWORDS: [&str; 12] = [
    "COMMENT", "HISTORY", "CONTINUE", "", "DATE-OBS", "OBJECT", "EXTEND", "BLANK", "NAXIS3",
    "HIERARCH", "BUNIT", "CHECKSUM",
];
/// Keywords that a careless eye takes for those that matter.
const NEAR_KEYWORDS: [&str; 16] = [
    "BSCALES", "BSCALE1", "BSCALE=", "BZERO1", "BZERO=", "BZEROS", "BZERO 1", " BZERO", " BSCALE",
    "bscale", "bzero", "Bzero", "BSCAL", "BZER", "TBSCALE", "BSCALE\0",
];
/// The same of END, which must come later then.
pub const NEAR_ENDS: [&str; 12] = [
    "ENDX", "END1", "END    .", "END\0", "end", "End", " END", "EN", "END=", "XEND", "END-OBS",
    "ENDING",
];

/// A card of this text, blanks after it.
pub fn card(text: &str) -> Card {
    let mut card = [b' '; CARD_BYTES];
    card[..text.len()].copy_from_slice(text.as_bytes());
    card
}

pub fn blank_cards(count: usize) -> Vec<Card> {
    vec![card(""); count]
}

/// A keyword with a value that ends in column 30, and then any comment.
pub fn fixed(random: &mut Random, keyword: &str, value: &str) -> Card {
    let mut card = card(&format!("{keyword:<8}= {value:>VALUE_COLUMNS$}"));
    any_comment(random, &mut card);
    card
}

/// Columns 31 to 80: a comment, nothing, or anything.
fn any_comment(random: &mut Random, card: &mut Card) {
    match random.below(4) {
        0 => random.fill(&mut card[COMMENT..]),
        1 => card[COMMENT..COMMENT + 4]
            .copy_from_slice(&random.pick(&[*b"0000", *b".500", *b"T  7"])),
        2 => card[COMMENT..COMMENT + 9].copy_from_slice(b" / number"),
        _ => {}
    }
}

/// A number as a header may have it: at times signed or after zeros.
pub fn spelled(random: &mut Random, value: usize) -> String {
    let sign = if random.one_in(6) { "+" } else { "" };
    let width = VALUE_COLUMNS - sign.len();
    let zeros = random.within(1..=width);
    match random.below(6) {
        0 => format!("{sign}{value:0zeros$}"),
        1 => format!("{sign}{value:0width$}"),
        _ => format!("{sign}{value}"),
    }
}

/// A card that has nothing to say about the image.
fn other_card(random: &mut Random) -> Card {
    let keyword = match random.below(10) {
        0 => random.pick(&NEAR_KEYWORDS),
        1 => random.pick(&NEAR_ENDS),
        _ => random.pick(&OTHER_KEYWORDS),
    };
    let mut card = card(&format!("{keyword:<8}{}", random.pick(&TEXTS)));
    if random.one_in(10) {
        // No keyword that matters has a second column like this.
        random.fill(&mut card);
        card[1] = 0;
    }
    card
}

pub fn other_cards(random: &mut Random, count: usize) -> Vec<Card> {
    (0..count).map(|_| other_card(random)).collect()
}

/// BSCALE or BZERO, with any value or none.
pub fn scaling(random: &mut Random) -> Card {
    let keyword = random.pick(&["BSCALE", "BZERO"]);
    card(&format!("{keyword:<8}{}", random.pick(&TEXTS)))
}

/// A card with a keyword that may be taken for BSCALE or BZERO.
pub fn near_scaling(random: &mut Random) -> Card {
    card(&format!("{:<8}{}", random.pick(&NEAR_KEYWORDS), random.pick(&TEXTS)))
}

/// END, mostly with blanks after it.
pub fn end(random: &mut Random) -> Card {
    let mut card = card("END");
    if random.one_in(4) {
        random.fill(&mut card[8..]);
    }
    card
}
