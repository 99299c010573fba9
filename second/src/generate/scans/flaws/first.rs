//! The first five cards, and the axes in two of them.

use super::super::cards::{blank_cards, card, fixed, scaling, Card};
use super::super::{Scan, FIRST};
use super::{refused, Change};
use crate::conversion::Verdict;
use crate::fits::FIRST_KEYWORDS;
use crate::random::Random;
use crate::refusal::{FITS_HEADER, TOO_MANY};

/// Columns 9 and 10, and columns 11 to 30.
const INDICATOR: usize = 8;
const VALUE: usize = 10;
const VALUE_END: usize = 30;

/// Where the axes' cards stand.
const AXES: [usize; 2] = [3, 4];

const OTHER_KEYWORDS: [&str; 14] = [
    "SIMPLEX", "SIMPLES", "simple", " SIMPLE", "BITPIX1", "Bitpix", "NAXIS0", "NAXIS11", "NAXIS21",
    "NAXIS 1", "XTENSION", "COMMENT", "", "END",
];
/// Right in their low 8, 16, 32 or 64 bits, some of them.
const OTHER_BITPIX: [&str; 12] = [
    "8",
    "32",
    "64",
    "-16",
    "-32",
    "-64",
    "15",
    "17",
    "160",
    "65552",
    "4294967312",
    "18446744073709551632",
];
const OTHER_NAXIS: [&str; 9] =
    ["0", "1", "3", "-2", "12", "20", "258", "4294967298", "18446744073709551618"];
const ZEROS: [&str; 6] = ["0", "-0", "+0", "000", "-0000000000000000000", "00000000000000000000"];
const NEGATIVE: [&str; 10] = [
    "-1",
    "-2",
    "-4096",
    "-4097",
    "-00000000000000004",
    "-65535",
    "-4294967295",
    "-4294967292",
    "-9223372036854775808",
    "-9999999999999999999",
];
const ABOVE: [&str; 16] = [
    "4097",
    "4098",
    "+4097",
    "00000000000000004097",
    "8192",
    "40960",
    "65537",
    "4294967296",
    "4294967297",
    "9223372036854775807",
    "9223372036854775808",
    "18446744073709551615",
    "18446744073709551616",
    "18446744073709551617",
    "+9999999999999999999",
    "99999999999999999999",
];

pub fn change(random: &mut Random, scan: &mut Scan, change: Change) -> Verdict {
    let number = match change {
        Change::AxisAbove | Change::BothAxesAbove => TOO_MANY,
        _ => FITS_HEADER,
    };
    match change {
        Change::KeywordWrong => keyword_wrong(random, scan),
        Change::CardsSwapped => cards_swapped(random, scan),
        Change::CardMissing => {
            scan.cards.remove(random.below(FIRST));
        }
        Change::CardBetween => {
            let others = [card("COMMENT"), card("HISTORY"), blank_cards(1)[0], scaling(random)];
            scan.cards.insert(random.below(FIRST), random.pick(&others));
        }
        Change::IndicatorWrong => {
            let wrong = random.pick(&[*b" =", *b"==", *b"=\t", *b"=0", *b"  ", *b"=+", *b": "]);
            any_first(random, scan)[INDICATOR..VALUE].copy_from_slice(&wrong);
        }
        Change::LogicalWrong => logical_wrong(random, &mut scan.cards[0]),
        Change::ValueOther => value_other(random, scan),
        Change::NumberNotRight => {
            // A blank or more after the last digit.
            let text = number_text(random);
            let text = text + &" ".repeat(random.pick(&[1, 1, 2, 12]));
            set_number(random, scan, &text);
        }
        Change::NumberParted => {
            let text = random.pick(&["1 6", "0 2", "+ 16", "- 1", "0 0016", "2 +2", "1 1", "- 0"]);
            set_number(random, scan, text);
        }
        Change::NumberCharacter => number_character(random, scan),
        Change::NumberSigns => {
            let text = random.pick(&["++16", "+-2", "-+16", "--2", "16+", "2-", "1+6", "+", "-"]);
            set_number(random, scan, text);
        }
        Change::NumberMissing => set_number(random, scan, ""),
        _ => axes(random, scan, change),
    }
    refused(number)
}

fn any_first<'a>(random: &mut Random, scan: &'a mut Scan) -> &'a mut Card {
    &mut scan.cards[random.below(FIRST)]
}

fn keyword_wrong(random: &mut Random, scan: &mut Scan) {
    let place = random.below(FIRST);
    let other = random.pick(&OTHER_KEYWORDS);
    let another = random.pick(&FIRST_KEYWORDS);
    let keyword = random.pick(&[other, other, another]);
    let keyword = if keyword == FIRST_KEYWORDS[place] { "NAXIS3" } else { keyword };
    let text = format!("{keyword:<8}");
    scan.cards[place][..INDICATOR].copy_from_slice(text.as_bytes());
}

fn cards_swapped(random: &mut Random, scan: &mut Scan) {
    let place = random.below(FIRST);
    let other = (place + 1 + random.below(FIRST - 1)) % FIRST;
    scan.cards.swap(place, other);
}

/// T elsewhere, something before it, or another letter.
fn logical_wrong(random: &mut Random, card: &mut Card) {
    let column = random.within(VALUE..=VALUE_END - 2);
    match random.below(4) {
        0 => {
            card[VALUE_END - 1] = b' ';
            card[column] = b'T';
        }
        1 => {
            // In column 31, which is not looked at.
            card[VALUE_END - 1] = b' ';
            card[VALUE_END] = b'T';
        }
        2 => card[column] = random.pick(b"TF.'\0\t1+"),
        _ => card[VALUE_END - 1] = random.pick(b"Ft1Y \0'.0"),
    }
}

fn value_other(random: &mut Random, scan: &mut Scan) {
    let bitpix = random.pick(&OTHER_BITPIX);
    let naxis = random.pick(&OTHER_NAXIS);
    let (place, value) = random.pick(&[(0, "F"), (1, bitpix), (2, naxis)]);
    scan.cards[place] = fixed(random, FIRST_KEYWORDS[place], value);
}

/// Puts a value into one of the four cards that have a number.
fn set_number(random: &mut Random, scan: &mut Scan, value: &str) {
    let place = random.within(1..=FIRST - 1);
    scan.cards[place] = fixed(random, FIRST_KEYWORDS[place], value);
}

fn number_text(random: &mut Random) -> String {
    random.pick(&["16", "2", "1", "7", "+2", "016"]).to_string()
}

/// Something that is neither digit nor sign, before the digits or among them.
fn number_character(random: &mut Random, scan: &mut Scan) {
    let character = random.pick(&['.', ',', '/', ':', 'E', 'T', '\'', '\t', '\0', '_', 'x', '&']);
    let text = number_text(random);
    let place = random.below(text.len() + 1);
    set_number(random, scan, &format!("{}{character}{}", &text[..place], &text[place..]));
}

fn set_axis(random: &mut Random, scan: &mut Scan, axis: usize, value: &str) {
    let place = AXES[axis];
    scan.cards[place] = fixed(random, FIRST_KEYWORDS[place], value);
}

fn axes(random: &mut Random, scan: &mut Scan, change: Change) {
    let axis = random.below(2);
    let zero = random.pick(&ZEROS);
    let negative = random.pick(&NEGATIVE);
    let above = random.pick(&ABOVE);
    match change {
        Change::AxisZero => set_axis(random, scan, axis, zero),
        Change::AxisNegative => set_axis(random, scan, axis, negative),
        Change::AxisAboveAndZero => {
            let below = random.pick(&[zero, negative]);
            set_axis(random, scan, 1 - axis, below);
            set_axis(random, scan, axis, above);
        }
        _ => {
            set_axis(random, scan, axis, above);
            if change == Change::BothAxesAbove {
                let other = random.pick(&ABOVE);
                set_axis(random, scan, 1 - axis, other);
            }
            if change == Change::AxisAboveAndScaled {
                let card = scaling(random);
                scan.put(random, card);
            }
        }
    }
}
