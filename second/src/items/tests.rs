use super::*;
use crate::known::{plain_table, string_word, table_bytes};
use crate::refusal::{HEIGHT, WORDS_END};

fn plain() -> Codec {
    Codec::open(&plain_table()).unwrap()
}

/// 0: difference 0, 10: escape, 110: bad pixel, 111: bad bias.
fn small() -> Codec {
    let strings = ["10", "110", "111", "0"].map(string_word);
    Codec::open(&table_bytes(&[&[7, 4093, 1], &strings[..]].concat())).unwrap()
}

fn place(at: u32, count: u32, previous: u32, begun: u32) -> ReaderPlace {
    ReaderPlace { at, count, previous, begun }
}

fn refused(number: u32, place: ReaderPlace) -> ItemRead {
    ItemRead { number, kind: 0, step: 0, pixel: 0, place }
}

/// The row 0 766 0 under the plain table, its first height raw and, as the
/// former rule has it, by its step; zeros stand in the rest, which are the
/// difference -256 from 0.
#[test]
fn items_of_a_row() {
    let codec = plain();
    let item = |kind, pixel, place| ItemRead { number: 0, kind, step: 0, pixel, place };
    assert_eq!(open(Ok(&codec)), ReaderOpened { number: 0, place: place(0, 0, 0, 0) });
    for (words, kind, bits) in [([50216961, 32], KIND_RAW, 14), ([3139072, 2], KIND_STEP, 10)] {
        let words = table_bytes(&words);
        let next = |place| next_item(Ok(&codec), &words, place);
        let [one, two, three] =
            [(0, 1), (14, 2), (24, 3)].map(|(more, count)| place(bits + more, count, 0, 1));
        assert_eq!(next(place(0, 0, 0, 0)), item(kind, 0, one));
        assert_eq!(next(one), item(KIND_RAW, 766, two));
        assert_eq!(next(two), item(KIND_STEP, 0, three));
        assert_eq!(next(three), refused(HEIGHT, three));
    }
}

#[test]
fn bad_spots_and_a_first_raw_height() {
    // First bit lowest: 110, 111, then 10 and 766 after it.
    let (codec, words) = (small(), table_bytes(&[766 << 8 | 0b0111_1011, 0]));
    let pixel = next_item(Ok(&codec), &words, place(0, 0, 0, 0));
    assert_eq!((pixel.kind, pixel.pixel, pixel.place), (KIND_BAD_PIXEL, 4095, place(3, 1, 0, 0)));
    let bias = next_item(Ok(&codec), &words, pixel.place);
    assert_eq!((bias.kind, bias.pixel, bias.place), (KIND_BAD_BIAS, 4094, place(6, 2, 0, 0)));
    let raw = next_item(Ok(&codec), &words, bias.place);
    assert_eq!((raw.kind, raw.pixel, raw.place), (KIND_RAW, 766, place(20, 3, 766, 1)));
    let step = next_item(Ok(&codec), &words, raw.place);
    assert_eq!((step.kind, step.step, step.pixel), (KIND_STEP, 0, 766));
}

#[test]
fn at_most_4096_items() {
    let (codec, words) = (small(), vec![0; 4 * 129]);
    let mut at = open(Ok(&codec)).place;
    for count in 1..=4096 {
        at = next_item(Ok(&codec), &words, at).place;
        assert_eq!(at, place(count, count, 0, 1));
    }
    assert_eq!(next_item(Ok(&codec), &words, at), refused(TOO_MANY, at));
}

#[test]
fn places_of_the_callers_own() {
    let (codec, words) = (small(), vec![0; 8]);
    let next = |place| next_item(Ok(&codec), &words, place);
    for odd in [place(64, 3, 0, 0), place(81, 3, 4093, 1), place(27 * 4095, 4095, 0, 1)] {
        assert_eq!(next(odd), refused(WORDS_END, odd));
    }
    // 4096 items are given, and more cannot be.
    for odd in [place(0, 4096, 0, 0), place(0, 4097, 0, 1), place(0, u32::MAX, 0, 1)] {
        assert_eq!(next(odd), refused(TOO_MANY, odd));
    }
    // More than 27 bits an item.
    for odd in [place(1, 0, 0, 0), place(82, 3, 0, 1), place(u32::MAX, 4095, 0, 1)] {
        assert_eq!(next(odd), refused(TOO_MANY, odd));
    }
    // What is previous is no height, or not 0 before there is one; begun is
    // neither 0 nor 1.
    for odd in [place(0, 1, 4094, 1), place(0, 1, 1, 0), place(0, 1, 0, 2), place(0, 1, 5, 7)] {
        assert_eq!(next(odd), refused(TOO_MANY, odd));
    }
    assert_eq!(next(place(0, 1, 4093, 1)).place, place(1, 2, 4093, 1));
}

#[test]
fn a_refused_table() {
    for number in 1..=3 {
        let opened = open(Err(number));
        assert_eq!(opened, ReaderOpened { number, ..ReaderOpened::default() });
        for at in [opened.place, place(u32::MAX, 4097, 4094, 2)] {
            assert_eq!(next_item(Err(number), &[0; 8], at), refused(number, at));
        }
    }
}
