use super::*;
use crate::listing::list_sheet;

/// No record of a row is longer: 4096 heights written in 14 bits each.
const MOST_ROW_BYTES: usize = 10 + MAX_PIXELS * 14 / 8;

fn card(text: &str) -> String {
    format!("{text:<80}")
}

fn fixed(keyword: &str, value: &str) -> String {
    card(&format!("{keyword:<8}= {value:>20} / a comment"))
}

/// The five cards of a scan, of these axes.
fn first_cards(width: &str, rows: &str) -> Vec<String> {
    let values = ["T", "16", "2", width, rows];
    FIRST_KEYWORDS.iter().zip(values).map(|(keyword, value)| fixed(keyword, value)).collect()
}

/// Header and image of these cards, END after them.
fn scan(cards: &[String], pixels: &[i16]) -> Vec<u8> {
    let mut bytes = (cards.concat() + &card("END")).into_bytes();
    bytes.resize(bytes.len().next_multiple_of(BLOCK_BYTES), b' ');
    bytes.extend(pixels.iter().flat_map(|pixel| pixel.to_be_bytes()));
    bytes
}

fn image(fits: &[u8]) -> Image {
    let mut out = vec![7; TABLE_RECORD_BYTES];
    let image = Converter::default().header(fits, &mut out);
    let refused = image.number != DONE;
    assert_eq!(refused, out.iter().all(|&byte| byte == 7), "a refusal writes nothing");
    assert!(!refused || image == Image { number: image.number, ..Image::default() });
    image
}

/// The number for five cards of which one is changed.
fn with_card(index: usize, changed: &str) -> u32 {
    let mut cards = first_cards("3", "2");
    cards[index] = card(changed);
    image(&scan(&cards, &[])).number
}

fn of_axes(width: &str, rows: &str) -> u32 {
    image(&scan(&first_cards(width, rows), &[])).number
}

#[test]
fn a_scan() {
    let bytes = scan(&first_cards("3", "2"), &[]);
    let expected = Image { number: 0, width: 3, rows: 2, start: 2880, count: 2078 };
    assert_eq!(image(&bytes), expected);
    let mut out = [7; 2077];
    assert_eq!(Converter::default().header(&bytes, &mut out).number, ROOM);
    assert_eq!(out, [7; 2077]);
}

#[test]
fn columns_that_are_not_looked_at() {
    assert_eq!(with_card(0, "SIMPLE  =                    TRUE"), 0);
    assert_eq!(with_card(1, "BITPIX  =                   16.5"), 0);
    assert_eq!(with_card(4, "NAXIS2  =                    20"), 0);
}

#[test]
fn first_cards_in_fixed_format() {
    assert_eq!(with_card(0, "SIMPLE  =                    F"), 17);
    assert_eq!(with_card(0, "SIMPLE  =                    t"), 17);
    assert_eq!(with_card(0, "SIMPLE  =                   T "), 17);
    assert_eq!(with_card(0, "SIMPLE  =                   TT"), 17);
    assert_eq!(with_card(0, "SIMPLE  = T"), 17);
    assert_eq!(with_card(0, "SIMPLE                       T"), 17);
    assert_eq!(with_card(0, "SIMPLE  =.                   T"), 17);
    assert_eq!(with_card(0, "SIMPLEX =                    T"), 17);
    assert_eq!(with_card(0, " SIMPLE =                    T"), 17);
    assert_eq!(with_card(1, "BITPIX  =                  +16"), 0);
    assert_eq!(with_card(1, "BITPIX  = 00000000000000000016"), 0);
    assert_eq!(with_card(1, "BITPIX  = +0000000000000000016"), 0);
    for wrong in ["-16", "8", "-32", "65552", "18446744073709551632", "1 6", "+ 16", "16.", "++16"]
    {
        assert_eq!(with_card(1, &format!("BITPIX  = {wrong:>20}")), 17, "{wrong}");
    }
    for wrong in ["", "+", "-", "16 ", "16                  "] {
        assert_eq!(with_card(1, &format!("BITPIX  = {wrong:>20}")), 17, "{wrong}");
    }
    assert_eq!(with_card(2, "NAXIS   =                    3"), 17);
    assert_eq!(with_card(2, "NAXIS   =                   02"), 0);
    assert_eq!(with_card(3, "NAXIS2  =                    3"), 17);
}

#[test]
fn order_of_the_cards() {
    let mut cards = first_cards("3", "2");
    cards.swap(3, 4);
    assert_eq!(image(&scan(&cards, &[])).number, 17);
    let mut cards = first_cards("3", "2");
    cards.insert(1, card("COMMENT"));
    assert_eq!(image(&scan(&cards, &[])).number, 17);
    assert_eq!(image(&scan(&first_cards("3", "2")[..4], &[])).number, 17);
    assert_eq!(image(&scan(&[], &[])).number, 17);
}

#[test]
fn axes() {
    for axis in ["1", "4096", "+4096", "00000000000000000001"] {
        assert_eq!((of_axes(axis, "2"), of_axes("3", axis)), (0, 0), "{axis}");
    }
    for axis in ["0", "-0", "+0", "-1", "-4294967295", "-9999999999999999999"] {
        assert_eq!((of_axes(axis, "2"), of_axes("3", axis)), (17, 17), "{axis}");
        assert_eq!((of_axes(axis, "4097"), of_axes("4097", axis)), (17, 17), "{axis}");
    }
    for axis in ["4097", "4294967297", "18446744073709551617", "99999999999999999999"] {
        assert_eq!((of_axes(axis, "2"), of_axes("3", axis)), (11, 11), "{axis}");
    }
}

#[test]
fn scaling() {
    let with = |text: &str| {
        let cards = [first_cards("3", "2"), vec![card("COMMENT"), card(text)]].concat();
        image(&scan(&cards, &[])).number
    };
    for scaled in ["BSCALE  =                  1.0", "BZERO   = 0", "BZERO", "BSCALE   none"] {
        assert_eq!(with(scaled), 17, "{scaled}");
    }
    for other in ["BSCALES = 2.0", "BZERO1  = 3", "bscale  = 1", " BZERO  = 1", "BZERO=  1"] {
        assert_eq!(with(other), 0, "{other}");
    }
    let mut bytes = scan(&first_cards("3", "2"), &[]);
    bytes[480..560].copy_from_slice(fixed("BSCALE", "2.0").as_bytes());
    assert_eq!(image(&bytes).number, 0, "it stands after END");
}

#[test]
fn end_of_the_header() {
    let after = |count: usize| {
        let others = vec![card("HISTORY"); count];
        image(&scan(&[first_cards("3", "2"), others].concat(), &[]))
    };
    assert_eq!((after(30).start, after(31).start), (2880, 5760));
    assert_eq!((after(354).number, after(354).start), (0, 28_800));
    assert_eq!(after(355).number, 17);
    for (end, number) in [("END     is near", 0), ("ENDX", 17), ("END    .", 17), ("end", 17)] {
        let bytes = first_cards("3", "2").concat() + &card(end);
        assert_eq!(image(bytes.as_bytes()).number, number, "{end}");
    }
}

#[test]
fn cut_headers() {
    let bytes = scan(&first_cards("3", "2"), &[1, 2, 3, 4, 5, 6]);
    for length in [0, 79, 399, 400, 479] {
        assert_eq!(image(&bytes[..length]).number, 17, "{length}");
    }
    for length in [480, 2879, 2880, 2885] {
        let (sheet, verdict) = Converter::default().sheet(&bytes[..length]);
        assert_eq!(verdict, Verdict::Row { number: 18, row: 0 }, "{length}");
        assert_eq!(list_sheet(&sheet), "table 1 low 3837 size 512 worst 14\ndone rows 0\n");
    }
}

/// Rows of a call, with the lent memory of 100 bytes.
fn row(width: u64, row: u64, pixels: &[i16]) -> (u32, Vec<u8>) {
    let image: Vec<u8> = pixels.iter().flat_map(|pixel| pixel.to_be_bytes()).collect();
    let mut out = vec![7; 100];
    let answer = Converter::default().row(width, row, &image, &mut out);
    let untouched = out.split_off(answer.count as usize);
    assert!(untouched.iter().all(|&byte| byte == 7));
    (answer.number, out)
}

#[test]
fn rows() {
    let record = vec![10, 0, 0, 0, 2, 0, 255, 15, 2, 0, 0x31, 0xC3, 0, 0];
    assert_eq!(row(2, 4095, &[204, 4095]), (0, record.clone()));
    assert_eq!(row(2, 4095, &[204, 4095, -1]), (0, record), "the next row's pixel");
    let refused = |number| (number, vec![]);
    for place in [0, 4095, 4096, 1 << 63] {
        assert_eq!(row(0, place, &[1]), refused(17));
    }
    for width in [4097, 1 << 32, (1 << 32) + 1, 1 << 63, u64::MAX] {
        assert_eq!(row(width, 0, &[1]), refused(11));
    }
    for place in [4096, 1 << 32, (1 << 32) + 1, 1 << 63, u64::MAX] {
        assert_eq!(row(1, place, &[1]), refused(11));
    }
    assert_eq!(row(2, 0, &[-1]), refused(18), "cut, though its pixel is bad");
    for pixel in [-1, 4096, -32768, 32767] {
        assert_eq!(row(2, 0, &[0, pixel]), refused(4));
    }
    assert_eq!(row(80, 0, &[4000; 80]), refused(5));
    assert_eq!(row(80, 0, &[-4000; 80]), refused(4));
}

#[test]
fn a_row_cut_by_a_byte() {
    let mut out = [7; 100];
    let image = [0, 204, 15, 255];
    assert_eq!(Converter::default().row(2, 0, &image[..3], &mut out).pair(), (18, 0));
    assert_eq!(Converter::default().row(2, 0, &image, &mut out).pair(), (0, 14));
    assert_eq!(Converter::default().row(2, 0, &image, &mut out[..13]).pair(), (5, 0));
}

#[test]
fn sheets_of_scans() {
    let table = "table 1 low 3837 size 512 worst 14\n";
    let listed = |pixels: &[i16]| {
        let (sheet, verdict) = Converter::default().sheet(&scan(&first_cards("2", "2"), pixels));
        (list_sheet(&sheet), verdict)
    };
    let first = "row 0 pixels 2 bits 17 words 1\n";
    let second = "row 1 pixels 2 bits 24 words 1\n";
    let whole = format!("{table}{first}{second}done rows 2\n");
    assert_eq!(listed(&[204, 4095, 766, 766]), (whole.clone(), Verdict::Done { rows: 2 }));
    assert_eq!(listed(&[204, 4095, 766, 766, -1]), (whole, Verdict::Done { rows: 2 }));
    let part = format!("{table}{first}done rows 1\n");
    let fault = Verdict::Row { number: 4, row: 1 };
    assert_eq!(listed(&[204, 4095, 766, 4096]), (part.clone(), fault));
    assert_eq!(listed(&[204, 4095, -1]), (part, Verdict::Row { number: 18, row: 1 }));
    let (sheet, verdict) = Converter::default().sheet(&scan(&first_cards("2", "0"), &[]));
    assert_eq!((sheet, verdict), (vec![], Verdict::Header { number: 17 }));
}

/// Only the first height becomes previous, so each of the others is raw too.
#[test]
fn the_longest_row() {
    let mut pixels = [0; MAX_AXIS];
    pixels[0] = 4000;
    let fits = scan(&first_cards("4096", "1"), &pixels);
    let (sheet, verdict) = Converter::default().sheet(&fits);
    assert_eq!(verdict, Verdict::Done { rows: 1 });
    assert_eq!(sheet.len(), TABLE_RECORD_BYTES + MOST_ROW_BYTES);
}
