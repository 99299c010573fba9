use super::*;
use crate::conversion::{Conversion, Verdict};
use crate::known::{memo_table, plain_table, Labels};
use crate::row::MAX_PIXELS;

fn header(text: &str) -> Result<(usize, usize, usize), u32> {
    Header::read(text.as_bytes()).map(|Header { width, rows, start }| (width, rows, start))
}

/// A picture of two columns.
fn picture(rows: &[[u16; 2]]) -> Vec<u8> {
    let mut pgm = format!("P5\n2 {}\n4095\n", rows.len()).into_bytes();
    pgm.extend(rows.iter().flatten().flat_map(|sample| sample.to_be_bytes()));
    pgm
}

fn converted(pgm: &[u8]) -> Converted {
    convert(&Conversion::new(&plain_table()).unwrap(), pgm)
}

#[test]
fn headers() {
    assert_eq!(header("P5\n3 2\n4095\n"), Ok((3, 2, 12)));
    assert_eq!(header("P5 0003\t02\r\n4095 \n"), Ok((3, 2, 17)));
    assert_eq!(header("P5#a\n#b\r 3#\n2 # 9 \n#\r4095\nx"), Ok((3, 2, 26)));
    assert_eq!(header("P5 4096 65536 4095\t"), Ok((4096, 65536, 19)));
    assert_eq!(header("P5\u{b}3\u{c}2 4095\u{b}"), Ok((3, 2, 12)));
    assert_eq!(header("P5#\u{b}3\u{c}2 4095\n3 2 4095\u{c}"), Ok((3, 2, 22)));
}

#[test]
fn headers_that_are_none() {
    let wrong = [
        "",
        "P",
        "P5",
        "P2 3 2 4095 ",
        "p5 3 2 4095 ",
        " P5 3 2 4095 ",
        "P53 2 4095 ",
        "P5 3 2 4095",
        "P5 3 2 4095#\n",
        "P5 3 2 4095x",
        "P5 3 2",
        "P5 3 2 ",
        "P5 3 2 # ",
        "P5 0 2 4095 ",
        "P5 3 0 4095 ",
        "P5 3 2 4094 ",
        "P5 3 2 255 ",
        "P5 3 2 65535 ",
        "P5 -3 2 4095 ",
        "P5 +3 2 4095 ",
        "P5 3,2 4095 ",
        "P5 3 2\u{8}4095 ",
        "P5 3 2\u{e}4095 ",
        "P5 3.0 2 4095 ",
        "P5 3 2 4294971391 ",
        "P5 3 2 18446744073709555711 ",
        "P5 0 65537 4095 ",
        "P5 4097 2 4096 ",
    ];
    for text in wrong {
        assert_eq!(header(text), Err(17), "{text:?}");
    }
}

#[test]
fn axes_that_are_too_long() {
    let long = [
        "P5 4097 2 4095 ",
        "P5 3 65537 4095 ",
        "P5 4294967295 4294967295 4095 ",
        "P5 4294967299 2 4095 ",
        "P5 3 18446744073709551618 4095 ",
    ];
    for text in long {
        assert_eq!(header(text), Err(11), "{text:?}");
    }
}

#[test]
fn where_a_header_must_end() {
    let text = |comment: usize| format!("P5#{}\n3 2 4095 ", "x".repeat(comment));
    let longest = MOST_HEADER - text(0).len();
    assert_eq!(header(&text(longest)), Ok((3, 2, MOST_HEADER)));
    assert_eq!(header(&text(longest + 1)), Err(17));
}

#[test]
fn there_and_back() {
    let pgm = picture(&[[0, 4095], [4094, 4093], [766, 1]]);
    for table in [plain_table(), memo_table(Labels::Version11)] {
        let Converted { sheet, verdict, more } = convert(&Conversion::new(&table).unwrap(), &pgm);
        assert_eq!((verdict, more), (Verdict::Done { rows: 3 }, false));
        assert_eq!(write_pgm(&Stored::read(&sheet), None), Ok(pgm.clone()));
        assert_eq!(write_pgm(&Stored::read(&sheet), Some(7)), Ok(pgm.clone()));
    }
    assert_eq!(converted(&[&pgm[..], &[0]].concat()), Converted { more: true, ..converted(&pgm) });
}

#[test]
fn cut_and_spoilt() {
    let pgm = picture(&[[0, 4095], [4096, 65535]]);
    let first = converted(&picture(&[[0, 4095]])).sheet;
    let stopped = |number| {
        let verdict = Verdict::Row { number, row: 1 };
        Converted { sheet: first.clone(), verdict, more: false }
    };
    assert_eq!(converted(&pgm), stopped(4));
    assert_eq!(converted(&[&pgm[..], &[1]].concat()), stopped(4));
    // Cut, though its first sample is too large.
    assert_eq!(converted(&pgm[..pgm.len() - 1]), stopped(18));
    let nothing = Converted { sheet: vec![], verdict: Verdict::Header { number: 17 }, more: false };
    assert_eq!(converted(b"P5 3 2 4096\n"), nothing);
    assert_eq!(Conversion::new(&[0; 4]).err(), Some(1));
}

/// The longest codewords make the longest records.
#[test]
fn the_widest_rows() {
    let mut pgm = format!("P5 {MAX_PIXELS} 1 4095\n").into_bytes();
    pgm.extend((0..MAX_PIXELS).flat_map(|place| [place as u8 % 16, 5]));
    let Converted { sheet, verdict, .. } = converted(&pgm);
    assert_eq!(verdict, Verdict::Done { rows: 1 });
    let written = write_pgm(&Stored::read(&sheet), None).unwrap();
    assert_eq!(written, [b"P5\n4096 1\n4095\n", &pgm[15..]].concat());
}
