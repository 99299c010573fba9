use super::*;
use crate::generate::entries::{framed, line_body, row_body};
use crate::generate::rows::pixel_bytes;
use crate::map::COUNTS;
use crate::sheet::{KIND_LINE, KIND_PLAIN, KIND_TABLE};

fn row(number: u16, heights: &[u16]) -> Vec<u8> {
    framed(KIND_PLAIN, &row_body(number, heights.len() as u16, &pixel_bytes(heights)))
}

/// A table, a line, and these rows.
fn sheet(rows: &[Vec<u8>]) -> Vec<u8> {
    let line = framed(KIND_LINE, &line_body(&[vec![5]]));
    [framed(KIND_TABLE, &plain_table()), line, rows.concat()].concat()
}

fn complaints(printed: Printed) -> String {
    String::from_utf8(printed.complaints).unwrap()
}

/// The complaints, where nothing is written.
fn said(printed: Printed) -> String {
    assert_eq!(printed.out, []);
    complaints(printed)
}

#[test]
fn heights_as_text() {
    let sheet = sheet(&[row(20, &[1500, 1501, 4095]), row(21, &[]), row(300, &[0])]);
    let lists = |sheet: &[u8], wanted, out: &str, complaints: &str| {
        let printed = Printed { out: out.into(), complaints: complaints.into() };
        assert_eq!(sheet_to_text(sheet, wanted), printed);
    };
    lists(&sheet, None, "20 1500 1501 4095\n21\n300 0\n", "done rows 3\n");
    lists(&sheet, Some(21..=299), "21\n", "done rows 3\n");
    let cut = &sheet[..sheet.len() - 1];
    lists(cut, None, "20 1500 1501 4095\n21\n", "refused 14 at record 4\n");
    lists(&[], None, "", "refused 16 at record 0\n");
}

#[test]
fn sheets_that_are_no_picture() {
    let fault = |rows: &[Vec<u8>], pad| said(sheet_to_pgm("a.sheet", &sheet(rows), pad));
    let line =
        |rows: usize, text: &str| format!("done rows {rows}\nsheet_to_pgm: a.sheet: {text}\n");
    let none = "there are no heights";
    assert_eq!(fault(&[], None), line(0, none));
    assert_eq!(fault(&[row(3, &[])], None), line(1, none));
    assert_eq!(fault(&[row(3, &[])], Some(5)), line(1, none));
    assert_eq!(fault(&[row(1, &[4])], None), line(1, "row 0 is missing"));
    let rows = [row(0, &[4, 5]), row(1, &[4]), row(3, &[])];
    assert_eq!(fault(&rows, None), line(3, "row 1 has 1 heights and row 0 has 2"));
    assert_eq!(fault(&[row(0, &[4]), row(2, &[])], None), line(2, "row 1 is missing"));
}

#[test]
fn padded_pictures() {
    let sheet = sheet(&[row(1, &[4, 5]), row(2, &[7])]);
    let Printed { out, complaints } = sheet_to_pgm("", &sheet, Some(4095));
    assert_eq!(complaints, b"done rows 2\n");
    let samples = [15, 255, 15, 255, 0, 4, 0, 5, 0, 7, 15, 255];
    assert_eq!(out, [&b"P5\n2 3\n4095\n"[..], &samples].concat());
    let cut = sheet_to_pgm("", &sheet[..sheet.len() - 1], Some(0));
    assert_eq!(said(cut), "refused 14 at record 3\n");
}

#[test]
fn what_is_said_of_pictures() {
    let told = |pgm: &[u8], table| complaints(pgm_to_sheet("in", pgm, table));
    assert_eq!(told(b"P5 1 1 4095\n\0\0", None), "done rows 1\n");
    let more = "pgm_to_sheet: in: bytes after the picture are not read\ndone rows 1\n";
    assert_eq!(told(b"P5 1 1 4095\n\0\0\n", None), more);
    assert_eq!(told(b"P5 1 2 4095\n\0\0\0", None), "refused 18 at row 1\n");
    assert_eq!(told(b"", Some(&[0; 4])), "refused 1\n");
    assert_eq!(said(pgm_to_sheet("in", b"P6", None)), "refused 17\n");
}

#[test]
fn what_is_said_of_drawings() {
    let told = |group, total| {
        let map = Some(GivenMap { bytes: vec![255; COUNTS / 32], group, total });
        let options = DrawOptions { map, ..DrawOptions::default() };
        complaints(draw_sheet(&sheet(&[]), &options))
    };
    assert_eq!(told(4, 0), "done rows 0\n");
    assert_eq!(told(4, 1), "done rows 0\nmap refused 21\n");
    assert_eq!(told(5, 0), "done rows 0\nmap refused 14\n");
}
