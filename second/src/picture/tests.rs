use super::colour::{ABOVE, BAD_BIAS, BAD_PIXEL, BELOW};
use super::*;
use crate::generate::entries::{framed, row_body};
use crate::generate::rows::pixel_bytes;
use crate::known::plain_table;
use crate::sheet::{KIND_PACKED, KIND_PLAIN, KIND_TABLE};

/// Plain rows after a table.
fn sheet(rows: &[(u16, &[u16])]) -> Vec<u8> {
    let mut sheet = framed(KIND_TABLE, &plain_table());
    for (number, heights) in rows {
        let body = row_body(*number, heights.len() as u16, &pixel_bytes(heights));
        sheet.extend(framed(KIND_PLAIN, &body));
    }
    sheet
}

fn grid(sheet: &[u8], look: &Look) -> Vec<Vec<u8>> {
    let stored = Stored::read(sheet);
    let picture = Picture::new(look, &stored);
    let mut rows = vec![Vec::new(); picture.height()];
    rows.iter_mut().enumerate().for_each(|(y, row)| picture.row(y, row));
    assert!(rows.iter().all(|row| row.len() == picture.width()));
    rows
}

fn extent(sheet: &[u8]) -> (usize, usize) {
    let Extent { width, height } = Extent::of(&Stored::read(sheet));
    (width, height)
}

fn plain(times: usize) -> Look {
    Look { times, grey: Range::WHOLE, beside: Beside::Nothing }
}

#[test]
fn greys_of_the_whole_range() {
    for height in 0..=4093 {
        assert_eq!(u16::from(height_index(Range::WHOLE, height)), height / 23);
    }
    let range = Range { low: 100, high: 200 };
    let indices = [0, 99, 100, 150, 200, 201, 4093, 4094, 4095].map(|h| height_index(range, h));
    assert_eq!(indices, [BELOW, BELOW, 0, 88, 176, ABOVE, ABOVE, BAD_BIAS, BAD_PIXEL]);
    let one = Range { low: 7, high: 7 };
    assert_eq!([6, 7, 8].map(|h| height_index(one, h)), [BELOW, 0, ABOVE]);
}

#[test]
fn greens() {
    assert_eq!([0, 1, 999, 1000].map(|count| count_index(1000, count)), [184, 185, 255, 255]);
    assert_eq!([0, 1].map(|count| count_index(1, count)), [184, 255]);
    assert_eq!(count_index(65535, 65535), 255);
}

#[test]
fn colours_differ() {
    let palette = palette();
    let mut colours = palette.as_chunks::<3>().0.to_vec();
    assert_eq!((colours[0], colours[177], colours[255]), ([0; 3], [255; 3], [220, 255, 140]));
    assert_eq!((colours[184], colours[185]), ([0, 32, 0], [3, 82, 1]));
    colours.sort();
    colours.dedup();
    assert_eq!(colours.len(), 256);
}

#[test]
fn rows_stand_at_their_numbers() {
    let sheet = sheet(&[(1, &[0, 4095, 4093]), (3, &[4094])]);
    let [m, spot, bias] = [MISSING, BAD_PIXEL, BAD_BIAS];
    let rows = [[m, m, m], [0, spot, 177], [m, m, m], [bias, m, m]];
    assert_eq!(grid(&sheet, &plain(1)), rows);
    let twice = rows.iter().flat_map(|row| vec![row.map(|index| [index; 2]).concat(); 2]);
    assert_eq!(grid(&sheet, &plain(2)), twice.collect::<Vec<_>>());
}

#[test]
fn extents() {
    assert_eq!(extent(&sheet(&[])), (1, 1));
    assert_eq!(extent(&sheet(&[(0, &[])])), (1, 1));
    assert_eq!(extent(&sheet(&[(65535, &[1, 2])])), (2, 65536));
    assert_eq!(extent(&[]), (16, 16));
    let cut = |rows: &[(u16, &[u16])]| {
        let sheet = sheet(rows);
        extent(&sheet[..sheet.len() - 1])
    };
    assert_eq!(cut(&[(4, &[0; 20]), (90, &[0; 30])]), (20, 21));
    assert_eq!(cut(&[(4, &[0; 9]), (4, &[]), (70, &[0; 99]), (90, &[])]), (16, 71));
    assert_eq!(cut(&[(65535, &[0; 4096]), (3, &[])]), (4096, 65552));
    // Neither an unknown kind nor a record of kind 2 without a row number claims one.
    let behind = |body: &[u8]| {
        let fault = framed(99, &[200, 0]);
        extent(&[&sheet(&[])[..], &fault, &framed(KIND_PACKED, body)].concat()).1
    };
    assert_eq!([&[][..], &[250], &[250, 0], &[250, 0, 9]].map(behind), [16, 16, 251, 251]);
}

/// The map is as high as the sheet, but not less than itself.
#[test]
fn a_map_beside() {
    let counts: Vec<u16> = (0..128 * 128).map(|place| u16::from(place % 129 == 0)).collect();
    let look = Look { beside: Beside::Counts(counts), ..plain(1) };
    let small = grid(&sheet(&[(0, &[0])]), &look);
    assert_eq!((small.len(), small[0].len()), (128, 1 + 8 + 128));
    assert_eq!((small[0][0], small[1][0], small[0][8]), (0, BACKGROUND, BACKGROUND));
    let diagonal = |(y, row): (usize, &Vec<u8>)| row[9..].iter().position(|&i| i == 255) == Some(y);
    assert!(small.iter().enumerate().all(diagonal));
    let high = grid(&sheet(&[(299, &[0])]), &look);
    assert_eq!((high.len(), high[0].len()), (300, 1 + 8 + 256));
    assert_eq!((high[255][264], high[254][263], high[255][262]), (255, 255, 184));
    assert!(high[256][1..].iter().all(|&index| index == BACKGROUND));
}

#[test]
fn a_map_that_is_refused() {
    let look = Look { beside: Beside::Unread, ..plain(3) };
    let rows = grid(&sheet(&[(0, &[0])]), &look);
    assert_eq!((rows.len(), rows[0].len()), (128, 3 + 8 + 128));
    assert!(rows.iter().all(|row| row[3..11] == [BACKGROUND; 8] && row[11..] == [MISSING; 128]));
}
