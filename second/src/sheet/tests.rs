use super::*;
use crate::known::{plain_table, table_bytes};
use crate::reader::Codec;
use crate::table::Table;

const READY: State = State { has_table: 1, least_row: 5 };
const EMPTY: State = State { has_table: 0, least_row: 0 };

fn record(kind: u16, body: &[u8]) -> Vec<u8> {
    let length = (2 + body.len()) as u32;
    [&length.to_le_bytes()[..], &kind.to_le_bytes(), body].concat()
}

fn rows(kind: u16, row: u16, count: u16, rest: &[u8]) -> Vec<u8> {
    record(kind, &[&row.to_le_bytes()[..], &count.to_le_bytes(), rest].concat())
}

fn words(words: &[u32]) -> Vec<u8> {
    table_bytes(words)
}

/// The number for a record under the plain table that has no place.
fn number(state: State, bytes: &[u8]) -> u32 {
    let (number, at) = outcome(state, bytes);
    assert_eq!(at, 0);
    number
}

/// Number and place for a record under the plain table, checked to agree
/// whether or not ample memory is lent.
fn outcome(state: State, bytes: &[u8]) -> (u32, u32) {
    let codec = Codec::open(&plain_table()).unwrap();
    let judged = judge_record(state, Ok(&codec), bytes);
    let mut lent = vec![0xA5; 4 * 4096];
    assert_eq!(read_record(state, Ok(&codec), bytes, &mut lent), judged);
    if judged.number != 0 {
        let RecordAnswer { number, at, .. } = judged;
        assert_eq!(judged, RecordAnswer { number, content: None, used: 0, state: EMPTY, at });
        assert!(lent.iter().all(|&byte| byte == 0xA5));
    }
    (judged.number, judged.at)
}

#[test]
fn length_first() {
    for cut in 0..4 {
        assert_eq!(number(READY, &[9; 4][..cut]), 14);
    }
    for length in [0, 1, 32_775, u32::MAX] {
        let bytes = [&length.to_le_bytes()[..], &[0; 40_000]].concat();
        assert_eq!(number(READY, &bytes), 14);
    }
    let whole = record(9, &[]);
    assert_eq!(number(READY, &whole), 15);
    assert_eq!(number(READY, &whole[..5]), 14);
    assert_eq!(number(READY, &[&32_774u32.to_le_bytes()[..], &[0; 32_774]].concat()), 15);
    assert_eq!(number(READY, &[&32_774u32.to_le_bytes()[..], &[0; 32_773]].concat()), 14);
}

#[test]
fn kind_before_place_before_body() {
    for kind in [0, 5, 257, u16::MAX] {
        assert_eq!(number(EMPTY, &record(kind, &[])), 15);
    }
    for kind in 2..5 {
        assert_eq!(number(EMPTY, &record(kind, &[0])), 14, "fields missing");
        assert_eq!(number(EMPTY, &rows(kind, 9, 9999, &[0; 8])), 16);
        assert_eq!(number(READY, &rows(kind, 9999, 9999, &[0; 8])), 11);
    }
    assert_eq!(number(READY, &record(1, &[0; 7])), 14);
    assert_eq!(number(READY, &record(1, &[0; 8])), 16, "a second table");
    assert_eq!(number(EMPTY, &record(1, &[0; 8])), 1);
    assert_eq!(number(EMPTY, &record(1, &[])), 1);
    assert_eq!(number(EMPTY, &rows(2, 0, 1, &[0; 3])), 14, "not whole words");
    assert_eq!(number(READY, &rows(2, 4, 5000, &[])), 16, "a row number not risen");
    assert_eq!(number(READY, &rows(3, 4, 5000, &[])), 16);
}

#[test]
fn tables() {
    let table = plain_table();
    assert_eq!(number(EMPTY, &record(1, &table)), 0);
    assert_eq!(number(EMPTY, &record(1, &[&table[..], &[0; 4]].concat())), 1);
    let answer = judge_record(EMPTY, Err(1), &record(1, &table));
    let content = Content::Table { id: 1, low_limit: 3837, size: 512, worst: 14 };
    assert_eq!(answer.content, Some(content));
    assert_eq!(answer.state, State { has_table: 1, least_row: 0 });
    assert_eq!(answer.used, 6 + table.len());
}

#[test]
fn packed_rows() {
    assert_eq!(number(READY, &rows(2, 5, 3, &words(&[50216961, 32]))), 0);
    assert_eq!(number(READY, &rows(2, 5, 3, &words(&[3139072, 2]))), 0);
    // By the former rule 10, 14 and 10 bits; zeros are the difference -256.
    assert_eq!(outcome(READY, &rows(2, 5, 4, &words(&[3139072, 2]))), (8, 34));
    assert_eq!(outcome(READY, &rows(2, 5, 3, &words(&[3139072]))), (6, 24));
    assert_eq!(outcome(READY, &rows(2, 5, 3, &words(&[3139072, 6, 0]))), (10, 34));
    assert_eq!(number(READY, &rows(2, 5, 3, &words(&[3139072, 2, 0]))), 14);
    // By the rule 14, 14 and 10.
    assert_eq!(outcome(READY, &rows(2, 5, 4, &words(&[50216961, 32]))), (8, 38));
    assert_eq!(outcome(READY, &rows(2, 5, 3, &words(&[50216961]))), (6, 28));
    assert_eq!(outcome(READY, &rows(2, 5, 3, &words(&[50216961, 96, 0]))), (10, 38));
    assert_eq!(number(READY, &rows(2, 5, 0, &words(&[]))), 0);
    assert_eq!(number(READY, &rows(2, 5, 0, &words(&[0]))), 14);
    // Two heights and four bad spots are 32 bits; nothing is left for more.
    let full = words(&[512 | 512 << 10 | 0b011_011_011_011 << 20]);
    assert_eq!(number(READY, &rows(2, 5, 6, &full)), 0);
    assert_eq!(outcome(READY, &rows(2, 5, 7, &full)), (6, 32));
    assert_eq!(outcome(READY, &rows(2, 5, 9, &full)), (6, 32));
    assert_eq!(number(READY, &rows(2, 5, 1, &[])), 6);
    // A raw 4095 after a bad spot.
    assert_eq!(outcome(READY, &rows(2, 5, 2, &words(&[4095 << 5 | 0b01_011]))), (9, 3));
    let answer = judge_record(READY, Err(3), &rows(2, 5, 9999, &[]));
    assert_eq!(answer.number, 3, "the table's refusal before the row's");
}

#[test]
fn plain_rows() {
    assert_eq!(number(READY, &rows(3, 5, 2, &[255, 15, 0, 0])), 0);
    assert_eq!(number(READY, &rows(3, 5, 2, &[0, 16, 0, 0])), 4);
    assert_eq!(number(READY, &rows(3, 5, 1, &[0, 16, 0, 0])), 14);
    assert_eq!(number(READY, &rows(3, 5, 3, &[0, 16, 0, 0])), 14);
    assert_eq!(number(READY, &rows(3, 5, 4096, &[0; 8192])), 0);
    assert_eq!(number(READY, &rows(3, 5, 4097, &[0; 8194])), 11);
}

#[test]
fn lines() {
    let line = |count: u16, bytes: &[u8]| {
        number(READY, &record(4, &[&count.to_le_bytes()[..], bytes].concat()))
    };
    assert_eq!(line(0, &[]), 0);
    assert_eq!(line(2, &[0x7F, 0x80, 0x40]), 0);
    assert_eq!(line(2, &[0x7F, 0x80]), 12);
    assert_eq!(line(2, &[0x7F]), 12);
    assert_eq!(line(1, &[0x7F, 0x80]), 14);
    assert_eq!(line(2, &[0x80, 0x80, 0x80, 0x80, 0x80, 0x80]), 13);
    assert_eq!(line(4097, &[0; 4097]), 11);
    assert_eq!(line(4096, &[0; 4096]), 0);
}

#[test]
fn lent_memory() {
    let codec = Codec::open(&plain_table()).unwrap();
    let read = |bytes: &[u8], lent: &mut [u8]| read_record(READY, Ok(&codec), bytes, lent).number;
    let mut lent = [9; 6];
    for word in [49969, 3992] {
        lent = [9; 6];
        assert_eq!(read(&rows(2, 5, 2, &words(&[word])), &mut lent), 0);
        assert_eq!(lent, [204, 0, 255, 15, 9, 9]);
    }
    assert_eq!(read(&rows(3, 5, 1, &[1, 2]), &mut lent), 0);
    assert_eq!(lent, [1, 2, 255, 15, 9, 9]);
    assert_eq!(read(&record(4, &[1, 0, 0x7E]), &mut lent), 0);
    assert_eq!(lent, [254, 255, 255, 255, 9, 9]);
    // Kind 2: room is judged before the items; kinds 3 and 4: last.
    assert_eq!(read(&rows(2, 5, 4, &words(&[!0])), &mut lent), 5);
    assert_eq!(read(&rows(3, 5, 4, &[255; 8]), &mut lent), 4);
    assert_eq!(read(&rows(3, 5, 4, &[1; 8]), &mut lent), 5);
    assert_eq!(read(&record(4, &[2, 0, 0, 0, 0]), &mut lent), 14);
    assert_eq!(read(&record(4, &[2, 0, 0, 0]), &mut lent), 5);
    assert_eq!(lent, [254, 255, 255, 255, 9, 9]);
}

/// Writes with ample room and checks that the record reads back in order.
fn written(state: State, kind: u32, row: u32, content: &[u8]) -> (u32, Vec<u8>) {
    let mut out = vec![0xA5; 40_000];
    let codec = Codec::open(&plain_table()).unwrap();
    let answer = write_record(state, Ok(&codec.table), kind, row, content, &mut out);
    assert!(out[answer.bytes..].iter().all(|&byte| byte == 0xA5));
    if answer.number != 0 {
        assert_eq!((answer.bytes, answer.state), (0, EMPTY));
        return (answer.number, vec![]);
    }
    out.truncate(answer.bytes);
    let judged = judge_record(state, Ok(&codec), &out);
    assert_eq!((judged.number, judged.used, judged.state), (0, answer.bytes, answer.state));
    (0, out)
}

#[test]
fn writer_writes_records() {
    let table = plain_table();
    assert_eq!(written(EMPTY, 1, 0, &table), (0, record(1, &table)));
    let pixels = [0, 0, 254, 2, 0, 0];
    assert_eq!(written(READY, 2, 5, &pixels), (0, rows(2, 5, 3, &words(&[50216961, 32]))));
    assert_eq!(written(READY, 3, 5, &pixels), (0, rows(3, 5, 3, &pixels)));
    assert_eq!(written(READY, 2, 5, &[]), (0, rows(2, 5, 0, &[])));
    let numbers = [64i32, -1].map(i32::to_le_bytes).concat();
    assert_eq!(written(READY, 4, 0, &numbers), (0, record(4, &[2, 0, 0x80, 0x40, 0x7F])));
}

#[test]
fn writer_refuses_in_order() {
    let many = vec![255; 4 * 4097];
    assert_eq!(written(EMPTY, 0, 0, &many).0, 15);
    assert_eq!(written(EMPTY, 5, 0, &many).0, 15);
    assert_eq!(written(EMPTY, 1 << 16 | 1, 0, &plain_table()).0, 15);
    assert_eq!(written(READY, 1, 0, &many).0, 16);
    assert_eq!(written(EMPTY, 1, 0, &[1, 2, 3]).0, 1);
    for kind in 2..5 {
        assert_eq!(written(EMPTY, kind, 9, &many).0, 16);
        assert_eq!(written(READY, kind, 9, &many).0, 11);
    }
    for kind in 2..4 {
        assert_eq!(written(READY, kind, 4, &many).0, 16);
        assert_eq!(written(READY, kind, 9, &[0, 16]).0, 4);
    }
    let mut out = [7; 13];
    let plain = Table::parse(&plain_table()).unwrap();
    let mut refused = |table: Result<&Table, u32>, kind, content: &[u8]| {
        let answer = write_record(READY, table, kind, 9, content, &mut out);
        assert_eq!(out, [7; 13]);
        answer.number
    };
    assert_eq!(refused(Err(1), 2, &many), 1);
    assert_eq!(refused(Ok(&plain), 2, &[0, 0]), 5, "14 bytes");
    assert_eq!(refused(Ok(&plain), 2, &[0, 16]), 4);
    assert_eq!(refused(Err(1), 3, &[0; 4]), 5, "the table is not looked at");
    assert_eq!(refused(Err(1), 4, &[0; 24]), 5);
}

#[test]
fn states() {
    let after = |state, kind, row: u32| written(state, kind, row, &[]).0;
    let state = |has_table, least_row| State { has_table, least_row };
    assert_eq!(after(state(1, 65535), 3, 65535), 0);
    for least in [65536, 65537, 1 << 31] {
        assert_eq!(after(state(1, least), 3, 65535), 16, "no row may follow");
        assert_eq!(after(state(1, least), 4, 0), 0);
    }
    // No row number is cut down to its low 16 bits; other kinds have none.
    for row in [65536, 70_000, 1 << 31, u32::MAX] {
        assert_eq!(after(state(1, 0), 2, row), 16);
        assert_eq!(after(state(1, 0), 3, row), 16);
        assert_eq!(after(state(1, row), 3, row), 16);
        assert_eq!(after(state(1, 0), 4, row), 0);
        assert_eq!(written(EMPTY, 1, row, &plain_table()).0, 0);
    }
    // Any number but 0 says that there is a table, and stays.
    assert_eq!(after(state(2, 0), 3, 0), 0);
    let codec = Codec::open(&plain_table()).unwrap();
    let answer = judge_record(state(2, 7), Ok(&codec), &rows(3, 9, 0, &[]));
    assert_eq!(answer.state, state(2, 10));
    let answer = judge_record(state(0, 7), Err(1), &record(1, &plain_table()));
    assert_eq!(answer.state, state(1, 7));
}
