use super::*;
use crate::known::{memo_table, plain_table, table_bytes, Labels};
use crate::row::MAX_PIXELS;

/// Four strings of two bits; the entry is the difference 0.
fn small_table(id: u32) -> Vec<u8> {
    table_bytes(&[id, 4093, 1, 2, 34, 66, 98])
}

/// 8193 words.
fn full_table() -> Vec<u8> {
    let head = [9, 0, 8187, 1, 34, 99];
    let entries = (0..8187).map(|entry| (entry << 3 | 7) << 5 | 16);
    table_bytes(&head.into_iter().chain(entries).collect::<Vec<u32>>())
}

/// With small tables in the common places, and so many bytes more, all 7.
fn opened(more: usize) -> Vec<u8> {
    let mut shelf = vec![7; SHELF_BYTES + more];
    let tables = [0, 1, 2, 3].map(small_table);
    let answer = open(tables.each_ref().map(|table| &table[..]), &mut shelf);
    assert_eq!(answer.pair(), (0, SHELF_BYTES as u32));
    shelf
}

fn put_number(shelf: &mut [u8], party: u32, table: &[u8]) -> (u32, u32) {
    let Changed { number, place } = put(shelf, party, table);
    (number, place)
}

fn remove_number(shelf: &mut [u8], party: u32, place: u32) -> (u32, u32) {
    let Changed { number, place } = remove(shelf, party, place);
    (number, place)
}

fn place_of(shelf: &[u8], place: usize) -> &[u8] {
    &shelf[bytes_of(place)]
}

/// A place as it is written.
fn padded(table: &[u8]) -> Vec<u8> {
    let mut bytes = table.to_vec();
    bytes.resize(PLACE_BYTES, 0);
    bytes
}

fn set_word(shelf: &mut [u8], place: usize, word: usize, value: u32) {
    let at = PLACE_BYTES * place + 4 * word;
    shelf[at..at + 4].copy_from_slice(&value.to_le_bytes());
}

/// The number of a use of each kind, which must be the same.
fn use_number(shelf: &[u8], party: u32, place: u32) -> u32 {
    let numbers = [
        pack(shelf, party, place, &[], &mut []).number,
        unpack(shelf, party, place, &[], 0, &mut []).number,
        room(shelf, party, place, 0).number,
    ];
    assert_eq!(numbers, [numbers[0]; 3]);
    numbers[0]
}

#[test]
fn sizes_are_those_of_the_papers() {
    assert_eq!((PLACE_BYTES, SHELF_BYTES), (4 * 8193, 12 * 4 * 8193));
    assert_eq!(full_table().len(), PLACE_BYTES);
}

#[test]
fn opening_fills_the_common_places_and_frees_the_others() {
    let shelf = opened(5);
    for place in 0..4 {
        assert_eq!(place_of(&shelf, place), padded(&small_table(place as u32)));
    }
    assert!(shelf[4 * PLACE_BYTES..SHELF_BYTES].iter().all(|&byte| byte == 0));
    assert_eq!(shelf[SHELF_BYTES..], [7; 5], "a longer shelf keeps its rest");
    for party in [0, 1] {
        assert!((0..4).all(|place| use_number(&shelf, party, place) == 0));
    }
}

#[test]
fn opening_refuses_table_by_table_and_then_a_short_shelf() {
    let good = small_table(5);
    let (shape, string, prefix) = (&good[..24], [&good[..12], &[0; 16]].concat(), {
        let mut twice = good.clone();
        twice[24] = 66;
        twice
    });
    let mut shelf = vec![7; SHELF_BYTES];
    let mut number = |tables: [&[u8]; 4], length: usize| {
        let answer = open(tables, &mut shelf[..length]);
        assert_eq!(answer.count, 0);
        assert!(shelf.iter().all(|&byte| byte == 7));
        answer.number
    };
    for length in [0, SHELF_BYTES - 1, SHELF_BYTES] {
        assert_eq!(number([&good, &prefix, shape, &string], length), 3);
        assert_eq!(number([&good, &good, &string, shape], length), 2);
        assert_eq!(number([shape, &prefix, &string, &good], length), 1);
        assert_eq!(number([&good, &good, &good, &prefix], length), 3);
    }
    assert_eq!(number([&good; 4], SHELF_BYTES - 1), 5);
    assert_eq!(number([&good; 4], 0), 5);
}

#[test]
fn a_put_takes_the_lowest_free_place() {
    for (party, first) in [(0, 4), (1, 8)] {
        let mut shelf = opened(0);
        for place in first..first + 4 {
            let (before, table) = (shelf.clone(), small_table(100 + place));
            assert_eq!(put_number(&mut shelf, party, &table), (0, place));
            let at = bytes_of(place as usize);
            assert_eq!(shelf[at.clone()], padded(&table));
            assert!(shelf[..at.start] == before[..at.start] && shelf[at.end..] == before[at.end..]);
        }
        let full = shelf.clone();
        assert_eq!(put_number(&mut shelf, party, &plain_table()), (22, 0));
        assert_eq!(put_number(&mut shelf, party, &[]), (1, 0), "the table comes first");
        assert!(shelf == full);
        assert_eq!(put_number(&mut shelf, 1 - party, &plain_table()), (0, 12 - first));
        assert_eq!(remove_number(&mut shelf, party, first + 2), (0, first + 2));
        assert_eq!(put_number(&mut shelf, party, &full_table()), (0, first + 2));
        assert_eq!(use_number(&shelf, party, first + 2), 0);
    }
}

#[test]
fn a_put_rewrites_its_whole_place() {
    let mut shelf = opened(0);
    shelf[bytes_of(4)].fill(9);
    set_word(&mut shelf, 4, 2, 0);
    assert_eq!(put_number(&mut shelf, 0, &plain_table()), (0, 4));
    assert_eq!(place_of(&shelf, 4), padded(&plain_table()));
    shelf[bytes_of(4)].fill(9);
    assert_eq!(remove_number(&mut shelf, 0, 4), (0, 4));
    assert_eq!(place_of(&shelf, 4), padded(&[]));
}

#[test]
fn places_of_others_and_unknown_ones() {
    let mut shelf = opened(0);
    assert_eq!(put_number(&mut shelf, 1, &plain_table()), (0, 8));
    for (party, place) in [(0, 8), (0, 9), (1, 4), (0, 12), (1, u32::MAX), (2, 0), (2, 8)] {
        assert_eq!(use_number(&shelf, party, place), 24, "{party} {place}");
        assert_eq!(remove_number(&mut shelf, party, place), (24, 0), "{party} {place}");
    }
    for (party, place) in [(0, 0), (1, 3), (u32::MAX, 3)] {
        assert_eq!(remove_number(&mut shelf, party, place), (24, 0), "a common place");
    }
    for party in [2, 7, 1 << 16, u32::MAX] {
        assert_eq!(put_number(&mut shelf, party, &[]), (24, 0), "before the table");
    }
    for (party, place) in [(0, 4), (0, 7), (1, 9), (1, 11)] {
        assert_eq!(use_number(&shelf, party, place), 23);
        assert_eq!(remove_number(&mut shelf, party, place), (23, 0));
    }
    // A common place too, if its tableSize has become 0.
    set_word(&mut shelf, 2, 2, 0);
    assert_eq!(use_number(&shelf, 0, 2), 23);
}

#[test]
fn a_short_shelf_is_refused_first() {
    let mut shelf = opened(0);
    shelf.pop();
    for (party, place) in [(0, 0), (0, 4), (2, 99)] {
        assert_eq!(use_number(&shelf, party, place), 5);
        assert_eq!(remove_number(&mut shelf, party, place), (5, 0));
        assert_eq!(put_number(&mut shelf, party, &[]), (5, 0));
    }
    assert_eq!(use_number(&[], 0, 0), 5);
}

#[test]
fn spoilt_tables_stay_in_their_places() {
    let mut shelf = opened(0);
    for (word, value, number) in [
        (2, 8188, 1),
        (2, u32::MAX, 1),
        (2, 1 << 30 | 1, 1),
        (1, 8187, 1),
        (2, 2, 2),
        (3, 0, 2),
        (6, 66, 3),
    ] {
        let place = put(&mut shelf, 0, &small_table(1)).place;
        assert_eq!(place, 4);
        set_word(&mut shelf, 4, word, value);
        assert_eq!(use_number(&shelf, 0, 4), number, "{word} {value}");
        assert_eq!(put_number(&mut shelf, 0, &small_table(2)), (0, 5), "it is taken");
        assert_eq!(remove_number(&mut shelf, 0, 5), (0, 5));
        assert_eq!(remove_number(&mut shelf, 0, 4), (0, 4), "a removal does not look");
    }
    for _ in 4..8 {
        put(&mut shelf, 0, &small_table(3));
    }
    set_word(&mut shelf, 6, 3, 0);
    assert_eq!(put_number(&mut shelf, 0, &small_table(4)), (22, 0));
}

#[test]
fn words_after_a_table_are_not_looked_at() {
    let mut shelf = opened(0);
    assert_eq!(put_number(&mut shelf, 1, &memo_table(Labels::Version11)), (0, 8));
    let after = PLACE_BYTES * 8 + memo_table(Labels::Version11).len();
    shelf[after..bytes_of(8).end].fill(0xA5);
    assert_eq!(use_number(&shelf, 1, 8), 0);
}

#[test]
fn uses_are_the_row_calls_under_the_table() {
    let (mut shelf, plain) = (opened(0), plain_table());
    assert_eq!(put_number(&mut shelf, 0, &plain), (0, 4));
    let (pixels, mut words) = ([204, 0, 255, 15], [9; 8]);
    assert_eq!(pack(&shelf, 0, 4, &pixels, &mut words).pair(), (0, 17));
    assert_eq!(words, [0x31, 0xC3, 0, 0, 9, 9, 9, 9]);
    let mut read = [9; 6];
    assert_eq!(unpack(&shelf, 0, 4, &words, 2, &mut read), Unpacked::done(17));
    assert_eq!(read, [204, 0, 255, 15, 9, 9]);
    assert_eq!(room(&shelf, 0, 4, 4096).pair(), (0, 4096 * 14 / 32));
    // The calls' own numbers come last.
    let many = MAX_PIXELS as u64 + 1;
    assert_eq!(room(&shelf, 0, 4, many).pair(), (11, 0));
    assert_eq!(pack(&shelf, 0, 4, &[0, 16], &mut []).pair(), (4, 0));
    assert_eq!(pack(&shelf, 0, 4, &pixels, &mut []).pair(), (5, 0));
    assert_eq!(unpack(&shelf, 0, 4, &[], 1, &mut []), Unpacked::refused(5));
    assert_eq!(unpack(&shelf, 0, 4, &[], 1, &mut read), Unpacked::stopped(6, 0));
    set_word(&mut shelf, 4, 517, 0);
    assert_eq!(room(&shelf, 0, 4, many).pair(), (2, 0));
}
