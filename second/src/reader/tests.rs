use super::*;
use crate::known::{memo_table, plain_table, string_word, table_bytes, Labels};
use crate::row::pack;

fn word_bytes(words: &[u32]) -> Vec<u8> {
    table_bytes(words)
}

/// The words of a run written first bit first, zeros after it.
fn run(text: &str) -> Vec<u8> {
    let bits: Vec<bool> = text.chars().filter(|c| *c != ' ').map(|c| c == '1').collect();
    let word = |chunk: &[bool]| {
        chunk.iter().enumerate().map(|(place, &bit)| u32::from(bit) << place).sum()
    };
    word_bytes(&bits.chunks(32).map(word).collect::<Vec<u32>>())
}

/// Unpacks with exact room and gives number, bits used and pixels.
fn read(codec: &Codec, words: &[u8], n: usize) -> (u32, usize, Vec<u16>) {
    let mut memory = vec![0xA5; 2 * n];
    let (answer, used) = unpack_measured(codec, words, n as u64, &mut memory);
    if answer.number == DONE {
        assert_eq!(answer, Unpacked::done(used as u32));
    }
    let pixels = memory.as_chunks::<2>().0.iter().map(|&pixel| u16::from_le_bytes(pixel));
    (answer.number, used, pixels.collect())
}

fn plain() -> Codec {
    Codec::open(&plain_table()).unwrap()
}

/// 0: difference 0, 10: escape, 110: bad pixel, 1110: bad bias, 1111 unused.
fn small() -> Codec {
    let strings = ["10", "110", "1110", "0"].map(string_word);
    Codec::open(&table_bytes(&[&[7, 4093, 1], &strings[..]].concat())).unwrap()
}

/// A refusal with its place, and the bits that the reading used.
fn assert_refused(codec: &Codec, words: &[u8], n: usize, (number, at): (u32, u32), used: usize) {
    assert_eq!(read(codec, words, n), (number, used, vec![0xA5A5; n]));
    let mut memory = vec![1; 2 * n];
    let answer = unpack_under(codec, words, n as u64, &mut memory);
    assert_eq!(answer, Unpacked { number, count: 0, at });
    assert_eq!(memory, vec![1; 2 * n]);
}

#[test]
fn written_cases_come_back() {
    let cases: [(&[u16], &[u32], usize); 9] = [
        (&[], &[], 0),
        (&[0], &[1], 14),
        (&[204, 4095], &[49969], 17),
        (&[766], &[3065], 14),
        (&[766, 766], &[8391673], 24),
        (&[0, 766, 0], &[50216961, 32], 38),
        // As the former rule has them.
        (&[0], &[512], 10),
        (&[204, 4095], &[3992], 13),
        (&[0, 766, 0], &[3139072, 2], 34),
    ];
    for (row, words, bits) in cases {
        assert_eq!(read(&plain(), &word_bytes(words), row.len()), (0, bits, row.to_vec()));
    }
}

#[test]
fn words_end() {
    assert_refused(&plain(), &[], 1, (WORDS_END, 0), 0);
    assert_refused(&plain(), &[0; 3], 1, (WORDS_END, 0), 0);
    assert_refused(&plain(), &word_bytes(&[3139072]), 3, (WORDS_END, 24), 32);
    assert_refused(&plain(), &word_bytes(&[50216961]), 3, (WORDS_END, 28), 32);
    // An escape with ten bits after it, although those can only begin a
    // height that is refused.
    let cut = "0".repeat(20) + "10 0111111111";
    assert_refused(&small(), &run(&cut), 21, (WORDS_END, 20), 32);
    assert_refused(&small(), &run(&("0".repeat(30) + "11")), 31, (WORDS_END, 30), 32);
    // With 12 bits the same heights are judged.
    let whole = "0".repeat(18) + "10 111111111111";
    assert_refused(&small(), &run(&whole), 19, (ESCAPED_BAD, 18), 32);
}

#[test]
fn no_codeword() {
    assert_refused(&small(), &run("0 0 1111"), 3, (NO_CODEWORD, 2), 6);
    // A beginning that no codeword has, just before the words end.
    assert_refused(&small(), &run(&("0".repeat(28) + "1111")), 29, (NO_CODEWORD, 28), 32);
    assert_refused(&small(), &run(&("0".repeat(29) + "111")), 30, (WORDS_END, 29), 32);
}

#[test]
fn heights() {
    // The plain table's difference -256, then +255 sixteen times.
    assert_refused(&plain(), &run("0 000000000"), 1, (HEIGHT, 0), 10);
    let up = |count| run(&"0 111111111".repeat(count));
    assert_eq!(read(&plain(), &up(16), 16).0, DONE);
    assert_refused(&plain(), &up(17), 17, (HEIGHT, 160), 170);
    // 10 and 4093, then +1: 4094 is reached by no difference.
    let top = "10 101111111111";
    assert_eq!(read(&plain(), &run(top), 1).2, [4093]);
    assert_refused(&plain(), &run(&(top.to_string() + "0 100000001")), 2, (HEIGHT, 14), 24);
    assert_refused(&plain(), &run("10 011111111111"), 1, (ESCAPED_BAD, 0), 14);
    assert_refused(&plain(), &run("10 111111111111"), 1, (ESCAPED_BAD, 0), 14);
}

#[test]
fn needless_escape() {
    // 5 as escape, 7 as needless escape, then +1: from 5, not from 7.
    let words = run("10 101000000000 10 111000000000 0 100000001");
    assert_eq!(read(&plain(), &words, 3), (0, 38, vec![5, 7, 6]));
    // The same with the first height as +5 from 0.
    let words = run("0 101000001 10 111000000000 0 100000001");
    assert_eq!(read(&plain(), &words, 3), (0, 34, vec![5, 7, 6]));
}

#[test]
fn unused_bits() {
    assert_refused(&plain(), &word_bytes(&[512 | 1 << 10]), 1, (UNUSED_BIT, 10), 10);
    assert_refused(&plain(), &word_bytes(&[512 | 1 << 31]), 1, (UNUSED_BIT, 10), 10);
    // Words after the last used one are not looked at.
    assert_eq!(read(&plain(), &word_bytes(&[512, !0]), 1), (0, 10, vec![0]));
    assert_eq!(read(&plain(), &word_bytes(&[!0]), 0), (0, 0, vec![]));
    // A row that ends with its word leaves no bit unused.
    let words = [&run(&"0".repeat(32))[..], &[255; 4]].concat();
    assert_eq!(read(&small(), &words, 32), (0, 32, vec![0; 32]));
    // A faulty item comes before an unused bit.
    assert_refused(&small(), &word_bytes(&[!0]), 1, (NO_CODEWORD, 0), 4);
}

/// Four items of every sort stand before the fault: 14 bits for the height 5,
/// then 3, 1 and 4 bits, 22 in all.
#[test]
fn places_in_a_row() {
    let before = "10 101000000000  110 0 1110 ";
    let small_row = |rest: &str| run(&(before.to_string() + rest));
    let stopped = |rest: &str, n, number, at, used| {
        assert_refused(&small(), &small_row(rest), n, (number, at), used);
    };
    stopped("0 0 1111 00", 7, NO_CODEWORD, 24, 28);
    // Seven bits are left for a height.
    stopped("0 10 1010101", 6, WORDS_END, 23, 32);
    stopped("0000000 111", 12, WORDS_END, 29, 32);
    // Every bit is used and nothing is left.
    stopped("0000000 110", 13, WORDS_END, 32, 32);
    stopped(&("0".repeat(10) + &"110 0".repeat(8)), 31, WORDS_END, 64, 64);
    stopped("0 10 011111111111", 6, ESCAPED_BAD, 23, 37);
    // The first unused bit is 37, the one that is set 40.
    stopped("0 10 000000000000 0001", 6, UNUSED_BIT, 37, 37);
    // Under the plain table: 5, a bad spot, 4093 that is not previous, then
    // -6 from 5.
    let words = run("0 101000001  111 10 101111111111  0 010111110");
    assert_refused(&plain(), &words, 4, (HEIGHT, 27), 37);
    // What stands before it can be read without it.
    assert_refused(&plain(), &words, 3, (UNUSED_BIT, 27), 27);
    assert_refused(&plain(), &word_bytes(&[3139072, 2 | 1 << 31]), 3, (UNUSED_BIT, 34), 34);
}

#[test]
fn room_and_count() {
    let words = word_bytes(&[512]);
    let table = plain_table();
    let mut memory = [9; 5];
    // None has a place, though the second item is refused.
    assert_eq!(unpack(&table, &words, 3, &mut memory), Unpacked::refused(ROOM));
    assert_eq!(unpack(&table, &words, 4096, &mut memory), Unpacked::refused(ROOM));
    for n in [4097, 1 << 32, u64::MAX] {
        assert_eq!(unpack(&table, &words, n, &mut memory), Unpacked::refused(TOO_MANY));
    }
    assert_eq!(unpack(&[], &words, u64::MAX, &mut memory), Unpacked::refused(1));
    assert_eq!(unpack(&table, &words, 2, &mut memory), Unpacked::stopped(HEIGHT, 10));
    assert_eq!(memory, [9; 5]);
    let done = Unpacked { number: 0, count: 10, at: 0 };
    assert_eq!(unpack(&table, &words, 1, &mut memory), done);
    assert_eq!(memory, [0, 0, 9, 9, 9]);
    let mut memory = [9; 3];
    assert_eq!(unpack(&table, &words, 1, &mut memory), done, "one pixel and a half");
}

#[test]
fn memo_table_round_trip() {
    let row: Vec<u16> = [12, 14, 4095, 4094, 6, 1030, 21, 5, 0, 4093, 0, 4].into();
    let bytes: Vec<u8> = row.iter().flat_map(|pixel| pixel.to_le_bytes()).collect();
    for labels in [Labels::Version11, Labels::Version01a] {
        let table = memo_table(labels);
        let mut words = [0; 40];
        let (number, bits) = pack(&table, &bytes, &mut words);
        assert_eq!(number, DONE);
        let codec = Codec::open(&table).unwrap();
        assert_eq!(read(&codec, &words, row.len()), (0, bits as usize, row.clone()));
    }
}
