use super::*;
use crate::refusal::{DONE, MAP_END};

/// Bits from text, blanks left out, zeros to the end of the last byte.
fn bytes(text: &str) -> Vec<u8> {
    let bits: Vec<u8> = text.bytes().filter(|&bit| bit != b' ').map(|bit| bit - b'0').collect();
    let byte = |chunk: &[u8]| {
        chunk.iter().enumerate().fold(0, |byte, (place, bit)| byte | bit << (7 - place))
    };
    bits.chunks(8).map(byte).collect()
}

/// The first groups, and empty ones after them.
fn map_text(group: u32, groups: &[&str]) -> String {
    groups.concat() + &"1".repeat(COUNTS / group as usize - groups.len())
}

fn number(group: u32, text: &str, total: u64) -> u32 {
    read_map(group, &bytes(text), total).map_or_else(|number| number, |_| DONE)
}

/// A map of these groups is read as these counts, and they are written so.
fn both_ways(group: u32, groups: &[&str], first: &[u16]) {
    let text = map_text(group, groups);
    let map = read_any_total(group, &bytes(&text)).expect("a sound map");
    assert_eq!(map.counts[..first.len()], *first, "{groups:?}");
    assert!(map.counts[first.len()..].iter().all(|&count| count == 0));
    let bits = text.bytes().filter(|&bit| bit != b' ').count();
    assert_eq!(map.bits as usize, bits, "{groups:?}");
    assert_eq!(write_map(group, &map.counts), Ok(bytes(&text)), "{groups:?}");
}

#[test]
fn groups_of_four() {
    both_ways(4, &["1", "01 10"], &[0, 0, 0, 0, 0, 0, 1, 0]);
    both_ways(4, &["001 00 11"], &[1, 0, 0, 1]);
    both_ways(4, &["001 10 10"], &[0, 0, 2, 0]);
    both_ways(4, &["000 01 01 00 01"], &[1, 1, 0, 1]);
    both_ways(4, &["000 10 00 00 01"], &[2, 0, 0, 1]);
    both_ways(4, &["000 11 0000 11 1110 00 10"], &[3, 17, 0, 2]);
    both_ways(4, &["000 00 11 1111 0000000000010010 00 00"], &[0, 18, 0, 0]);
    both_ways(4, &["000 00 11 1111 1111111111111111 00 00"], &[0, 65535, 0, 0]);
}

#[test]
fn groups_of_sixteen() {
    both_ways(16, &["1", "01 1001"], &[[0; 16].as_slice(), &[0; 9], &[1]].concat());
    both_ways(16, &["001 0001 1000"], &[0, 1, 0, 0, 0, 0, 0, 0, 1]);
    let first = "000 11 0001".to_string() + &"00".repeat(15);
    both_ways(16, &[&first], &[4]);
}

/// The document's: 4096 groups of one bit are 512 bytes, 1024 are 128.
#[test]
fn sizes() {
    let size = |group, counts: &[u16]| write_map(group, counts).map(|bytes| bytes.len());
    assert_eq!((size(4, &[0; COUNTS]), size(16, &[0; COUNTS])), (Ok(512), Ok(128)));
    let most = [46_592, 45_440];
    assert_eq!(GROUPS.map(|group| size(group, &[65535; COUNTS])), most.map(Ok));
    assert_eq!(GROUPS.map(most_bytes), most);
}

#[test]
fn either_order_is_read_and_the_lower_first_written() {
    let text = map_text(4, &["001 11 01"]);
    let map = read_map(4, &bytes(&text), 2).unwrap_or_else(|number| panic!("refused {number}"));
    assert_eq!(map.counts[..4], [0, 1, 0, 1]);
    assert_eq!(write_map(4, &map.counts), Ok(bytes(&map_text(4, &["001 01 11"]))));
}

#[test]
fn faults_of_pixels() {
    for (whole, wanted) in [("10010", DONE), ("10001", MAP_PIXEL), ("00000", MAP_PIXEL)] {
        let group = format!("000 01 01 111111 00000000000{whole} 01");
        assert_eq!(number(4, &map_text(4, &[&group]), 21), wanted, "{whole}");
    }
    assert_eq!(number(4, &map_text(4, &["000 00 01 01 00"]), 2), MAP_PIXEL);
    assert_eq!(number(4, &map_text(4, &["000 00 00 00 00"]), 0), MAP_PIXEL);
    assert_eq!(number(4, &map_text(4, &["000 00 01 01 01"]), 3), DONE);
}

/// What comes first is what is answered.
#[test]
fn order_of_the_refusals() {
    let cut = |text: &str| number(4, text, 99);
    assert_eq!(cut(""), MAP_END);
    for prefix in ["", "1", "111 01 00", "000 11 1111 111111111111111"] {
        // Up to a byte's end, by bits that are there.
        let bits = prefix.replace(' ', "").len();
        let front = "1".repeat((8 - bits % 8) % 8);
        assert_eq!(cut(&format!("{front}{prefix}")), MAP_END, "{prefix}");
    }
    // The last bits of a 16-bit pixel, then nothing.
    assert_eq!(cut("1111111 000 11 1111 0000000000010001"), MAP_PIXEL);
    assert_eq!(cut("1111111 000 11 1111 0000000000010010"), MAP_END);
    // The last pixel of a group, then nothing; and one pixel less.
    assert_eq!(cut("11111 000 00 01 01 00"), MAP_PIXEL);
    assert_eq!(cut("1111111 000 00 01 01"), MAP_END);
    let wrong = map_text(4, &["000 00 01 01 00"]);
    assert_eq!(number(4, &wrong, u64::MAX), MAP_PIXEL);
}

#[test]
fn totals() {
    let text = map_text(4, &["000 111111 1111111111111111 01 00 00"]);
    assert_eq!(number(4, &text, 65536), DONE);
    for total in [0, 1, 65535, 65537, 65536 | 1 << 32, u64::MAX] {
        assert_eq!(number(4, &text, total), MAP_TOTAL, "{total}");
    }
    let full = write_map(16, &[65535; COUNTS]).unwrap();
    assert!(read_map(16, &full, 65535 * 16384).is_ok());
}

#[test]
fn other_sizes() {
    for group in [0, 1, 2, 3, 5, 8, 15, 17, 64, 260, 65_552, 1 << 31, u32::MAX] {
        assert_eq!(number(group, "", 0), RECORD, "{group}");
        assert_eq!(write_map(group, &[0; COUNTS]), Err(RECORD), "{group}");
    }
    for length in [0, COUNTS - 1, COUNTS + 1, 2 * COUNTS] {
        assert_eq!(write_map(4, &vec![0; length]), Err(RECORD), "{length}");
    }
}

#[test]
fn what_follows_is_not_looked_at() {
    // 4095 groups of one bit, one of four: four bits are spare.
    let text = map_text(4, &["01 10"]);
    let mut map = bytes(&text);
    assert_eq!(map.len(), 513);
    map[512] |= 0b1111;
    map.extend([255, 0, 7]);
    assert_eq!(read_map(4, &map, 1).map(|map| map.bits).ok(), Some(4099));
}
