//! The calls on numbers, records and maps in the form that they have for C,
//! answered by this program. A table comes opened, or as its refusal, so that
//! a comparison opens each table once.

use crate::adaptive;
use crate::answers::{Answer, Record, Signed, Unsigned, Written};
use crate::map;
use crate::reader::Codec;
use crate::refusal::{DONE, ROOM};
use crate::sheet::{self, Content, RecordAnswer, State};
use crate::sheet::{KIND_LINE, KIND_PACKED, KIND_PLAIN, KIND_TABLE};
use crate::table::HEADER_WORDS;

pub fn read_signed(bytes: &[u8]) -> Signed {
    let (number, value, used) = adaptive::read_signed(bytes);
    Signed { number, value, used: used as u32 }
}

pub fn read_unsigned(bytes: &[u8]) -> Unsigned {
    let (number, value, used) = adaptive::read_unsigned(bytes);
    Unsigned { number, value, used: used as u32 }
}

pub fn write_signed(value: i32, out: &mut [u8]) -> Answer {
    let (number, count) = adaptive::write_signed(value, out);
    Answer { number, count: count as u32 }
}

pub fn write_unsigned(value: u32, out: &mut [u8]) -> Answer {
    let (number, count) = adaptive::write_unsigned(value, out);
    Answer { number, count: count as u32 }
}

pub fn judge_record(table: Result<&Codec, u32>, bytes: &[u8], state: State) -> Record {
    record_of(sheet::judge_record(state, table, bytes))
}

pub fn read_record(
    table: Result<&Codec, u32>,
    bytes: &[u8],
    state: State,
    content: &mut [u8],
) -> Record {
    record_of(sheet::read_record(state, table, bytes, content))
}

pub fn write_record(
    kind: u32,
    row: u32,
    content: &[u8],
    table: Result<&Codec, u32>,
    state: State,
    out: &mut [u8],
) -> Written {
    let table = table.map(|codec| &codec.table);
    let answer = sheet::write_record(state, table, kind, row, content, out);
    Written { number: answer.number, count: answer.bytes as u32, state: answer.state }
}

pub fn read_map(group: u32, bytes: &[u8], total: u64, counts: &mut [u8]) -> Answer {
    answer_of(read_counts(group, bytes, total, counts))
}

fn read_counts(group: u32, bytes: &[u8], total: u64, counts: &mut [u8]) -> Result<u32, u32> {
    // Both are judged before any bit.
    map::position_bits(group)?;
    let (lent, _) = counts.as_chunks_mut::<2>();
    let lent = lent.get_mut(..map::COUNTS).ok_or(ROOM)?;
    let map = map::read_map(group, bytes, total)?;
    for (lent, count) in lent.iter_mut().zip(map.counts) {
        *lent = count.to_le_bytes();
    }
    Ok(map.bits)
}

pub fn write_map(group: u32, counts: &[u8], out: &mut [u8]) -> Answer {
    answer_of(write_counts(group, counts, out))
}

fn write_counts(group: u32, counts: &[u8], out: &mut [u8]) -> Result<u32, u32> {
    let (counts, _) = counts.as_chunks::<2>();
    let counts: Vec<u16> = counts.iter().map(|&count| u16::from_le_bytes(count)).collect();
    let bytes = map::write_map(group, &counts)?;
    out.get_mut(..bytes.len()).ok_or(ROOM)?.copy_from_slice(&bytes);
    Ok(bytes.len() as u32)
}

fn answer_of(outcome: Result<u32, u32>) -> Answer {
    match outcome {
        Ok(count) => Answer { number: DONE, count },
        Err(number) => Answer { number, count: 0 },
    }
}

fn record_of(answer: RecordAnswer) -> Record {
    let RecordAnswer { number, state, at, .. } = answer;
    let bare = Record { number, state, at, ..Record::default() };
    let Some(content) = answer.content else {
        return bare;
    };
    let fields = |kind: u16, row: u16, count: u32| Record {
        kind: u32::from(kind),
        row: u32::from(row),
        count,
        length: answer.used as u32,
        ..bare
    };
    match content {
        Content::Table { size, .. } => fields(KIND_TABLE, 0, HEADER_WORDS as u32 + size),
        Content::Packed { row, pixels, bits, words } => {
            Record { bits, words, ..fields(KIND_PACKED, row, u32::from(pixels)) }
        }
        Content::Plain { row, pixels } => fields(KIND_PLAIN, row, u32::from(pixels)),
        Content::Line { numbers } => fields(KIND_LINE, 0, u32::from(numbers)),
    }
}

#[cfg(test)]
mod tests {
    use super::*;
    use crate::known::plain_table;

    fn state(has_table: u32, least_row: u32) -> State {
        State { has_table, least_row }
    }

    /// Writes a record and judges it, so that both forms are seen.
    fn judged(kind: u32, row: u32, content: &[u8], before: State) -> Record {
        let codec = Codec::open(&plain_table()).unwrap();
        let mut out = vec![0; 5000];
        let written = write_record(kind, row, content, Ok(&codec), before, &mut out);
        let record = judge_record(Ok(&codec), &out, before);
        assert_eq!((written.number, record.number), (0, 0));
        assert_eq!((written.count, written.state), (record.length, record.state));
        record
    }

    #[test]
    fn fields_of_each_kind() {
        let table = Record { kind: 1, count: 518, length: 2078, ..Record::default() };
        let start = state(0, 0);
        assert_eq!(judged(1, 9, &plain_table(), start), Record { state: state(1, 0), ..table });
        let (row, ready) = ([0, 0, 254, 2, 0, 0], state(1, 5));
        let packed = Record { kind: 2, row: 5, count: 3, length: 18, ..Record::default() };
        let packed = Record { bits: 38, words: 2, state: state(1, 6), ..packed };
        assert_eq!(judged(2, 5, &row, ready), packed);
        let plain = Record { kind: 3, length: 16, bits: 0, words: 0, ..packed };
        assert_eq!(judged(3, 5, &row, ready), plain);
        let line = Record { kind: 4, count: 1, length: 10, state: ready, ..Record::default() };
        assert_eq!(judged(4, 5, &[64, 0, 0, 0, 9], ready), line);
    }

    #[test]
    fn refusals_are_bare() {
        let given = state(7, 70_000);
        let bare = |number| Record { number, ..Record::default() };
        assert_eq!(judge_record(Err(1), &[], given), bare(14));
        assert_eq!(judge_record(Err(1), &[2, 0, 0, 0, 9, 0], given), bare(15));
        // The row 0 with a bit set behind it: the first unused bit is 14.
        let codec = Codec::open(&plain_table()).unwrap();
        let row = [10, 0, 0, 0, 2, 0, 5, 0, 1, 0, 1, 0, 0, 128];
        let unused = Record { at: 14, ..bare(10) };
        assert_eq!(judge_record(Ok(&codec), &row, state(1, 0)), unused);
        assert_eq!(read_record(Ok(&codec), &row, state(1, 0), &mut [0; 2]), unused);
        assert_eq!(read_record(Ok(&codec), &row, state(1, 0), &mut []), bare(5));
        let refused = Written { number: 15, ..Written::default() };
        assert_eq!(write_record(0, 0, &[], Err(1), given, &mut []), refused);
    }

    #[test]
    fn numbers() {
        assert_eq!(read_signed(&[0x40]), Signed { number: 0, value: -64, used: 1 });
        assert_eq!(read_unsigned(&[0x40, 1]), Unsigned { number: 0, value: 64, used: 1 });
        assert_eq!(read_signed(&[]), Signed { number: 12, value: 0, used: 0 });
        let mut out = [0; 2];
        assert_eq!(write_signed(64, &mut out).pair(), (0, 2));
        assert_eq!(write_unsigned(64, &mut out).pair(), (0, 1));
        assert_eq!(out, [64, 64]);
    }

    #[test]
    fn maps() {
        let (mut counts, mut out) = (vec![0; 2 * map::COUNTS + 1], [7; 514]);
        counts[2] = 1;
        assert_eq!(write_map(4, &counts, &mut out).pair(), (0, 513));
        assert_eq!((out[0], out[512], out[513]), (0b0101_1111, 0b1110_0000, 7));
        let mut read = vec![9; 2 * map::COUNTS + 2];
        assert_eq!(read_map(4, &out, 1, &mut read).pair(), (0, 4099));
        assert_eq!(read[..2 * map::COUNTS], counts[..2 * map::COUNTS]);
        assert_eq!(read[2 * map::COUNTS..], [9, 9]);
    }

    #[test]
    fn refused_maps() {
        let (counts, mut out) = (vec![0; 2 * map::COUNTS], [7; 127]);
        assert_eq!(write_map(16, &counts, &mut out).pair(), (5, 0));
        assert_eq!(write_map(16, &counts[2..], &mut out).pair(), (14, 0));
        assert_eq!(write_map(8, &counts, &mut out).pair(), (14, 0));
        assert_eq!(out, [7; 127]);
        let (mut little, mut enough) = (vec![7; 2 * map::COUNTS - 1], counts);
        assert_eq!(read_map(5, &[], 0, &mut little).pair(), (14, 0));
        assert_eq!(read_map(4, &[], 0, &mut little).pair(), (5, 0));
        assert_eq!(read_map(4, &[], 0, &mut enough).pair(), (19, 0));
        assert_eq!(read_map(4, &[0; 2], 0, &mut enough).pair(), (20, 0));
        assert_eq!(read_map(16, &[255; 128], 1, &mut enough).pair(), (21, 0));
        assert!(little.iter().all(|&byte| byte == 7));
    }
}
