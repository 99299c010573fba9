//! Adaptive-precision numbers: bytes from the most significant on, bit 128
//! of each saying that another follows.

use crate::refusal::{BYTES_END, DONE, NUMBER_RANGE, ROOM};

const CONTINUE: u8 = 128;
const SIGN: i64 = 64;
const MAX_BYTES: usize = 5;

/// Reads a signed number; answers number, value and bytes used.
pub fn read_signed(bytes: &[u8]) -> (u32, i32, usize) {
    let whole = match whole_number(bytes) {
        Ok(whole) => whole,
        Err(number) => return (number, 0, 0),
    };
    // The first byte's sign bit counts as minus its own weight, so the sign
    // bit's data is first taken away and then subtracted.
    let weight = SIGN << (7 * (whole.len() - 1));
    let data = data_of(whole);
    let value = if data & weight != 0 { data - 2 * weight } else { data };
    match i32::try_from(value) {
        Ok(value) => (DONE, value, whole.len()),
        Err(_) => (NUMBER_RANGE, 0, 0),
    }
}

/// Reads an unsigned number; answers number, value and bytes used.
pub fn read_unsigned(bytes: &[u8]) -> (u32, u32, usize) {
    let whole = match whole_number(bytes) {
        Ok(whole) => whole,
        Err(number) => return (number, 0, 0),
    };
    match u32::try_from(data_of(whole)) {
        Ok(value) => (DONE, value, whole.len()),
        Err(_) => (NUMBER_RANGE, 0, 0),
    }
}

/// Writes a signed number in the fewest bytes; answers number and bytes.
pub fn write_signed(value: i32, out: &mut [u8]) -> (u32, usize) {
    let value = i64::from(value);
    let fits = |&count: &usize| {
        let weight = SIGN << (7 * (count - 1));
        (-weight..weight).contains(&value)
    };
    let count = (1..MAX_BYTES).find(fits).unwrap_or(MAX_BYTES);
    write_groups(value, count, out)
}

/// Writes an unsigned number in the fewest bytes; answers number and bytes.
pub fn write_unsigned(value: u32, out: &mut [u8]) -> (u32, usize) {
    let value = i64::from(value);
    let fits = |&count: &usize| value < 1 << (7 * count);
    let count = (1..MAX_BYTES).find(fits).unwrap_or(MAX_BYTES);
    write_groups(value, count, out)
}

/// The bytes of the first number, of any value.
fn whole_number(bytes: &[u8]) -> Result<&[u8], u32> {
    let last = bytes.iter().take(MAX_BYTES).position(|byte| byte & CONTINUE == 0);
    match last {
        Some(last) => Ok(&bytes[..=last]),
        None if bytes.len() >= MAX_BYTES => Err(NUMBER_RANGE),
        None => Err(BYTES_END),
    }
}

/// The 7 low bits of each byte, put together.
fn data_of(bytes: &[u8]) -> i64 {
    bytes.iter().fold(0, |data, byte| data << 7 | i64::from(byte & !CONTINUE))
}

/// The low `7 * count` bits; for a negative value these are its two's
/// complement, whose highest bit falls on the sign bit.
fn write_groups(value: i64, count: usize, out: &mut [u8]) -> (u32, usize) {
    let Some(out) = out.get_mut(..count) else {
        return (ROOM, 0);
    };
    for (index, byte) in out.iter_mut().enumerate() {
        let later = count - 1 - index;
        let more = if later > 0 { CONTINUE } else { 0 };
        *byte = (value >> (7 * later)) as u8 & !CONTINUE | more;
    }
    (DONE, count)
}

#[cfg(test)]
mod tests {
    use super::*;

    fn signed(value: i32, bytes: &[u8]) {
        let mut out = [0xA5; 6];
        assert_eq!(write_signed(value, &mut out), (0, bytes.len()), "{value}");
        assert_eq!(&out[..bytes.len()], bytes, "{value}");
        assert!(out[bytes.len()..].iter().all(|&byte| byte == 0xA5));
        assert_eq!(read_signed(&out), (0, value, bytes.len()));
    }

    fn unsigned(value: u32, bytes: &[u8]) {
        let mut out = [0xA5; 6];
        assert_eq!(write_unsigned(value, &mut out), (0, bytes.len()), "{value}");
        assert_eq!(&out[..bytes.len()], bytes, "{value}");
        assert_eq!(read_unsigned(&out), (0, value, bytes.len()));
    }

    #[test]
    fn written_cases() {
        signed(63, &[0x3F]);
        signed(64, &[0x80, 0x40]);
        signed(-64, &[0x40]);
        signed(-65, &[0xFF, 0x3F]);
        signed(-1, &[0x7F]);
        signed(0, &[0]);
        signed(i32::MAX, &[0x87, 0xFF, 0xFF, 0xFF, 0x7F]);
        signed(i32::MIN, &[0xF8, 0x80, 0x80, 0x80, 0x00]);
        unsigned(127, &[0x7F]);
        unsigned(128, &[0x81, 0x00]);
        unsigned(16384, &[0x81, 0x80, 0x00]);
        unsigned(u32::MAX, &[0x8F, 0xFF, 0xFF, 0xFF, 0x7F]);
    }

    #[test]
    fn lengths_change_at_the_ends() {
        for later in 1..5 {
            let end = 64i64 << (7 * (later - 1));
            for (value, count) in
                [(end - 1, later), (end, later + 1), (-end, later), (-end - 1, later + 1)]
            {
                let mut out = [0; 5];
                assert_eq!(write_signed(value as i32, &mut out), (0, count));
                assert_eq!(read_signed(&out), (0, value as i32, count));
            }
        }
    }

    #[test]
    fn ranges() {
        assert_eq!(read_signed(&[0x88, 0x80, 0x80, 0x80, 0x00]), (13, 0, 0));
        assert_eq!(read_signed(&[0xF7, 0xFF, 0xFF, 0xFF, 0x7F]), (13, 0, 0));
        assert_eq!(read_unsigned(&[0x90, 0x80, 0x80, 0x80, 0x00]), (13, 0, 0));
        for read in [read_signed(&[0x80; 5]).0, read_unsigned(&[0x80; 9]).0] {
            assert_eq!(read, 13);
        }
    }

    #[test]
    fn bytes_end() {
        for count in 0..5 {
            assert_eq!(read_signed(&[0xFF; 4][..count]), (12, 0, 0));
            assert_eq!(read_unsigned(&[0xFF; 4][..count]), (12, 0, 0));
        }
    }

    #[test]
    fn longer_forms_are_read() {
        assert_eq!(read_signed(&[0x80, 0x80, 0x05, 9]), (0, 5, 3));
        assert_eq!(read_signed(&[0xFF, 0xFF, 0xFF, 0xFF, 0x7F]), (0, -1, 5));
        assert_eq!(read_unsigned(&[0x80, 0x80, 0x80, 0x80, 0x00]), (0, 0, 5));
    }

    #[test]
    fn room() {
        let mut out = [7; 4];
        assert_eq!(write_signed(i32::MIN, &mut out), (5, 0));
        assert_eq!(write_unsigned(128, &mut out[..1]), (5, 0));
        assert_eq!(write_unsigned(0, &mut []), (5, 0));
        assert_eq!(out, [7; 4]);
    }
}
