//! The header of a PGM picture: P5, width, rows and maxval, each after blanks
//! or comments, and one blank.

use std::num::IntErrorKind;

use super::{MAGIC, MAXVAL, MOST_HEADER, MOST_ROWS};
use crate::refusal::{PGM_HEADER, TOO_MANY};
use crate::row::MAX_PIXELS;

#[derive(Clone, Copy, PartialEq, Eq, Debug)]
pub struct Header {
    pub width: usize,
    pub rows: usize,
    /// Where the samples begin.
    pub start: usize,
}

impl Header {
    /// Reads a header, or gives the number of its refusal.
    pub fn read(pgm: &[u8]) -> Result<Header, u32> {
        let front = &pgm[..pgm.len().min(MOST_HEADER)];
        let ([width, rows, maxval], rest) = fields(front).ok_or(PGM_HEADER)?;
        if width == 0 || rows == 0 || maxval != u32::from(MAXVAL) {
            return Err(PGM_HEADER);
        }
        let (width, rows) = (width as usize, rows as usize);
        if width > MAX_PIXELS || rows > MOST_ROWS {
            return Err(TOO_MANY);
        }
        Ok(Header { width, rows, start: front.len() - rest.len() })
    }
}

/// The three numbers, and what follows the blank after them.
fn fields(front: &[u8]) -> Option<([u32; 3], &[u8])> {
    let mut rest = front.strip_prefix(MAGIC)?;
    let mut numbers = [0; 3];
    for number in &mut numbers {
        let after = after_separators(rest);
        if after.len() == rest.len() {
            return None;
        }
        (*number, rest) = decimal(after)?;
    }
    match rest.split_first() {
        Some((&byte, samples)) if is_blank(byte) => Some((numbers, samples)),
        _ => None,
    }
}

fn is_blank(byte: u8) -> bool {
    matches!(byte, b'\t' | b'\n' | 0x0b | 0x0c | b'\r' | b' ')
}

/// After all blanks and comments. A comment goes on to the end of its line, or
/// to the end of the bytes.
fn after_separators(mut rest: &[u8]) -> &[u8] {
    while let Some((&byte, after)) = rest.split_first() {
        rest = match byte {
            b'#' => {
                let line = after.iter().take_while(|&&byte| byte != b'\n' && byte != b'\r');
                &after[line.count()..]
            }
            _ if is_blank(byte) => after,
            _ => break,
        };
    }
    rest
}

/// A number at the front, and what follows its digits. One that does not fit is
/// the largest that does, and judged as that.
fn decimal(bytes: &[u8]) -> Option<(u32, &[u8])> {
    let digits = bytes.iter().take_while(|byte| byte.is_ascii_digit()).count();
    let (digits, rest) = bytes.split_at(digits);
    match std::str::from_utf8(digits).ok()?.parse::<u32>() {
        Ok(number) => Some((number, rest)),
        Err(error) if *error.kind() == IntErrorKind::PosOverflow => Some((u32::MAX, rest)),
        Err(_) => None,
    }
}
