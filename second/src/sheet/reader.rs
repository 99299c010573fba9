//! Reading one record.

use super::{State, KIND_BYTES, KIND_LINE, KIND_PACKED, KIND_PLAIN, KIND_TABLE};
use super::{LENGTH_BYTES, MAX_RECORD};
use crate::adaptive::read_signed;
use crate::answers::Unpacked;
use crate::reader::{unpack_under, Codec};
use crate::refusal::{DONE, KIND, PIXEL, PLACE, RECORD, ROOM, TOO_MANY};
use crate::row::{MAX_PIXELS, PIXEL_SPOT};
use crate::table::Table;

/// The values of a record that is in order.
#[derive(Clone, PartialEq, Eq, Debug)]
pub enum Content {
    Table { id: u32, low_limit: u32, size: u32, worst: u32 },
    Packed { row: u16, pixels: u16, bits: u32, words: u32 },
    Plain { row: u16, pixels: u16 },
    Line { numbers: u16 },
}

impl Content {
    /// A row's number and pixels.
    pub fn row(&self) -> Option<(u16, u16)> {
        match *self {
            Content::Packed { row, pixels, .. } | Content::Plain { row, pixels } => {
                Some((row, pixels))
            }
            Content::Table { .. } | Content::Line { .. } => None,
        }
    }
}

#[derive(Clone, PartialEq, Eq, Debug)]
pub struct RecordAnswer {
    pub number: u32,
    /// None when refused.
    pub content: Option<Content>,
    /// The record's bytes, its length field included.
    pub used: usize,
    /// The state after the record; all 0 when refused.
    pub state: State,
    /// Where the reading of a packed row stopped, counted from its first word;
    /// 0 when done and for every refusal that no row's reading gives.
    pub at: u32,
}

/// A number, and the place where a packed row's reading stopped.
struct Refusal {
    number: u32,
    at: u32,
}

impl From<u32> for Refusal {
    fn from(number: u32) -> Refusal {
        Refusal { number, at: 0 }
    }
}

/// Judges the record at the start of `bytes`; `codec` is the sheet's table or
/// that table's refusal.
pub fn judge_record(state: State, codec: Result<&Codec, u32>, bytes: &[u8]) -> RecordAnswer {
    answer(state, codec, bytes, None)
}

/// Judges a record and gives its content: pixels as 2 bytes each, or numbers
/// as 4 bytes each. A table's words are in the record itself.
pub fn read_record(
    state: State,
    codec: Result<&Codec, u32>,
    bytes: &[u8],
    lent: &mut [u8],
) -> RecordAnswer {
    answer(state, codec, bytes, Some(lent))
}

/// Judges a record, and gives its content where memory is lent.
pub fn answer(
    state: State,
    codec: Result<&Codec, u32>,
    bytes: &[u8],
    lent: Option<&mut [u8]>,
) -> RecordAnswer {
    let judged = frame(bytes).map_err(Refusal::from).and_then(|record| {
        let fields = fixed_fields(record)?;
        let row = u32::from(fields.row);
        if !state.allows(fields.kind, row) {
            return Err(PLACE.into());
        }
        let content = body_content(&fields, codec, lent)?;
        let used = LENGTH_BYTES + record.len();
        Ok((content, used, state.after(fields.kind, row)))
    });
    match judged {
        Ok((content, used, state)) => {
            RecordAnswer { number: DONE, content: Some(content), used, state, at: 0 }
        }
        Err(Refusal { number, at }) => {
            RecordAnswer { number, content: None, used: 0, state: State::default(), at }
        }
    }
}

/// What the length counts: the kind and the body.
fn frame(bytes: &[u8]) -> Result<&[u8], u32> {
    let (length, rest) = bytes.split_first_chunk::<LENGTH_BYTES>().ok_or(RECORD)?;
    let length = u32::from_le_bytes(*length) as usize;
    if !(KIND_BYTES..=MAX_RECORD).contains(&length) {
        return Err(RECORD);
    }
    rest.get(..length).ok_or(RECORD)
}

/// A record's fixed fields, zero where its kind has none, and what follows.
struct Fields<'a> {
    kind: u16,
    row: u16,
    count: u16,
    rest: &'a [u8],
}

fn fixed_fields(record: &[u8]) -> Result<Fields<'_>, u32> {
    let mut rest = record;
    let kind = take_u16(&mut rest)?;
    if !(KIND_TABLE..=KIND_LINE).contains(&kind) {
        return Err(KIND);
    }
    let has_row = matches!(kind, KIND_PACKED | KIND_PLAIN);
    let row = if has_row { take_u16(&mut rest)? } else { 0 };
    let count = if kind == KIND_TABLE { 0 } else { take_u16(&mut rest)? };
    let in_words = matches!(kind, KIND_TABLE | KIND_PACKED);
    if in_words && !rest.len().is_multiple_of(4) {
        return Err(RECORD);
    }
    Ok(Fields { kind, row, count, rest })
}

fn take_u16(bytes: &mut &[u8]) -> Result<u16, u32> {
    let (field, rest) = bytes.split_first_chunk::<2>().ok_or(RECORD)?;
    *bytes = rest;
    Ok(u16::from_le_bytes(*field))
}

fn body_content(
    fields: &Fields,
    codec: Result<&Codec, u32>,
    lent: Option<&mut [u8]>,
) -> Result<Content, Refusal> {
    Ok(match fields.kind {
        KIND_TABLE => table_content(fields.rest)?,
        KIND_PACKED => packed_content(fields, codec?, lent)?,
        KIND_PLAIN => plain_content(fields, lent)?,
        _ => line_content(fields, lent)?,
    })
}

fn table_content(body: &[u8]) -> Result<Content, u32> {
    let table = Table::parse(body)?;
    Ok(Content::Table {
        id: table.id,
        low_limit: table.low_limit,
        size: table.entries() as u32,
        worst: table.worst,
    })
}

fn packed_content(
    fields: &Fields,
    codec: &Codec,
    lent: Option<&mut [u8]>,
) -> Result<Content, Refusal> {
    let count = usize::from(fields.count);
    // Pixels are set aside, as a leftover is judged after them.
    let mut aside = [0; 2 * MAX_PIXELS];
    let lent_bytes = lent.as_ref().map_or(aside.len(), |lent| lent.len());
    let room = lent_bytes.min(aside.len());
    let n = u64::from(fields.count);
    let Unpacked { number, count: bits, at } =
        unpack_under(codec, fields.rest, n, &mut aside[..room]);
    if number != DONE {
        return Err(Refusal { number, at });
    }
    let words = bits.div_ceil(32);
    if fields.rest.len() != 4 * words as usize {
        return Err(RECORD.into());
    }
    give(&aside[..2 * count], lent)?;
    Ok(Content::Packed { row: fields.row, pixels: fields.count, bits, words })
}

fn plain_content(fields: &Fields, lent: Option<&mut [u8]>) -> Result<Content, u32> {
    let count = usize::from(fields.count);
    if count > MAX_PIXELS {
        return Err(TOO_MANY);
    }
    if fields.rest.len() != 2 * count {
        return Err(RECORD);
    }
    let (pixels, _) = fields.rest.as_chunks::<2>();
    if pixels.iter().any(|&pixel| u16::from_le_bytes(pixel) > PIXEL_SPOT) {
        return Err(PIXEL);
    }
    give(fields.rest, lent)?;
    Ok(Content::Plain { row: fields.row, pixels: fields.count })
}

fn line_content(fields: &Fields, lent: Option<&mut [u8]>) -> Result<Content, u32> {
    if usize::from(fields.count) > MAX_PIXELS {
        return Err(TOO_MANY);
    }
    let mut rest = fields.rest;
    let mut values = Vec::new();
    for _ in 0..fields.count {
        let (number, value, used) = read_signed(rest);
        if number != DONE {
            return Err(number);
        }
        values.extend(value.to_le_bytes());
        rest = &rest[used..];
    }
    if !rest.is_empty() {
        return Err(RECORD);
    }
    give(&values, lent)?;
    Ok(Content::Line { numbers: fields.count })
}

/// Copies the content to the lent memory, if any is lent.
fn give(content: &[u8], lent: Option<&mut [u8]>) -> Result<(), u32> {
    if let Some(lent) = lent {
        lent.get_mut(..content.len()).ok_or(ROOM)?.copy_from_slice(content);
    }
    Ok(())
}
