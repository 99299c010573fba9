//! The records of a whole sheet, one after another.

use super::{answer, Content, RecordAnswer, State};
use crate::listing::refused_line;
use crate::reader::Codec;
use crate::refusal::{DONE, PLACE, TABLE_SHAPE};

/// Where reading a sheet has come to.
pub struct Records<'a> {
    /// From the next record on, or from the one that is refused.
    rest: &'a [u8],
    state: State,
    /// The sheet's table; never looked at before it is read.
    codec: Result<Codec, u32>,
    /// The records that are accepted, and the rows among them.
    records: usize,
    rows: usize,
    /// The number and the bit of a refusal.
    refused: (u32, u32),
}

impl<'a> Records<'a> {
    pub fn new(sheet: &'a [u8]) -> Records<'a> {
        let number = if sheet.is_empty() { PLACE } else { DONE };
        let (state, codec) = (State::default(), Err(TABLE_SHAPE));
        Records { rest: sheet, state, codec, records: 0, rows: 0, refused: (number, 0) }
    }

    /// The next record's values, and its content in the lent memory, if any is
    /// lent. Nothing at the end, or where it is refused.
    pub fn next(&mut self, lent: Option<&mut [u8]>) -> Option<Content> {
        if self.rest.is_empty() || self.number() != DONE {
            return None;
        }
        let codec = self.codec.as_ref().map_err(|number| *number);
        let RecordAnswer { number, content, used, state, at } =
            answer(self.state, codec, self.rest, lent);
        let Some(content) = content else {
            self.refused = (number, at);
            return None;
        };
        if matches!(content, Content::Table { .. }) {
            self.codec = Codec::open(&self.rest[6..used]);
        }
        self.rows += usize::from(content.row().is_some());
        self.records += 1;
        self.state = state;
        self.rest = &self.rest[used..];
        Some(content)
    }

    /// The refusal's number, or 0.
    pub fn number(&self) -> u32 {
        self.refused.0
    }

    /// What has not been read.
    pub fn rest(&self) -> &'a [u8] {
        self.rest
    }

    /// The line with which a listing ends here.
    pub fn verdict(&self) -> String {
        match self.refused {
            (DONE, _) => format!("done rows {}\n", self.rows),
            (number, bit) => refused_line(number, self.records, bit),
        }
    }
}
