//! Rows of samples become a sheet: the record of a table, then packed rows,
//! numbered from 0.

use crate::reader::Codec;
use crate::refusal::DONE;
use crate::sheet::{write_record, State, KIND_PACKED, KIND_TABLE, LENGTH_BYTES, MAX_RECORD};

/// How the making of a sheet ends.
#[derive(Clone, Copy, PartialEq, Eq, Debug)]
pub enum Verdict {
    Done { rows: usize },
    Header { number: u32 },
    Row { number: u32, row: usize },
}

impl Verdict {
    /// The line that a program ends with.
    pub fn line(self) -> String {
        match self {
            Verdict::Done { rows } => format!("done rows {rows}\n"),
            Verdict::Header { number } => format!("refused {number}\n"),
            Verdict::Row { number, row } => format!("refused {number} at row {row}\n"),
        }
    }

    pub fn number(self) -> u32 {
        match self {
            Verdict::Done { .. } => DONE,
            Verdict::Header { number } | Verdict::Row { number, .. } => number,
        }
    }
}

/// The table is read and its record written once.
pub struct Conversion {
    pub codec: Codec,
    pub record: Vec<u8>,
    /// After that record.
    pub state: State,
}

impl Conversion {
    /// Under this table, or the number of its refusal.
    pub fn new(table: &[u8]) -> Result<Conversion, u32> {
        let codec = Codec::open(table)?;
        let mut record = vec![0; LENGTH_BYTES + MAX_RECORD];
        let kind = KIND_TABLE.into();
        let written = write_record(State::default(), Err(0), kind, 0, table, &mut record);
        assert_eq!(written.number, DONE, "an accepted table has its place and its room");
        record.truncate(written.bytes);
        Ok(Conversion { codec, record, state: written.state })
    }

    /// Of rows as a record writer takes them, up to the first that is refused.
    /// The state goes from record to record, as it does where a sheet is
    /// written.
    pub fn sheet(&self, rows: impl Iterator<Item = Result<Vec<u8>, u32>>) -> (Vec<u8>, Verdict) {
        let (mut sheet, mut state, mut count) = (self.record.clone(), self.state, 0);
        let mut record = [0; LENGTH_BYTES + MAX_RECORD];
        for (row, pixels) in rows.enumerate() {
            let pixels = match pixels {
                Ok(pixels) => pixels,
                Err(number) => return (sheet, Verdict::Row { number, row }),
            };
            let (table, kind) = (Ok(&self.codec.table), KIND_PACKED.into());
            let written = write_record(state, table, kind, row as u32, &pixels, &mut record);
            assert_eq!(written.number, DONE, "a row of pixels has its place and its room");
            sheet.extend_from_slice(&record[..written.bytes]);
            state = written.state;
            count += 1;
        }
        (sheet, Verdict::Done { rows: count })
    }
}
