//! Sheets: records one after another, the table first.

mod reader;
mod records;
mod writer;

#[cfg(test)]
mod tests;

use reader::answer;
pub use reader::{judge_record, read_record, Content, RecordAnswer};
pub use records::Records;
pub use writer::{write_record, WriteAnswer};

pub const KIND_TABLE: u16 = 1;
pub const KIND_PACKED: u16 = 2;
pub const KIND_PLAIN: u16 = 3;
pub const KIND_LINE: u16 = 4;

/// Bytes of the length, which counts what follows it.
pub const LENGTH_BYTES: usize = 4;
pub const KIND_BYTES: usize = 2;
/// The greatest number that a length may be.
pub const MAX_RECORD: usize = 32_774;

/// What later records depend on, laid out as C has it. It is passed by value:
/// no call parses the records before its own. All 0 at a sheet's start.
#[repr(C)]
#[derive(Clone, Copy, PartialEq, Eq, Debug, Default)]
pub struct State {
    /// 0 before there is a table; any other number says that there is one.
    pub has_table: u32,
    /// The least row number allowed next; 65536 and more allow none.
    pub least_row: u32,
}

impl State {
    /// Whether a record of this kind may come next. `row` is looked at only
    /// for the kinds that have one; a record has 2 bytes for it.
    fn allows(self, kind: u16, row: u32) -> bool {
        let has_table = self.has_table != 0;
        match kind {
            KIND_TABLE => !has_table,
            KIND_LINE => has_table,
            _ => has_table && (self.least_row..=u16::MAX.into()).contains(&row),
        }
    }

    /// The state after such a record, which changes no more than it must.
    fn after(self, kind: u16, row: u32) -> State {
        match kind {
            KIND_TABLE => State { has_table: 1, ..self },
            KIND_PACKED | KIND_PLAIN => State { least_row: row + 1, ..self },
            _ => self,
        }
    }
}
