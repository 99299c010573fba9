//! The desk's programs as people see them: what each prints for its input and
//! its options.

#[cfg(test)]
mod tests;

use std::fmt::Write;
use std::ops::RangeInclusive;

use crate::child::Printed;
use crate::conversion::{Conversion, Verdict};
use crate::known::plain_table;
use crate::map::read_map;
use crate::pgm::{convert, write_pgm};
use crate::picture::{Beside, Look, Picture, Range};
use crate::stored::Stored;

/// A map as it is given, with what must be known of it.
#[derive(Clone)]
pub struct GivenMap {
    pub bytes: Vec<u8>,
    pub group: u32,
    pub total: u64,
}

#[derive(Clone)]
pub struct DrawOptions {
    pub times: usize,
    pub range: Range,
    pub map: Option<GivenMap>,
}

impl Default for DrawOptions {
    fn default() -> DrawOptions {
        DrawOptions { times: 1, range: Range::WHOLE, map: None }
    }
}

impl DrawOptions {
    /// The look, and the number of the map's refusal.
    pub fn look(&self) -> (Look, Option<u32>) {
        let read = self.map.as_ref().map(|map| read_map(map.group, &map.bytes, map.total));
        let (beside, refused) = match read {
            None => (Beside::Nothing, None),
            Some(Ok(map)) => (Beside::Counts(map.counts), None),
            Some(Err(number)) => (Beside::Unread, Some(number)),
        };
        (Look { times: self.times, grey: self.range, beside }, refused)
    }
}

pub fn draw_sheet(sheet: &[u8], options: &DrawOptions) -> Printed {
    let stored = Stored::read(sheet);
    let (look, refused) = options.look();
    let mut complaints = stored.verdict.clone();
    if let Some(number) = refused {
        let _ = writeln!(complaints, "map refused {number}");
    }
    Printed { out: Picture::new(&look, &stored).png(), complaints: complaints.into_bytes() }
}

/// `name` is the input's in a complaint.
pub fn sheet_to_pgm(name: &str, sheet: &[u8], pad: Option<u16>) -> Printed {
    let stored = Stored::read(sheet);
    let mut complaints = stored.verdict.clone();
    let mut out = Vec::new();
    if stored.is_accepted() {
        match write_pgm(&stored, pad) {
            Ok(pgm) => out = pgm,
            Err(fault) => {
                let _ = writeln!(complaints, "sheet_to_pgm: {name}: {}", fault.text());
            }
        }
    }
    Printed { out, complaints: complaints.into_bytes() }
}

pub fn pgm_to_sheet(name: &str, pgm: &[u8], table: Option<&[u8]>) -> Printed {
    let plain = plain_table();
    let conversion = match Conversion::new(table.unwrap_or(&plain)) {
        Ok(conversion) => conversion,
        Err(number) => {
            let complaints = Verdict::Header { number }.line().into_bytes();
            return Printed { out: Vec::new(), complaints };
        }
    };
    let converted = convert(&conversion, pgm);
    let mut complaints = String::new();
    if converted.more {
        let _ = writeln!(complaints, "pgm_to_sheet: {name}: bytes after the picture are not read");
    }
    complaints.push_str(&converted.verdict.line());
    Printed { out: converted.sheet, complaints: complaints.into_bytes() }
}

/// A line a row; with a range only those whose numbers are in it.
pub fn sheet_to_text(sheet: &[u8], wanted: Option<RangeInclusive<u16>>) -> Printed {
    let stored = Stored::read(sheet);
    let mut text = String::new();
    for row in &stored.rows {
        if wanted.as_ref().is_none_or(|wanted| wanted.contains(&row.number)) {
            let _ = write!(text, "{}", row.number);
            for height in &row.heights {
                let _ = write!(text, " {height}");
            }
            text.push('\n');
        }
    }
    Printed { out: text.into_bytes(), complaints: stored.verdict.into_bytes() }
}
