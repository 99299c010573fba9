//! A use of a place beside the row call under the table that stands there.

use second::answers::Unpacked;
use second::compared::{Outcome, ShelfCall};
use second::ffi;
use second::generate::shelves::Kind;
use second::memory::Lent;
use second::refusal::DONE;
use second::shelf::table_used;

/// Whether the call came to the table of a place; then the library's row call
/// under that table must answer and write the same, and what was packed must be
/// read back.
pub fn check(call: &ShelfCall, shelf: &[u8], answer: Unpacked, after: &Lent) -> Outcome<bool> {
    let Ok(table) = table_used(&shelf[..call.length], call.party, call.place) else {
        return Ok(false);
    };
    let mut memory = call.lent.clone();
    let lent = memory.bytes_mut();
    let pair = |(number, count)| Unpacked { number, count, at: 0 };
    let row = match call.kind {
        Kind::Pack => pair(ffi::pack(table, call.input(), lent)),
        Kind::Unpack => ffi::unpack(table, call.input(), call.n, lent),
        Kind::Room => pair(ffi::room(table, call.n)),
        Kind::Open | Kind::Put | Kind::Remove => return Ok(false),
    };
    if row != answer || memory != *after {
        let what = format!("{answer:?}, but the row call {row:?}");
        return Err(call.report(&what, &[("table", table), ("after", after.bytes())]));
    }
    if call.kind == Kind::Pack && answer.number == DONE {
        read_back(call, shelf, answer, after)?;
    }
    Ok(true)
}

fn read_back(call: &ShelfCall, shelf: &[u8], answer: Unpacked, after: &Lent) -> Outcome<()> {
    let pixels = call.input();
    let pixels = &pixels[..pixels.len() / 2 * 2];
    let mut back = vec![0; pixels.len()];
    let (n, words) = (pixels.len() as u64 / 2, after.bytes());
    let read = ffi::shelf_unpack(shelf, call.party, call.place, words, n, &mut back);
    if read == Unpacked::done(answer.count) && back == pixels {
        return Ok(());
    }
    Err(call.report(&format!("packed {answer:?}, read back {read:?}"), &[("words", words)]))
}
