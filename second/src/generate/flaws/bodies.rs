//! Flaws of what the records hold.

use super::{field, kind_of, mend_length, pick_kind, refused, set_field};
use super::{Ending, Flaw, Records, BODY_PLACE, ROW_PLACE};
use crate::generate::damage::{damaged_table, damages};
use crate::generate::entries::{framed, line_body, row_body};
use crate::generate::numbers::{any_form, outside, sixth_asked, value, Sort};
use crate::generate::rows::{row, row_length};
use crate::generate::runs::{random_words, run, run_words, set_unused, Expected, Fault};
use crate::random::Random;
use crate::refusal::{BYTES_END, NUMBER_RANGE, PIXEL, RECORD, TABLE_SHAPE};
use crate::refusal::{TOO_MANY, UNUSED_BIT, WORDS_END};
use crate::row::MAX_PIXELS;
use crate::sheet::{KIND_BYTES, KIND_LINE, KIND_PACKED, KIND_PLAIN, KIND_TABLE, MAX_RECORD};
use crate::table::Table;

pub fn spoil(
    random: &mut Random,
    table: &Table,
    records: &mut Records,
    flaw: Flaw,
) -> Option<Ending> {
    match flaw {
        Flaw::ManyPixels | Flaw::ManyNumbers => many(random, records, flaw),
        Flaw::TableRefused => table_refused(random, records),
        Flaw::TableLonger => {
            let words = random.within(1..=3);
            records[0].extend(random_words(random, words));
            let number = if mend_length(&mut records[0]) { TABLE_SHAPE } else { RECORD };
            refused(number, 0)
        }
        Flaw::PixelAbove => pixel_above(random, records),
        Flaw::ExtraWord => extra(random, records, &[KIND_PACKED], 4),
        Flaw::ExtraBytes => extra(random, records, &[KIND_PLAIN, KIND_LINE], 1),
        Flaw::UnusedBit | Flaw::WordsCut | Flaw::ItemFault | Flaw::AnyWords => {
            let index = pick_kind(random, records, &[KIND_PACKED])?;
            let number = field(&records[index], ROW_PLACE);
            let (count, words, ending) = wrong_words(random, table, flaw, index)?;
            records[index] = framed(KIND_PACKED, &row_body(number, count as u16, &words));
            Some(ending)
        }
        _ => {
            let index = pick_kind(random, records, &[KIND_LINE])?;
            let (body, number) = wrong_numbers(random, flaw);
            records[index] = framed(KIND_LINE, &body);
            refused(number, index)
        }
    }
}

/// More than 4096 pixels or numbers, all in order and all there, up to what
/// the length allows.
fn many(random: &mut Random, records: &mut Records, flaw: Flaw) -> Option<Ending> {
    let row = flaw == Flaw::ManyPixels;
    let kinds = if row { [KIND_PACKED, KIND_PLAIN] } else { [KIND_LINE; 2] };
    let index = pick_kind(random, records, &kinds)?;
    let kind = kind_of(&records[index]);
    let (fields, size) = if row { (4, 2) } else { (2, 1) };
    let most = (MAX_RECORD - KIND_BYTES - fields) / size;
    let other = random.within(MAX_PIXELS + 1..=most);
    // Even, so that a packed row has whole words.
    let count = random.pick(&[MAX_PIXELS + 2, most, other / 2 * 2]);
    let rest = vec![0; size * count];
    let body = if row {
        row_body(field(&records[index], ROW_PLACE), count as u16, &rest)
    } else {
        [&(count as u16).to_le_bytes()[..], &rest].concat()
    };
    records[index] = framed(kind, &body);
    refused(TOO_MANY, index)
}

fn table_refused(random: &mut Random, records: &mut Records) -> Option<Ending> {
    let damage = random.pick(&damages());
    records[0] = framed(KIND_TABLE, &damaged_table(random, damage));
    let whole_words = (records[0].len() - BODY_PLACE).is_multiple_of(4);
    if !mend_length(&mut records[0]) || !whole_words {
        return refused(RECORD, 0);
    }
    match damage.expected() {
        Some(number) => refused(number, 0),
        None => Some(Ending::Unknown),
    }
}

fn pixel_above(random: &mut Random, records: &mut Records) -> Option<Ending> {
    let index = pick_kind(random, records, &[KIND_PLAIN])?;
    let record = &mut records[index];
    let first = BODY_PLACE + 4;
    let pixels = (record.len() - first) / 2;
    if pixels == 0 {
        return None;
    }
    let other = random.within(4096..=65_535) as u16;
    let place = first + 2 * random.below(pixels);
    set_field(record, place, random.pick(&[4096, 65_535, other]));
    refused(PIXEL, index)
}

/// Words or bytes after the content, zero or not.
fn extra(random: &mut Random, records: &mut Records, kinds: &[u16], size: usize) -> Option<Ending> {
    let index = pick_kind(random, records, kinds)?;
    let count = size * random.within(1..=3);
    let bytes = if random.one_in(2) { vec![0; count] } else { random.bytes(count) };
    records[index].extend(bytes);
    mend_length(&mut records[index]);
    refused(RECORD, index)
}

/// A new row's count and words, with the flaw.
fn wrong_words(
    random: &mut Random,
    table: &Table,
    flaw: Flaw,
    index: usize,
) -> Option<(usize, Vec<u8>, Ending)> {
    let n = row_length(random).clamp(1, MAX_PIXELS);
    let row = row(random, table, n);
    let fault = (random.below(n), random.pick(&[Fault::EscapedBad, Fault::Height]));
    let fault = (flaw == Flaw::ItemFault).then_some(fault);
    let run = run(random, table, &row, fault);
    let mut words = run_words(&run.bits);
    let bits = run.bits.len();
    let (number, at) = match (flaw, &run.expected) {
        (Flaw::ItemFault, &Expected::Refused(number, at)) => (number, at),
        (Flaw::UnusedBit, _) if set_unused(random, &mut words, bits) => (UNUSED_BIT, bits),
        (Flaw::WordsCut, _) => {
            // Whole items stand before the cut, and one is cut or gone.
            words.truncate(4 * random.below(words.len() / 4));
            (WORDS_END, run.cut_item(8 * words.len()))
        }
        (Flaw::AnyWords, _) => {
            let count = random.below(30);
            let words = random_words(random, count);
            return Some((random.below(60), words, Ending::Unknown));
        }
        _ => return None,
    };
    Some((n, words, Ending::Refused { number, record: index, at }))
}

/// A new line's body with the flaw at one of its numbers, and its refusal.
fn wrong_numbers(random: &mut Random, flaw: Flaw) -> (Vec<u8>, u32) {
    let n = row_length(random).clamp(1, MAX_PIXELS);
    let mut any_number = || {
        let value = value(random, Sort::Signed);
        any_form(random, Sort::Signed, value)
    };
    let mut numbers: Vec<Vec<u8>> = (0..n).map(|_| any_number()).collect();
    let place = random.below(n);
    let number = match flaw {
        Flaw::NumberCut => {
            let keep = random.below(numbers[place].len());
            numbers[place].truncate(keep);
            numbers[place + 1..].fill(Vec::new());
            BYTES_END
        }
        Flaw::SixthByte => {
            numbers[place] = sixth_asked(random);
            NUMBER_RANGE
        }
        _ => {
            numbers[place] = outside(random, Sort::Signed);
            NUMBER_RANGE
        }
    };
    (line_body(&numbers), number)
}
