//! Rows that lead to the end of 32 bits, and one element beyond it, by
//! differences alone: they are long where neither DATA nor VALUE has 32 bits.

use crate::progress::Progress;
use second::compared::{DeltaCall, DeltaRead, Outcome};
use second::delta::{largest, least, number_bytes, First};
use second::generate::deltas::flaws::{Reading, Wanted};
use second::generate::deltas::Widths;
use second::random::Random;
use second::refusal::{DELTA_SUM, DONE};

pub fn compare(random: &mut Random, progress: &mut Progress) -> Outcome<()> {
    let any = random.pick(&[i32::MIN, i32::MAX]);
    for widths in Widths::all().filter(|widths| !widths.leave_soon()) {
        // By 8 bits a row has 17 million elements: one end is enough.
        let ends = if widths.data == 8 { vec![any] } else { vec![i32::MIN, i32::MAX] };
        for end in ends {
            compare_row(random, widths, end)
                .map_err(|what| format!("{what}a row to {end}, {widths:?}\n"))?;
            progress.long += 1;
        }
    }
    Ok(())
}

/// The row, and the row with the element beyond it.
fn compare_row(random: &mut Random, widths: Widths, end: i32) -> Outcome<()> {
    let reading = row_to(random, widths, end);
    let n = reading.n;
    compare_reading(random, &reading, |read| {
        let is_good = read.elements().all(|element| element.is_some());
        let last = read.elements().last().flatten();
        read.answer.pair() == (DONE, n) && is_good && last == Some(end)
    })?;
    let beyond = Reading { n: n + 1, ..reading };
    compare_reading(random, &beyond, |read| read.answer.pair() == (DELTA_SUM, 0))
}

fn compare_reading(
    random: &mut Random,
    reading: &Reading,
    is_right: impl FnOnce(&DeltaRead) -> bool,
) -> Outcome<()> {
    let call = DeltaCall::new(random, reading);
    let read = call.read_uncounted()?;
    if is_right(&read) {
        return Ok(());
    }
    Err(call.report(&format!("both answer {:?}", read.answer), &read))
}

/// A value, and differences that lead to the end; the element after them leads
/// beyond it, and there is room for it too.
fn row_to(random: &mut Random, widths: Widths, end: i32) -> Reading {
    let value = random.next_u32() as i32 >> (32 - widths.value);
    let step = if end > 0 { widths.most() } else { least(widths.data) };
    let way = i64::from(end) - i64::from(value);
    let (steps, rest) = (way / i64::from(step), way % i64::from(step));
    let bytes = |numbers: &[i32]| number_bytes(numbers, widths.data);
    let data = [
        bytes(&[largest(widths.data)]),
        bytes(&[step]).repeat(steps as usize),
        bytes(&[rest as i32, end.signum()]),
    ];
    let n = steps as usize + 2;
    // The same for rows of about this length, so that memory is used again.
    let room = (n + 1).next_multiple_of(1 << 20);
    Reading {
        n: n as u64,
        widths,
        data: data.concat(),
        value: number_bytes(&[value], widths.value),
        repeat: Vec::new(),
        first: First::default(),
        row_room: 4 * room,
        marks_room: room,
        wanted: Wanted::Unknown,
    }
}
