//! Adaptive numbers, read and written, signed and unsigned.

use crate::progress::Progress;
use second::compared::{read_signed, read_unsigned, write_signed, write_unsigned, Outcome};
use second::generate::numbers::{sample, shortest_form, value, Expected, Sort, SORTS};
use second::memory::{Given, Lent};
use second::random::Random;
use second::refusal::{DONE, ROOM};

/// Lent memory of every length up to more than any number takes.
const LENGTHS: usize = 8;

pub fn compare(random: &mut Random, progress: &mut Progress) -> Outcome<()> {
    let sort = random.pick(&SORTS);
    let (bytes, expected) = sample(random, sort);
    read(random, progress, sort, &bytes, expected)?;
    let (value, length) = (value(random, sort), random.below(LENGTHS));
    write(random, progress, sort, value, length)
}

/// The values beside which the bytes change in number, with every length of
/// memory, and every one-byte and two-byte input.
pub fn compare_ends(random: &mut Random, progress: &mut Progress) -> Outcome<()> {
    for sort in SORTS {
        let (least, most) = sort.range();
        let powers = (0..=32).flat_map(|power| [1 << power, -(1 << power)]);
        for end in powers.chain([least, most, 0]) {
            for value in (end - 2..=end + 2).filter(|value| (least..=most).contains(value)) {
                for length in 0..LENGTHS {
                    write(random, progress, sort, value, length)?;
                }
            }
        }
        for first in 0..=255 {
            read(random, progress, sort, &[first], Expected::Unknown)?;
            for second in 0..=255 {
                read(random, progress, sort, &[first, second], Expected::Unknown)?;
            }
        }
    }
    Ok(())
}

fn read(
    random: &mut Random,
    progress: &mut Progress,
    sort: Sort,
    bytes: &[u8],
    expected: Expected,
) -> Outcome<()> {
    let given = Given::new(random, bytes);
    let (number, value, used) = match sort {
        Sort::Signed => {
            let answer = read_signed(&mut progress.tally, &given)?;
            (answer.number, i64::from(answer.value), answer.used)
        }
        Sort::Unsigned => {
            let answer = read_unsigned(&mut progress.tally, &given)?;
            (answer.number, i64::from(answer.value), answer.used)
        }
    };
    progress.numbers += 1;
    let right = match expected {
        Expected::Value(wanted, bytes) => (number, value, used) == (DONE, wanted, bytes as u32),
        Expected::Refused(wanted) => number == wanted,
        Expected::Unknown => true,
    };
    if right {
        return Ok(());
    }
    Err(format!("both read {sort:?} {bytes:02x?} as {number} {value} {used}: {expected:?}\n"))
}

fn write(
    random: &mut Random,
    progress: &mut Progress,
    sort: Sort,
    value: i64,
    length: usize,
) -> Outcome<()> {
    let before = Lent::new(random, length);
    let (answer, after) = match sort {
        Sort::Signed => write_signed(&mut progress.tally, value as i32, &before)?,
        Sort::Unsigned => write_unsigned(&mut progress.tally, value as u32, &before)?,
    };
    progress.numbers += 1;
    let shortest = shortest_form(sort, value);
    let right = if shortest.len() > length {
        answer.pair() == (ROOM, 0)
    } else {
        let written = &after.bytes()[..shortest.len()];
        answer.pair() == (DONE, shortest.len() as u32) && written == shortest
    };
    if right {
        return Ok(());
    }
    Err(format!("both write {sort:?} {value} to {length} bytes as {answer:?}\n"))
}
