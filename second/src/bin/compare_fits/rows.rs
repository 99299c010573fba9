//! The row call with any arguments.

use crate::progress::Progress;
use second::compared::{Outcome, ScanRow};
use second::fits::{Converter, MAX_AXIS};
use second::generate::rows::row;
use second::memory::{Given, Lent};
use second::random::Random;
use second::refusal::{DONE, FITS_HEADER, IMAGE_END, PIXEL, ROOM, TOO_MANY};

const LIMIT: u64 = MAX_AXIS as u64;

/// The bytes from a row on, and what is wrong with them.
struct Image {
    bytes: Vec<u8>,
    is_cut: bool,
    is_bad: bool,
}

pub fn compare(random: &mut Random, converter: &Converter, progress: &mut Progress) -> Outcome<()> {
    let (width, row) = (any_width(random), any_row(random));
    let image = any_image(random, converter, width.min(LIMIT + 1) as usize);
    let fits = Given::new(random, &image.bytes);
    let call = ScanRow { converter, fits: &fits, start: 0, width, row };
    let needed = call.bytes_needed();
    let less = random.below(needed.max(1));
    let room = random.pick(&[needed, needed, needed + 7, needed.saturating_sub(1), less]);
    let (answer, _) = call.write(&mut progress.tally, &Lent::new(random, room))?;
    // In the order in which a fault is found.
    let faults = [
        (width == 0, FITS_HEADER),
        (width > LIMIT || row >= LIMIT, TOO_MANY),
        (image.is_cut, IMAGE_END),
        (image.is_bad, PIXEL),
        (room < needed, ROOM),
    ];
    let wanted = faults.iter().find(|(stands, _)| *stands).map_or(DONE, |(_, number)| *number);
    if answer.number != wanted {
        return Err(call.report(&format!("both answer {answer:?}, made for {wanted}")));
    }
    Ok(())
}

/// A row of this width, at times with a bad pixel, cut, or with more behind it.
fn any_image(random: &mut Random, converter: &Converter, width: usize) -> Image {
    let mut pixels = row(random, &converter.codec().table, width);
    let is_bad = width > 0 && random.one_in(4);
    if is_bad {
        let any = random.next_u32() as u16 | 4096;
        pixels[random.below(width)] = random.pick(&[u16::MAX, 4096, 32_768, 32_767, any]);
    }
    let mut bytes: Vec<u8> = pixels.iter().flat_map(|pixel| pixel.to_be_bytes()).collect();
    let is_cut = width > 0 && random.one_in(4);
    if is_cut {
        let any = random.below(bytes.len());
        bytes.truncate(random.pick(&[any, bytes.len() - 1]));
    } else if random.one_in(2) {
        let more = random.within(1..=9);
        bytes.extend(random.bytes(more));
    }
    Image { bytes, is_cut, is_bad }
}

/// Mostly short, at times one that is short in its low bits only.
fn any_width(random: &mut Random) -> u64 {
    let short = random.within(1..=40) as u64;
    match random.below(40) {
        0 => random.pick(&[LIMIT, LIMIT - 1]),
        1..=2 => 0,
        3..=5 => far(random, LIMIT + 1, short),
        6 => 1,
        _ => short,
    }
}

fn any_row(random: &mut Random) -> u64 {
    let any = random.below(MAX_AXIS) as u64;
    match random.below(10) {
        0 => far(random, LIMIT, any),
        1 => random.pick(&[0, LIMIT - 1]),
        _ => any,
    }
}

/// Too large, mostly right in its low 12, 16, 31, 32 or 63 bits; `least` is
/// the first that is.
fn far(random: &mut Random, least: u64, low: u64) -> u64 {
    let any = random.next_u64().max(least);
    let bit = 1 << random.pick(&[13, 16, 31, 32, 62, 63]);
    random.pick(&[least, bit, bit + 1, bit | low, u64::MAX, any])
}
