//! The first height of a packed row, which is raw: document 02, ticket 5.

use crate::packing::Packed;
use crate::seen::{Case, Seen};
use crate::trial::Trial;
use second::answers::{ItemRead, ReaderPlace};
use second::compared::Items;
use second::ffi;
use second::items::KIND_RAW;
use second::random::Random;
use second::reader::{Cursor, Item};
use second::refusal::DONE;
use second::row::BIAS_SPOT;
use second::table::HEIGHT_BITS;

/// Reads the words up to the first height, and that by either reader of items.
pub fn check(
    random: &mut Random,
    trial: &Trial,
    packed: Packed,
    seen: &mut Seen,
) -> Result<(), String> {
    let Some(index) = packed.pixels.iter().position(|&pixel| pixel < BIAS_SPOT) else {
        if !packed.pixels.is_empty() {
            seen.add(Case::OnlySpots);
        }
        return Ok(());
    };
    let codec = trial.codec().expect("a row was packed under the table");
    let mut cursor = Cursor::new(codec, packed.words);
    for _ in 0..index {
        cursor.next_item().map_err(|number| format!("pack: {number} before the first height"))?;
    }
    let (height, at) = (packed.pixels[index], cursor.place as u32);
    let item = cursor.next_item();
    if item != Ok((Item::Escaped(height), height)) {
        return Err(format!("pack: the first height {height} is {item:?}"));
    }
    let place = ReaderPlace { at, count: index as u32, previous: 0, begun: 0 };
    let bits = codec.table.escape().length + HEIGHT_BITS;
    check_library(random, trial, packed.words, place, raw(height, place, bits))?;
    seen.add(if index == 0 { Case::FirstPixel } else { Case::AfterSpots });
    Ok(())
}

/// A raw height of so many bits, the first of its row, at this place.
fn raw(height: u16, place: ReaderPlace, bits: u32) -> ItemRead {
    let pixel = u32::from(height);
    let after =
        ReaderPlace { at: place.at + bits, count: place.count + 1, previous: pixel, begun: 1 };
    ItemRead { number: DONE, kind: KIND_RAW, step: 0, pixel, place: after }
}

fn check_library(
    random: &mut Random,
    trial: &Trial,
    words: &[u8],
    place: ReaderPlace,
    wanted: ItemRead,
) -> Result<(), String> {
    let mut memory = Items::lent(random);
    let item = ffi::next_item(trial.table(), words, place, memory.bytes_mut());
    if item == wanted {
        return Ok(());
    }
    Err(format!("pack: the first height is read as {item:?} by the library, wanted {wanted:?}"))
}
