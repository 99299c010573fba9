//! Pressure mat maps: 128 x 128 counts of photons, row by row, in groups of 4
//! or 16 consecutive pixels. Each group has one of four codes: 1 for no photon,
//! 01 and a position for one, 001 and two positions for two, 000 and all its
//! pixels for more.

mod bits;

#[cfg(test)]
mod tests;

use crate::refusal::{MAP_PIXEL, MAP_TOTAL, RECORD};
use bits::{BitReader, BitWriter};

/// The counts of a map.
pub const COUNTS: usize = 128 * 128;
/// The sizes that a group may have.
pub const GROUPS: [u32; 2] = [4, 16];

/// As many photons, or more, take code 000.
const MANY: u32 = 3;
/// A pixel of code 000 has two bits if it is below this one.
const ABOVE_TWO_BITS: u32 = 3;
/// Else two ones, and four bits that count on from there if it is below this.
const ABOVE_FOUR_BITS: u32 = 18;
/// Else four ones too, and then all of it.
const FOUR_ONES: u32 = 15;
/// The most bits that a pixel takes.
const MOST_PIXEL_BITS: usize = 2 + 4 + 16;

/// A map that was read.
pub struct Map {
    pub counts: Vec<u16>,
    /// Their sum.
    pub photons: u64,
    /// The bits that it was read from.
    pub bits: u32,
}

/// The bits of a position in a group, or the refusal of a group size.
pub fn position_bits(group: u32) -> Result<u32, u32> {
    if GROUPS.contains(&group) {
        Ok(group.ilog2())
    } else {
        Err(RECORD)
    }
}

/// Reads the map at the front of some bytes, which must have so many photons.
pub fn read_map(group: u32, bytes: &[u8], total: u64) -> Result<Map, u32> {
    let map = read_any_total(group, bytes)?;
    if map.photons == total {
        Ok(map)
    } else {
        Err(MAP_TOTAL)
    }
}

/// The same where the total is not known.
pub fn read_any_total(group: u32, bytes: &[u8]) -> Result<Map, u32> {
    let position_bits = position_bits(group)?;
    let mut reader = BitReader::new(bytes);
    let mut counts = vec![0; COUNTS];
    let mut photons = 0;
    for pixels in counts.chunks_exact_mut(group as usize) {
        photons += u64::from(read_group(&mut reader, position_bits, pixels)?);
    }
    Ok(Map { counts, photons, bits: reader.used() })
}

/// Reads a group into pixels that are 0; gives its photons.
fn read_group(reader: &mut BitReader, position_bits: u32, pixels: &mut [u16]) -> Result<u32, u32> {
    // In the first three codes the zeros are as many as the photons.
    let photons = reader.zeros(MANY)?;
    if photons == MANY {
        return read_pixels(reader, pixels);
    }
    for _ in 0..photons {
        pixels[reader.take(position_bits)? as usize] += 1;
    }
    Ok(photons)
}

fn read_pixels(reader: &mut BitReader, pixels: &mut [u16]) -> Result<u32, u32> {
    let mut photons = 0;
    for pixel in pixels {
        let read = read_pixel(reader)?;
        *pixel = read as u16;
        photons += read;
    }
    if photons >= MANY {
        Ok(photons)
    } else {
        Err(MAP_PIXEL)
    }
}

fn read_pixel(reader: &mut BitReader) -> Result<u32, u32> {
    let two = reader.take(2)?;
    if two < ABOVE_TWO_BITS {
        return Ok(two);
    }
    let four = reader.take(4)?;
    if four < FOUR_ONES {
        return Ok(ABOVE_TWO_BITS + four);
    }
    let whole = reader.take(16)?;
    if whole >= ABOVE_FOUR_BITS {
        Ok(whole)
    } else {
        Err(MAP_PIXEL)
    }
}

/// The bytes of a map, each group in the first code that fits.
pub fn write_map(group: u32, counts: &[u16]) -> Result<Vec<u8>, u32> {
    let position_bits = position_bits(group)?;
    if counts.len() != COUNTS {
        return Err(RECORD);
    }
    let mut writer = BitWriter::new(most_bytes(group));
    for pixels in counts.chunks_exact(group as usize) {
        write_group(&mut writer, position_bits, pixels);
    }
    Ok(writer.finish())
}

/// The bytes that no map of this group size exceeds.
pub fn most_bytes(group: u32) -> usize {
    let codes = 3 * COUNTS / group as usize;
    (codes + MOST_PIXEL_BITS * COUNTS) / 8
}

fn write_group(writer: &mut BitWriter, position_bits: u32, pixels: &[u16]) {
    let photons: u32 = pixels.iter().map(|&pixel| u32::from(pixel)).sum();
    if photons >= MANY {
        writer.put(0, MANY);
        pixels.iter().for_each(|&pixel| write_pixel(writer, pixel.into()));
        return;
    }
    writer.put(1, photons + 1);
    if photons > 0 {
        for (position, &pixel) in (0..).zip(pixels) {
            (0..pixel).for_each(|_| writer.put(position, position_bits));
        }
    }
}

fn write_pixel(writer: &mut BitWriter, pixel: u32) {
    if pixel < ABOVE_TWO_BITS {
        writer.put(pixel, 2);
    } else if pixel < ABOVE_FOUR_BITS {
        writer.put(0b11 << 4 | (pixel - ABOVE_TWO_BITS), 2 + 4);
    } else {
        writer.put(0b11_1111 << 16 | pixel, 2 + 4 + 16);
    }
}
