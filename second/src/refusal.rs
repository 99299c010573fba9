//! The numbers that a call answers with.

pub const DONE: u32 = 0;
/// The table's word count, tableSize or lowLimit is wrong.
pub const TABLE_SHAPE: u32 = 1;
/// A string word is wrong.
pub const STRING_WORD: u32 = 2;
/// A codeword equals or begins another.
pub const PREFIX: u32 = 3;
/// A pixel is below 0 or above 4095.
pub const PIXEL: u32 = 4;
/// The lent room is smaller than the output.
pub const ROOM: u32 = 5;
/// The words end inside an item.
pub const WORDS_END: u32 = 6;
/// The rest begins with no codeword and is no beginning of one.
pub const NO_CODEWORD: u32 = 7;
/// A difference leads outside 0 to 4093.
pub const HEIGHT: u32 = 8;
/// A height after the escape is 4094 or 4095.
pub const ESCAPED_BAD: u32 = 9;
/// An unused bit of the last used word is set.
pub const UNUSED_BIT: u32 = 10;
/// More than 4096 pixels, rows or numbers.
pub const TOO_MANY: u32 = 11;
/// The bytes end inside an adaptive number.
pub const BYTES_END: u32 = 12;
/// An adaptive number asks for a sixth byte or is outside its range.
pub const NUMBER_RANGE: u32 = 13;
/// A record's length, fixed fields, word alignment or leftover is wrong, or a
/// map's group size or number of counts, or the bits of a DELTA array's elements.
pub const RECORD: u32 = 14;
/// The record's kind is unknown.
pub const KIND: u32 = 15;
/// No table first, a second table, or a row number not risen.
pub const PLACE: u32 = 16;
/// The FITS header is not of two axes of unscaled 16-bit pixels, or it has no
/// END in ten blocks.
pub const FITS_HEADER: u32 = 17;
/// The PGM header is not of two axes of samples up to 4095, or it has no end in
/// 65536 bytes.
pub const PGM_HEADER: u32 = 17;
/// The image's bytes end before the row does.
pub const IMAGE_END: u32 = 18;
/// The bits end before a map does.
pub const MAP_END: u32 = 19;
/// A map's 16-bit pixel is not above 17, or a group of code 000 has fewer than
/// three photons.
pub const MAP_PIXEL: u32 = 20;
/// The photons of a map are not as many as the total says.
pub const MAP_TOTAL: u32 = 21;
/// All four places of the party are taken.
pub const SHELF_FULL: u32 = 22;
/// The place of the shelf is free.
pub const NO_TABLE: u32 = 23;
/// Not this party's place, a common one to be removed, or an unknown party or
/// place.
pub const NOT_ITS_PLACE: u32 = 24;
/// A place or run of a DELTA array's row leaves its array or row.
pub const DELTA_PLACE: u32 = 25;
/// A count of such a row is below 1.
pub const DELTA_COUNT: u32 = 26;
/// The data element that starts the row is no flag.
pub const DELTA_START: u32 = 27;
/// A sum leaves 32 bits.
pub const DELTA_SUM: u32 = 28;

/// Whether a refusal says where the reading of a row stopped.
pub fn has_place(number: u32) -> bool {
    (WORDS_END..=UNUSED_BIT).contains(&number)
}
