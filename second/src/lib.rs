//! A second program for the truncated Huffman first-difference code, for
//! pressure mat maps, for a shelf of tables, for rows of DELTA arrays and for
//! pictures of sheets, written from the papers alone and compared with the proved
//! library and the proved programs.
//!
//! The programs link `libtahliruz.a` from the folder that `TAHLIRUZ_LIB_DIR`
//! names when they are built: by default its table check, with the feature
//! `rows` packing, unpacking, the room question and the item reader too, with
//! `sheets` also adaptive numbers, records, FITS images, maps, the shelf and rows
//! of DELTA arrays.
//! With `--no-default-features` nothing is linked and the tests run alone.
//!
//! `compare_tables`, `compare_rows`, `compare_sheets`, `compare_fits`,
//! `compare_maps`, `compare_shelves` and `compare_deltas` compare with it a given
//! number of random inputs, `fuzz` changed ones for a given time, and `bench`
//! times.
//! `compare_listers` runs the two listing programs, `compare_converter` the one
//! that turns scans into sheets, `compare_desk` those that draw sheets and turn
//! them into pictures, text and back; `desk` stands in for these where they are
//! timed. Each that compares exits with 1 at the first difference and saves the
//! case.

pub mod adaptive;
pub mod agreement;
pub mod answers;
pub mod calls;
pub mod child;
pub mod command;
#[cfg(feature = "rows")]
pub mod compared;
pub mod conversion;
pub mod delta;
pub mod departures;
pub mod desk;
#[cfg(feature = "check")]
pub mod ffi;
pub mod fits;
pub mod former;
pub mod generate;
pub mod items;
pub mod known;
pub mod listing;
pub mod map;
pub mod memory;
pub mod opened;
pub mod pgm;
pub mod picture;
pub mod png;
pub mod random;
pub mod reader;
pub mod refusal;
pub mod row;
pub mod sheet;
pub mod shelf;
pub mod stored;
pub mod table;
pub mod tally;
