//! The structs that the calls for C answer with, field for field.

use crate::sheet::{State, KIND_LINE, KIND_PACKED, KIND_PLAIN};

/// A call's answer; the count is 0 beside a refusal.
#[repr(C)]
#[derive(Clone, Copy, PartialEq, Eq, Debug, Default)]
pub struct Answer {
    pub number: u32,
    pub count: u32,
}

impl Answer {
    pub fn pair(self) -> (u32, u32) {
        (self.number, self.count)
    }
}

/// The same with a count of 64 bits.
#[repr(C)]
#[derive(Clone, Copy, PartialEq, Eq, Debug, Default)]
pub struct LongAnswer {
    pub number: u32,
    pub count: u64,
}

impl LongAnswer {
    pub fn pair(self) -> (u32, u64) {
        (self.number, self.count)
    }
}

/// A row that was unpacked: the bits used. Refused: all 0 but the number, and
/// for 6 to 10 the place.
#[repr(C)]
#[derive(Clone, Copy, PartialEq, Eq, Debug, Default)]
pub struct Unpacked {
    pub number: u32,
    pub count: u32,
    /// 6 to 9: the first bit of the faulty item. 10: the first unused bit.
    /// Counted from bit 0 of the first word.
    pub at: u32,
}

impl Unpacked {
    pub fn done(bits: u32) -> Unpacked {
        Unpacked { count: bits, ..Unpacked::default() }
    }

    /// A refusal without a place.
    pub fn refused(number: u32) -> Unpacked {
        Unpacked { number, ..Unpacked::default() }
    }

    /// A reading that stopped at a bit.
    pub fn stopped(number: u32, at: u32) -> Unpacked {
        Unpacked { number, count: 0, at }
    }
}

/// A place of a shelf that a table was put to or removed from; 0 beside a
/// refusal.
#[repr(C)]
#[derive(Clone, Copy, PartialEq, Eq, Debug, Default)]
pub struct Changed {
    pub number: u32,
    pub place: u32,
}

/// A signed adaptive number and the bytes that it was read from.
#[repr(C)]
#[derive(Clone, Copy, PartialEq, Eq, Debug, Default)]
pub struct Signed {
    pub number: u32,
    pub value: i32,
    pub used: u32,
}

/// An unsigned one.
#[repr(C)]
#[derive(Clone, Copy, PartialEq, Eq, Debug, Default)]
pub struct Unsigned {
    pub number: u32,
    pub value: u32,
    pub used: u32,
}

/// A record that was judged or read. Refused: all 0 but the number, and for 6
/// to 10 the place.
#[repr(C)]
#[derive(Clone, Copy, PartialEq, Eq, Debug, Default)]
pub struct Record {
    pub number: u32,
    pub kind: u32,
    pub row: u32,
    /// Pixels of a row, numbers of a line, words of a table.
    pub count: u32,
    /// Bits and words of a packed row.
    pub bits: u32,
    pub words: u32,
    /// Bytes of the whole record, its length field included.
    pub length: u32,
    pub state: State,
    /// As unpacking has it, counted from the row's first word.
    pub at: u32,
}

impl Record {
    /// The bytes of the content that reading the record gives.
    pub fn content_bytes(&self) -> usize {
        let kind = self.kind as u16;
        match kind {
            KIND_PACKED | KIND_PLAIN => 2 * self.count as usize,
            KIND_LINE => 4 * self.count as usize,
            _ => 0,
        }
    }
}

/// A record that was written: its bytes, and the state after it. Refused: all
/// 0 but the number.
#[repr(C)]
#[derive(Clone, Copy, PartialEq, Eq, Debug, Default)]
pub struct Written {
    pub number: u32,
    pub count: u32,
    pub state: State,
}

/// A FITS header that was read: its axes, the byte where the image begins, and
/// the bytes written. Refused: all 0 but the number.
#[repr(C)]
#[derive(Clone, Copy, PartialEq, Eq, Debug, Default)]
pub struct Image {
    pub number: u32,
    pub width: u32,
    pub rows: u32,
    pub start: u32,
    pub count: u32,
}

/// Where a reader of items stands; the caller keeps it between calls.
#[repr(C)]
#[derive(Clone, Copy, PartialEq, Eq, Debug, Default)]
pub struct ReaderPlace {
    /// The bit place of the next item.
    pub at: u32,
    /// The items given so far.
    pub count: u32,
    /// The previous height, 0 before there is one.
    pub previous: u32,
    /// 0 until some pixel has become previous, then 1.
    pub begun: u32,
}

impl ReaderPlace {
    /// As they stand in memory.
    pub fn bytes(self) -> Vec<u8> {
        [self.at, self.count, self.previous, self.begun].map(u32::to_ne_bytes).concat()
    }
}

/// A reader that was opened: the check's number, and the place of a row's
/// first item.
#[repr(C)]
#[derive(Clone, Copy, PartialEq, Eq, Debug, Default)]
pub struct ReaderOpened {
    pub number: u32,
    pub place: ReaderPlace,
}

impl ReaderOpened {
    /// As they stand in memory.
    pub fn bytes(self) -> Vec<u8> {
        [&self.number.to_ne_bytes()[..], &self.place.bytes()].concat()
    }
}

/// An item that was read. Refused: all 0 but the number, and the place as
/// given.
#[repr(C)]
#[derive(Clone, Copy, PartialEq, Eq, Debug, Default)]
pub struct ItemRead {
    pub number: u32,
    pub kind: u32,
    /// The difference of an item of that kind.
    pub step: i32,
    pub pixel: u32,
    /// After the item.
    pub place: ReaderPlace,
}

impl ItemRead {
    /// As they stand in memory.
    pub fn bytes(self) -> Vec<u8> {
        let fields = [self.number, self.kind, self.step as u32, self.pixel].map(u32::to_ne_bytes);
        [fields.as_flattened(), &self.place.bytes()].concat()
    }
}

#[cfg(test)]
mod tests {
    use super::*;
    use std::mem::{offset_of, size_of};

    #[test]
    fn fields_stand_where_c_has_them() {
        assert_eq!([size_of::<Answer>(), offset_of!(Answer, count)], [8, 4]);
        assert_eq!([size_of::<LongAnswer>(), offset_of!(LongAnswer, count)], [16, 8]);
        assert_eq!([size_of::<Changed>(), offset_of!(Changed, place)], [8, 4]);
        let unpacked =
            [offset_of!(Unpacked, count), offset_of!(Unpacked, at), size_of::<Unpacked>()];
        assert_eq!(unpacked, [4, 8, 12]);
        let signed = [offset_of!(Signed, value), offset_of!(Signed, used), size_of::<Signed>()];
        assert_eq!(signed, [4, 8, 12]);
        let unsigned =
            [offset_of!(Unsigned, value), offset_of!(Unsigned, used), size_of::<Unsigned>()];
        assert_eq!(unsigned, [4, 8, 12]);
        assert_eq!([offset_of!(State, least_row), size_of::<State>()], [4, 8]);
        let written = [offset_of!(Written, count), offset_of!(Written, state)];
        assert_eq!((written, size_of::<Written>()), ([4, 8], 16));
    }

    #[test]
    fn record_fields_in_order() {
        let places = [
            offset_of!(Record, number),
            offset_of!(Record, kind),
            offset_of!(Record, row),
            offset_of!(Record, count),
            offset_of!(Record, bits),
            offset_of!(Record, words),
            offset_of!(Record, length),
            offset_of!(Record, state),
            offset_of!(Record, at),
        ];
        assert_eq!(places, [0, 4, 8, 12, 16, 20, 24, 28, 36]);
        assert_eq!(size_of::<Record>(), 40);
    }

    #[test]
    fn image_fields_in_order() {
        let places = [
            offset_of!(Image, number),
            offset_of!(Image, width),
            offset_of!(Image, rows),
            offset_of!(Image, start),
            offset_of!(Image, count),
        ];
        assert_eq!((places, size_of::<Image>()), ([0, 4, 8, 12, 16], 20));
    }

    #[test]
    fn reader_fields_in_order() {
        let place = [
            offset_of!(ReaderPlace, at),
            offset_of!(ReaderPlace, count),
            offset_of!(ReaderPlace, previous),
            offset_of!(ReaderPlace, begun),
        ];
        assert_eq!((place, size_of::<ReaderPlace>()), ([0, 4, 8, 12], 16));
        let opened = [offset_of!(ReaderOpened, number), offset_of!(ReaderOpened, place)];
        assert_eq!((opened, size_of::<ReaderOpened>()), ([0, 4], 20));
        let item = [
            offset_of!(ItemRead, number),
            offset_of!(ItemRead, kind),
            offset_of!(ItemRead, step),
            offset_of!(ItemRead, pixel),
            offset_of!(ItemRead, place),
        ];
        assert_eq!((item, size_of::<ItemRead>()), ([0, 4, 8, 12, 16], 32));
    }

    #[test]
    fn bytes_of_contents() {
        let bytes = |kind| Record { kind, count: 7, ..Record::default() }.content_bytes();
        assert_eq!([0, 1, 2, 3, 4].map(bytes), [0, 0, 14, 14, 28]);
    }
}
