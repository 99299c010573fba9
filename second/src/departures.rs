//! Where the items of a reading depart from those that packing would write for
//! its pixels: judged item by item, without packing.

use crate::reader::{Codec, Cursor, Item};

#[derive(Clone, Copy, PartialEq, Eq, Debug, Default)]
pub struct Departures {
    /// A raw height that is not the row's first and whose step the table has.
    pub needless_raw: bool,
    /// The row's first height by its step.
    pub first_by_step: bool,
}

impl Departures {
    pub fn any(self) -> bool {
        self.needless_raw || self.first_by_step
    }
}

/// Reads `n` items; None if one of them is refused.
pub fn departures(codec: &Codec, words: &[u8], n: usize) -> Option<Departures> {
    let (mut found, mut cursor) = (Departures::default(), Cursor::new(codec, words));
    for _ in 0..n {
        // None before the row's first height, which becomes previous.
        let previous = cursor.previous;
        let (item, pixel) = cursor.next_item().ok()?;
        match (item, previous) {
            (Item::Difference(_), None) => found.first_by_step = true,
            (Item::Escaped(_), Some(from)) => {
                let step = i32::from(pixel) - from as i32;
                found.needless_raw |= codec.table.entry_of(step).is_some();
            }
            _ => {}
        }
    }
    Some(found)
}

#[cfg(test)]
mod tests {
    use super::*;
    use crate::generate::rows::{pixel_bytes, row};
    use crate::generate::runs::{run, run_words};
    use crate::generate::tables::any_table;
    use crate::known::{plain_table, table_bytes};
    use crate::random::Random;
    use crate::row::pack_under;

    const NONE: Departures = Departures { needless_raw: false, first_by_step: false };
    const NEEDLESS: Departures = Departures { needless_raw: true, ..NONE };
    const BY_STEP: Departures = Departures { first_by_step: true, ..NONE };
    const BOTH: Departures = Departures { needless_raw: true, first_by_step: true };

    #[test]
    fn of_known_words() {
        let codec = Codec::open(&plain_table()).unwrap();
        let of = |words: &[u32], n| departures(&codec, &table_bytes(words), n);
        assert_eq!(of(&[], 0), Some(NONE));
        // Two bad spots.
        assert_eq!(of(&[0b111_011], 2), Some(NONE));
        // 0, 204 4095 and 0 766 0, raw and by a step.
        assert_eq!([of(&[1], 1), of(&[512], 1)], [Some(NONE), Some(BY_STEP)]);
        assert_eq!([of(&[49969], 2), of(&[3992], 2)], [Some(NONE), Some(BY_STEP)]);
        assert_eq!(of(&[50216961, 32], 3), Some(NONE));
        assert_eq!(of(&[3139072, 2], 3), Some(BY_STEP));
        // 0 and then 255 or 256, raw: the table has the first step alone.
        let raw = |height: u32| height << 2 | 1;
        assert_eq!(of(&[1 | raw(255) << 14], 2), Some(NEEDLESS));
        assert_eq!(of(&[1 | raw(256) << 14], 2), Some(NONE));
        assert_eq!(of(&[512 | raw(255) << 10], 2), Some(BOTH));
        // The raw 766 does not become previous: 766 once more is 766 from 0.
        assert_eq!(of(&[1 | raw(766) << 14, raw(766) >> 4 | (raw(766) & 15) << 28], 2), Some(NONE));
        assert_eq!(of(&[], 1), None);
    }

    /// Exactly these keep a run from being what packing writes.
    #[test]
    fn of_runs() {
        let (mut random, mut seen) = (Random::new(13), Vec::new());
        for _ in 0..400 {
            let codec = Codec::open(&any_table(&mut random).bytes()).unwrap();
            let pixels = row(&mut random, &codec.table, 20);
            let words = run_words(&run(&mut random, &codec.table, &pixels, None).bits);
            let found = departures(&codec, &words, 20).unwrap();
            let mut packed = vec![0; 4 * 20];
            let (_, bits) = pack_under(&codec.table, &pixel_bytes(&pixels), &mut packed);
            packed.truncate(4 * bits.div_ceil(32) as usize);
            assert_eq!(packed != words, found.any());
            seen.push(found);
        }
        assert!([NONE, NEEDLESS, BY_STEP, BOTH].iter().all(|case| seen.contains(case)));
    }
}
