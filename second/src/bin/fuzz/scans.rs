//! FITS headers and rows.

use std::sync::OnceLock;

use crate::rows::count;
use crate::scene::{lent, Scene};
use second::compared::{Outcome, ScanHeader, ScanRow};
use second::fits::{Converter, CARD_BYTES, TABLE_RECORD_BYTES};
use second::generate::mutations::mutate;
use second::generate::scans::flaws::{change, changes};
use second::memory::Given;
use second::random::Random;
use second::tally::Tally;

fn converter() -> &'static Converter {
    static MADE_ONCE: OnceLock<Converter> = OnceLock::new();
    MADE_ONCE.get_or_init(Converter::default)
}

/// A header that is changed as a whole, in its cards, or in both ways.
pub fn header(random: &mut Random, scene: &Scene, tally: &mut Tally) -> Outcome<()> {
    let mut scan = scene.scan.clone();
    let mut bytes = scan.bytes();
    if random.one_in(2) {
        let kind = random.pick(&changes());
        bytes = change(random, &mut scan, kind).0;
    }
    if random.one_in(2) {
        let cards = scene.scan.cards.concat();
        mutate(random, &mut bytes, &cards);
    }
    if random.one_in(4) {
        // A card more or less, so that what follows stays in its columns.
        let place = CARD_BYTES * random.below(bytes.len() / CARD_BYTES + 1);
        let card = scene.scan.cards[random.below(scene.scan.cards.len())];
        let gone = random.pick(&[0, CARD_BYTES]).min(bytes.len() - place);
        bytes.splice(place..place + gone, card);
    }
    let fits = Given::new(random, &bytes);
    let header = ScanHeader { converter: converter(), fits: &fits };
    header.write(tally, &lent(random, TABLE_RECORD_BYTES)).map(|_| ())
}

/// A row with its bytes or some argument changed.
pub fn row(random: &mut Random, scene: &Scene, tally: &mut Tally) -> Outcome<()> {
    let image: Vec<u8> = scene.row.iter().flat_map(|pixel| pixel.to_be_bytes()).collect();
    let image = scene.maybe_changed(random, &image);
    let (mut width, mut row) = (scene.row.len() as u64, random.below(4096) as u64);
    match random.below(8) {
        0 => width = count(random),
        1 => row = count(random),
        // Right in their low 32 bits.
        2 => width |= count(random) << 32,
        3 => row |= count(random) << 32,
        _ => {}
    }
    let fits = Given::new(random, &image);
    let call = ScanRow { converter: converter(), fits: &fits, start: 0, width, row };
    call.write(tally, &lent(random, call.bytes_needed())).map(|_| ())
}
