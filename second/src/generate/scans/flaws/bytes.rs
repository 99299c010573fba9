//! Changes whose outcome nobody foresees.

use super::super::cards::other_cards;
use super::super::{Scan, FIRST};
use super::Change;
use crate::fits::CARD_BYTES;
use crate::generate::mutations::mutate;
use crate::random::Random;

/// Characters that a header's reader may take for others.
const TELLING: &[u8] = b" 0123456789+-TF=./'ENDBZOSCAL\0\t\xA0\xFF";
/// The columns of the first cards that are looked at.
const COLUMNS: usize = 30;

pub fn change(random: &mut Random, scan: &mut Scan, change: Change) -> Vec<u8> {
    match change {
        Change::CharacterChanged => {
            for _ in 0..random.pick(&[1, 1, 1, 2, 3]) {
                change_character(random, scan);
            }
            scan.bytes()
        }
        Change::CardsMixed => {
            let place = random.below(scan.cards.len());
            let other = random.below(scan.cards.len());
            match random.below(3) {
                0 => scan.cards.swap(place, other),
                1 => scan.cards[place] = scan.cards[other],
                _ => random.shuffle(&mut scan.cards),
            }
            scan.bytes()
        }
        Change::BitsFlipped => {
            let mut bytes = scan.bytes();
            let other = other_cards(random, 2).concat();
            mutate(random, &mut bytes, &other);
            bytes
        }
        _ => {
            let count = random.below(10 * CARD_BYTES);
            random.bytes(count)
        }
    }
}

/// Mostly in the first cards, where a number stands.
fn change_character(random: &mut Random, scan: &mut Scan) {
    let (first, any) = (random.below(FIRST), random.below(scan.cards.len()));
    let place = random.pick(&[first, first, any]);
    let (right, column) = (random.within(26..=29), random.below(COLUMNS));
    let column = random.pick(&[right, column]);
    scan.cards[place][column] = random.pick(TELLING);
}
