//! The cards after the first five: scaling, and where END comes.

use super::super::cards::{blank_cards, card, end, near_scaling, other_cards, scaling, NEAR_ENDS};
use super::super::{Scan, BLOCK_CARDS, MOST_CARDS};
use super::{done, refused, Change};
use crate::conversion::Verdict;
use crate::random::Random;
use crate::refusal::FITS_HEADER;

pub fn change(random: &mut Random, scan: &mut Scan, change: Change) -> Verdict {
    match change {
        Change::Scaled | Change::ScaledNearly => {
            let near = change == Change::ScaledNearly;
            let card = if near { near_scaling(random) } else { scaling(random) };
            scan.put(random, card);
        }
        Change::ScaledAfterEnd => {
            let place = random.below(BLOCK_CARDS - 1);
            scan.fill[place] = scaling(random);
            scan.fill[0] = scaling(random);
        }
        Change::EndTwice => {
            scan.fill[0] = end(random);
            scan.fill[1] = scaling(random);
        }
        Change::EndLast => end_at(random, scan, MOST_CARDS - 1),
        Change::EndLate => {
            let late = random.within(MOST_CARDS..=MOST_CARDS + BLOCK_CARDS);
            let place = random.pick(&[MOST_CARDS, MOST_CARDS + BLOCK_CARDS - 1, late]);
            end_at(random, scan, place);
        }
        _ => {
            // Nothing after it may be taken for END.
            let end = scan.cards.last_mut().expect("END's card");
            *end = card(random.pick(&NEAR_ENDS));
            scan.fill = blank_cards(BLOCK_CARDS - 1);
        }
    }
    match change {
        Change::Scaled | Change::EndLate | Change::EndNearly => refused(FITS_HEADER),
        _ => done(scan),
    }
}

/// Makes END's card the one at this place, counted from 0.
fn end_at(random: &mut Random, scan: &mut Scan, place: usize) {
    let end = scan.cards.pop().expect("END's card");
    let more = place.saturating_sub(scan.cards.len());
    scan.cards.extend(other_cards(random, more));
    scan.cards.truncate(place);
    scan.cards.push(end);
}
