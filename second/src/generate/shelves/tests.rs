use super::fills::{any_shelf, fill_places};
use super::spoils::{spoil, Spoil::*, SPOILS};
use super::*;
use crate::known::plain_table;
use crate::shelf::{self, bytes_of};
use crate::table::Table;

fn answered(request: &Request, shelf: &mut [u8]) -> u32 {
    let Request { party, place, n, room, .. } = *request;
    let shelf = &mut shelf[..request.length];
    let inputs: Vec<&[u8]> = request.inputs.iter().map(|input| &input[..]).collect();
    let mut lent = vec![0; room];
    match request.kind {
        Open => shelf::open([0, 1, 2, 3].map(|index| inputs[index]), shelf).number,
        Put => shelf::put(shelf, party, inputs[0]).number,
        Remove => shelf::remove(shelf, party, place).number,
        Pack => shelf::pack(shelf, party, place, inputs[0], &mut lent).number,
        Unpack => shelf::unpack(shelf, party, place, inputs[0], n, &mut lent).number,
        Room => shelf::room(shelf, party, place, n).number,
    }
}

/// Every number of every call arises in few scripts.
#[test]
fn requests_reach_every_number() {
    let (mut random, mut reached) = (Random::new(70), [[0; 25]; 6]);
    for _ in 0..150 {
        let stock = Stock::new(&mut random, 1000);
        let mut shelf = any_shelf(&mut random);
        fill_places(&mut random, &stock, shelf.bytes_mut());
        for _ in 0..40 {
            let request = any_request(&mut random, &stock, shelf.bytes());
            let number = answered(&request, shelf.bytes_mut());
            reached[request.kind as usize][number as usize] += 1;
        }
    }
    let numbers: [(Kind, &[usize]); 6] = [
        (Open, &[0, 1, 2, 3, 5]),
        (Put, &[0, 1, 2, 3, 5, 22, 24]),
        (Remove, &[0, 5, 23, 24]),
        (Pack, &[0, 1, 2, 3, 4, 5, 11, 23, 24]),
        (Unpack, &[0, 1, 2, 3, 5, 6, 7, 8, 9, 10, 11, 23, 24]),
        (Room, &[0, 1, 2, 3, 5, 11, 23, 24]),
    ];
    for (kind, numbers) in numbers {
        let counts = reached[kind as usize];
        assert!(numbers.iter().all(|&number| counts[number] > 0), "{kind:?} {counts:?}");
    }
}

#[test]
fn refused_openings_are_refused() {
    let mut random = Random::new(71);
    let stock = Stock::new(&mut random, 1000);
    let (mut shelf, mut reached) = (vec![7; SHELF_BYTES + 3], [false; 6]);
    for _ in 0..100 {
        let request = refused_opening(&mut random, &stock, &shelf);
        reached[answered(&request, &mut shelf) as usize] = true;
    }
    assert!(!reached[0] && reached[1] && reached[5]);
    assert!(shelf.iter().all(|&byte| byte == 7));
}

/// What each change makes of a plain table.
#[test]
fn spoils_do_what_they_say() {
    let (mut random, mut shelf) = (Random::new(72), vec![0; SHELF_BYTES]);
    let number =
        |shelf: &[u8]| table_used(shelf, 1, 9).and_then(Table::parse).map_or_else(|n| n, |_| 0);
    for (index, kind) in SPOILS.into_iter().enumerate() {
        assert_eq!(index, kind as usize);
        let mut numbers = [0; 24];
        for _ in 0..100 {
            shelf.fill(0);
            shelf[bytes_of(9)][..plain_table().len()].copy_from_slice(&plain_table());
            let patch = spoil(&mut random, &shelf, 9, kind);
            patch.apply(&mut shelf);
            assert!(shelf[..bytes_of(9).start].iter().all(|&byte| byte == 0));
            assert!(shelf[bytes_of(9).end..].iter().all(|&byte| byte == 0));
            numbers[number(&shelf) as usize] += 1;
        }
        let only = |n: usize| assert_eq!(numbers[n], 100, "{kind:?} {numbers:?}");
        match kind {
            SizeZero => only(23),
            SizeTooLarge => only(1),
            After => only(0),
            StringTwice => assert!(numbers[3] > 80, "{numbers:?}"),
            WordGone => assert!(numbers[2] > 80, "{numbers:?}"),
            SizeOther => assert!(numbers[0] > 0 && numbers[1] > 0 && numbers[2] > 0, "{numbers:?}"),
            Bit | Whole => assert!(numbers[1..].iter().sum::<u32>() > 50, "{numbers:?}"),
        }
    }
}

#[test]
fn full_tables_fill_their_place() {
    let mut random = Random::new(73);
    let stock = Stock::new(&mut random, 1);
    let longest = (0..200).map(|_| stock.good(&mut random).len()).max();
    assert_eq!(longest, Some(4 * 8193));
}
