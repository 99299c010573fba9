use super::*;

#[test]
fn given_is_what_was_given() {
    let mut random = Random::new(20);
    let (mut on_heap, mut in_pages) = (0, 0);
    for length in [0, 1, 7, 300].repeat(20) {
        let bytes = random.bytes(length);
        let mut given = Given::new(&mut random, &bytes);
        assert_eq!((given.bytes(), given.original()), (&bytes[..], &bytes[..]));
        assert!(given.is_untouched());
        let end = given.bytes().as_ptr_range().end;
        match &mut given.whole {
            Whole::Heap(whole) => {
                on_heap += 1;
                assert_eq!(end, whole.as_ptr_range().end);
                if let Some(byte) = whole.last_mut() {
                    *byte ^= 1;
                    assert!(!given.is_untouched());
                    assert_eq!(given.original(), bytes);
                }
            }
            Whole::Pages(block) => {
                in_pages += 1;
                let edge = match block.edge() {
                    Edge::Start => given.bytes().as_ptr(),
                    Edge::End => end,
                };
                assert_eq!(edge as usize % 4096, 0);
            }
        }
    }
    assert!(on_heap > 0 && in_pages > 0);
}

#[test]
fn guards_are_compared() {
    let mut random = Random::new(21);
    let before = Lent::standing(&mut random, 20, 5, 0);
    for (changed, counted, same) in [(20, 1, true), (21, 1, false), (19, 5, false), (25, 5, false)]
    {
        let mut after = before.clone();
        after.whole.bytes_mut()[changed] ^= 1;
        assert_eq!(after.same_after(&before, counted), same);
        assert!(after != before);
    }
    assert!(Lent::nothing().same_after(&Lent::nothing(), 0));
}

#[test]
fn each_stand_of_lent_memory() {
    let mut random = Random::new(22);
    let lent = [0, 1, 2, 3].map(|stand| Lent::standing(&mut random, 16, 40, stand));
    let sides = lent.each_ref().map(|lent| (lent.lent.start, lent.whole.bytes().len()));
    assert_eq!(sides, [(16, 72), (16, 56), (16, 56), (0, 56)]);
    for lent in &lent {
        let copy = lent.clone();
        assert!(copy == *lent && copy.bytes().as_ptr() != lent.bytes().as_ptr());
        assert_eq!(copy.bytes().as_ptr() as usize % 8, 0);
    }
    assert_eq!(lent[2].clone().bytes().as_ptr_range().end as usize % 4096, 0);
    assert_eq!(lent[3].clone().bytes().as_ptr() as usize % 4096, 0);
}

#[test]
fn all_stands_are_drawn() {
    let mut random = Random::new(23);
    let mut seen = [false; 4];
    for _ in 0..100 {
        let lent = Lent::new(&mut random, 9);
        let after = lent.whole.bytes().len() - lent.lent.end;
        seen[match (&lent.whole, after) {
            (Whole::Heap(_), 0) => 1,
            (Whole::Heap(_), _) => 0,
            (Whole::Pages(_), 0) => 2,
            (Whole::Pages(_), _) => 3,
        }] = true;
    }
    assert_eq!(seen, [true; 4]);
}
