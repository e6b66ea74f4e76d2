//! Passes with a safe iterator.

use super::*;

#[test]
fn safe_iterators_are_counted() {
    with_store(|store| {
        let before = store.state;
        assert_eq!(store.end_safe(), Err(Error::NoSafeIterator));
        for count in 1..=MOST_SAFE_ITERATORS {
            assert_eq!(store.begin_safe(), Ok(()));
            let counted = State {
                safe_iterators: count,
                ..before
            };
            assert_eq!(store.state, counted);
        }
        assert_eq!(store.begin_safe(), Err(Error::TooManySafeIterators));
        for _ in 0..MOST_SAFE_ITERATORS {
            assert_eq!(store.end_safe(), Ok(()));
        }
        assert_eq!(store.state, before);
    });
}

/// The specification's case: a move from size 2 to 4, with key 2 in the old table's
/// bucket 0 and key 4 in the new table's.
#[test]
fn places_are_the_old_tables_buckets_and_then_the_new_ones() {
    let (mut first, mut second, mut entries) = ([7; 2], [7; 4], [7; 6]);
    let mut store = Store::new(&mut first, &mut second, &mut entries);
    assert_eq!(store.init(2, 2), Ok(()));
    assert_eq!(store.add(2, 20), Ok(()));
    assert_eq!(store.resize(4), Ok(()));
    put(&mut store, 4, 40);
    for (place, next, pairs) in [
        (0, 1, &[2, 20][..]),
        (1, 3, &[4, 40]),
        (2, 3, &[4, 40]),
        (3, 6, &[]),
        (6, 6, &[]),
        (u32::MAX, 6, &[]),
    ] {
        let mut list = [7; 2];
        let count = pairs.len() as u32 / 2;
        let answer = Scanned { next, count };
        assert_eq!(store.iterate(place, &mut list), Ok(answer), "{place}");
        assert_eq!(list[..pairs.len()], *pairs);
        let with_no_room = store.iterate(place, &mut []);
        match count {
            0 => assert_eq!(with_no_room, Ok(answer)),
            _ => assert_eq!(with_no_room, Err(ScanError::Short(1))),
        }
    }
    // Bucket 0 at size 2, but 2 at size 4. Damage comes before a short list.
    set_key(&mut store, 2, 6);
    assert_eq!(store.iterate(1, &mut []), DAMAGED);
    let answer = Scanned { next: 1, count: 1 };
    assert_eq!(store.iterate(0, &mut [0; 2]), Ok(answer));
}

/// No other chain is read, and a filled bucket of a table that is said to be empty
/// is damage.
#[test]
fn a_pass_call_reads_one_chain() {
    with_store(|store| {
        assert_eq!(store.add(3, 30), Ok(()));
        store.entries[0] = 9;
        assert_eq!(store.iterate(0, &mut [0; 8]), DAMAGED);
        let answer = Scanned { next: 4, count: 1 };
        assert_eq!(store.iterate(2, &mut [0; 8]), Ok(answer));
        store.state.old_used = 0;
        assert_eq!(store.iterate(2, &mut [0; 8]), DAMAGED);
    });
}

/// A pass over a store of 200 keys in 64 buckets, in the middle of which a move
/// begins. Adds and deletes come between its calls and move nothing.
#[test]
fn a_pass_hands_out_each_key_once() {
    let (mut first, mut second) = (vec![7; 64], vec![7; 1024]);
    let mut entries = vec![7; 1200];
    let mut store = Store::new(&mut first, &mut second, &mut entries);
    assert_eq!(store.init(400, 64), Ok(()));
    store.state.resize_allowed = false;
    for value in 0..200 {
        assert_eq!(store.add(scattered(value), value), Ok(()));
    }
    assert_eq!(store.begin_safe(), Ok(()));
    let (mut list, mut handed, mut place, mut calls) = ([0; 800], Vec::new(), 0, 0);
    loop {
        let Ok(Scanned { next, count }) = store.iterate(place, &mut list) else {
            panic!("a pass call is answered");
        };
        handed.extend(list[..count as usize * 2].chunks(2).map(|pair| pair[1]));
        place = next;
        calls += 1;
        if count == 0 {
            break;
        }
        if calls == 20 {
            assert_eq!(store.resize(1024), Ok(()));
        }
        // Those above 300 come and go.
        let coming = 300 + calls;
        assert_eq!(store.add(scattered(coming), coming), Ok(()));
        if calls % 2 == 0 {
            assert_eq!(store.delete(scattered(coming)), Ok(()));
        }
        assert_eq!(store.state.rehash_index, 0);
    }
    assert_eq!(place, 64 + 1024);
    assert_eq!(store.end_safe(), Ok(()));
    handed.sort();
    let throughout: Vec<u32> = handed.iter().copied().filter(|&n| n < 300).collect();
    assert_eq!(throughout, (0..200).collect::<Vec<u32>>());
    handed.dedup();
    assert!(handed.len() > 200);
}
