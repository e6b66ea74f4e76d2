//! The store answers as a plain map, over random calls.

use std::collections::BTreeMap;

use crate::changes::{Change, Pair, Random};
use suspects::{Cell, Error, Store};

/// Everything that the store answers is compared with the map: each change, a find behind it, and
/// now and then all that the store holds.
#[test]
fn random_changes() {
    let mut grown = 0;
    let mut moved = 0;
    let mut refused = BTreeMap::new();
    for (seed, capacity) in [1, 2, 7, 30, 200, 1000, 4096].into_iter().enumerate() {
        let mut random = Random::new(seed as u64);
        let keys = capacity + capacity / 8 + 1;
        let mut pair = Pair::new(capacity, 1 << random.below(4));
        let changes = 1000 + 2 * capacity;
        for number in 0..changes {
            let change = Change::any(&mut random, 8, keys);
            let moving = pair.store.is_rehashing();
            match pair.change(change) {
                Err(error) => *refused.entry(error.number()).or_insert(0) += 1,
                Ok(()) if matches!(change, Change::Add(..)) => {
                    grown += u32::from(!moving && pair.store.is_rehashing());
                    moved += u32::from(moving && !pair.store.is_rehashing());
                }
                Ok(()) => {}
            }
            let cell = Cell::from(random.below(keys));
            let held = pair.map.get(&cell).copied();
            assert_eq!(pair.store.find(cell), held.ok_or(Error::Absent));
            assert_eq!(pair.store.is_empty(), pair.map.is_empty());
            if number % 500 == 0 || number == changes - 1 {
                expect_all(&pair);
            }
        }
    }
    assert!(grown > 20 && moved > 20, "{grown} growths, {moved} moves ended by adds");
    for error in [
        Error::Absent,
        Error::Present,
        Error::Full,
        Error::BadSize,
        Error::Moving,
        Error::NotMoving,
    ] {
        assert!(refused[&error.number()] > 20, "{error}");
    }
}

/// What the store hands out is what the map has, each cell once, and the suggested sizes go by how
/// many these are.
fn expect_all(pair: &Pair) {
    // One more than there ought to be would show.
    let suspects = pair.store.walk().take(pair.map.len() + 1);
    let mut suspects = suspects.collect::<Result<Vec<_>, _>>().unwrap();
    suspects.sort();
    assert!(suspects.into_iter().eq(pair.map.clone()));
    let held = pair.map.len() as u32;
    let suggested = |keys: u32| keys.next_power_of_two().max(4);
    assert_eq!(pair.store.suggested_size(true), Ok(suggested(2 * held)));
    assert_eq!(pair.store.suggested_size(false), Ok(suggested(held)));
}

/// Every growth begins at as many keys as buckets, and ends with all keys in the new table, up to
/// the largest table that there is.
#[test]
fn a_store_grows_from_one_bucket_to_the_largest_table() {
    let mut store = Store::new(Store::MAX_CAPACITY, 1).unwrap();
    let mut sizes = vec![store.size()];
    for key in 0..Store::MAX_CAPACITY {
        let rested = store.new_size().is_none();
        store.add(key, !key).unwrap();
        if let Some(size) = store.new_size().filter(|_| rested) {
            assert!(store.len() >= store.size());
            sizes.push(size);
            while store.rehash_step().unwrap().moving {}
            assert_eq!((store.size(), store.is_rehashing()), (size, false));
        }
    }
    assert!(sizes.is_sorted_by(|a, b| a < b), "{sizes:?}");
    assert_eq!(sizes.last(), Some(&Store::MAX_SIZE));
    assert_eq!(store.add(Store::MAX_CAPACITY, 0), Err(Error::Full));
    for key in 0..Store::MAX_CAPACITY {
        assert_eq!(store.find(key), Ok(!key));
    }
    store.resize(1).unwrap();
    let mut moved = 0;
    loop {
        let step = store.rehash_step().unwrap();
        moved += step.moved;
        if !step.moving {
            break;
        }
    }
    assert_eq!((moved, store.len(), store.size()), (Store::MAX_CAPACITY, Store::MAX_CAPACITY, 1));
}

#[test]
fn a_table_that_may_not_grow_waits_for_five_keys_to_a_bucket() {
    let mut store = Store::new(100, 4).unwrap();
    store.allow_resize(false).unwrap();
    for key in 0..5 * store.size() {
        store.add(key, 1).unwrap();
        assert!(!store.is_rehashing());
    }
    store.add(5 * store.size(), 1).unwrap();
    assert_eq!(store.new_size(), Some(store.suggested_size(true).unwrap()));
}

#[test]
fn cells_are_keys() {
    for (cell, key) in [
        (Cell::new(0, 0), 0),
        (Cell::new(0, u16::MAX), 65_535),
        (Cell::new(1, 0), 65_536),
        (Cell::new(1, 7), 65_543),
        (Cell::new(u16::MAX, u16::MAX), u32::MAX),
    ] {
        assert_eq!((Cell::from(key), u32::from(cell)), (cell, key));
        let mut store = Store::new(1, 1).unwrap();
        store.add(cell, key).unwrap();
        assert_eq!(store.find(key), Ok(key));
        assert_eq!(store.walk().next(), Some(Ok((cell, key))));
    }
    let mut random = Random::new(1);
    for _ in 0..1000 {
        let (one, other) = (random.next() as u32, random.next() as u32);
        assert_eq!(Cell::from(one).key(), one);
        assert_eq!(Cell::from(one).cmp(&Cell::from(other)), one.cmp(&other));
    }
}

/// Calls that only read may run at the same time, each with an answer of its own.
#[test]
fn many_threads_read_one_store() {
    let mut pair = Pair::new(500, 4);
    let mut random = Random::new(2);
    for _ in 0..500 {
        let _ = pair.change(Change::any(&mut random, 20, 1000));
    }
    assert!(pair.map.len() > 100);
    std::thread::scope(|scope| {
        for _ in 0..4 {
            scope.spawn(|| {
                for (&cell, &fails) in &pair.map {
                    assert_eq!(pair.store.find(cell), Ok(fails));
                }
                expect_all(&pair);
            });
        }
    });
}
