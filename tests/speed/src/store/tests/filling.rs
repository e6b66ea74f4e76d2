//! Stores that are filled by calls alone.

use super::*;
use std::collections::BTreeMap;

/// 500 adds: half of them to one table, and then a move begins, which adds
/// end. Without permission a table grows above five keys for each bucket, and
/// there is no room for what would be suggested to these.
#[test]
fn a_store_filled_by_adds_is_never_damaged() {
    let key = scattered;
    let sizes = [
        (32, 256),
        (64, 256),
        (128, 256),
        (256, 128),
        (256, 64),
        (256, 1),
    ];
    for (old_size, new_size) in sizes {
        let (mut first, mut second, mut entries) = ([7; 256], [7; 256], [7; 1500]);
        let mut store = Store::new(&mut first, &mut second, &mut entries);
        assert_eq!(store.init(500, old_size), Ok(()));
        store.state.resize_allowed = false;
        let mut held = Vec::new();
        let mut adds_in_move = 0;
        for value in 0..500 {
            if value == 250 {
                assert_eq!(store.resize(new_size), Ok(()));
            }
            adds_in_move += u32::from(store.state.rehashing);
            assert_eq!(store.find(key(value)), Err(Error::Absent));
            assert_eq!(store.add(key(value), value), Ok(()));
            held.push((key(value), value));
            for &(key, value) in &held {
                assert_eq!(store.find(key), Ok(value));
            }
            assert_eq!(walked(&store), held);
            let state = store.state;
            assert_eq!(state.old_used + state.new_used, value + 1);
        }
        assert!((1..=old_size).contains(&adds_in_move));
        let ended = State {
            second_is_current: true,
            old_size: new_size,
            old_used: 500,
            capacity: 500,
            ..State::default()
        };
        assert_eq!(store.state, ended);
        assert_eq!(store.add(key(0), 0), Err(Error::Present));
        assert_eq!(store.add(key(500), 0), Err(Error::Full));
    }
}

/// 300 adds alone, from small tables and from large ones. Whenever there is one
/// table, it has fewer keys than buckets, or there is no room for a larger one.
#[test]
fn a_store_that_grows_is_never_damaged() {
    let key = scattered;
    for (size, room, last) in [
        (1, 1024, (256, 512)),
        (2, 1024, (256, 512)),
        (4, 511, (256, 0)),
        (64, 1024, (256, 512)),
        (256, 256, (256, 0)),
        (512, 512, (512, 0)),
    ] {
        let (mut first, mut second) = (vec![7; room], vec![7; room]);
        let mut entries = [7; 900];
        let mut store = Store::new(&mut first, &mut second, &mut entries);
        assert_eq!(store.init(300, size), Ok(()));
        let mut held = Vec::new();
        for value in 0..300 {
            let before = store.state;
            assert_eq!(store.add(key(value), value), Ok(()));
            held.push((key(value), value));
            for &(key, value) in &held {
                assert_eq!(store.find(key), Ok(value));
            }
            assert_eq!(walked(&store), held);
            let state = store.state;
            let keys = value + 1;
            assert_eq!(state.old_used + state.new_used, keys);
            assert!(state.resize_allowed);
            let doubled = (2 * keys).next_power_of_two().max(4);
            if !state.rehashing {
                assert!(keys < state.old_size || room < doubled as usize);
            } else if !before.rehashing || before.new_size == state.old_size {
                // It has just begun: as many buckets as twice the keys, and
                // all keys in the old table.
                assert!(keys >= state.old_size);
                assert_eq!((state.new_size, state.old_used), (doubled, keys));
            }
        }
        let state = store.state;
        assert_eq!((state.old_size, state.new_size), last, "{size}");
    }
}

/// Calls of all kinds in any order, on few keys, so that each is often held and
/// often not. What they answer is what a plain map answers, and no call finds damage.
#[test]
fn a_store_is_a_map() {
    const KEYS: u32 = 60;
    let (mut first, mut second, mut entries) = ([7; 64], [7; 64], [7; 120]);
    let mut store = Store::new(&mut first, &mut second, &mut entries);
    assert_eq!(store.init(40, 4), Ok(()));
    let mut map: BTreeMap<u32, u32> = BTreeMap::new();
    let mut steps_in = [0; 2];
    for turn in 0..100_000 {
        let [kind, key] = [16, 48].map(|turns| (scattered(turn * turns + 1) >> 7) % 100);
        let (key, before) = (scattered(key % KEYS), store.state);
        let is_held = map.contains_key(&key);
        match kind {
            0..35 => {
                let expected = match (is_held, map.len()) {
                    (true, _) => Err(Error::Present),
                    (false, 40) => Err(Error::Full),
                    (false, _) => Ok(()),
                };
                assert_eq!(store.add(key, turn), expected);
                if expected.is_ok() {
                    map.insert(key, turn);
                }
                steps_in[0] += u32::from(before.rehash_index < store.state.rehash_index);
            }
            35..65 => {
                let expected = map.remove(&key).map(|_| ()).ok_or(Error::Absent);
                assert_eq!(store.delete(key), expected);
                steps_in[1] += u32::from(before.rehash_index < store.state.rehash_index);
            }
            65..75 => {
                let held = map.get_mut(&key).map(|value| *value = turn);
                assert_eq!(store.update(key, turn), held.ok_or(Error::Absent));
            }
            75..85 => {
                let value = map.get(&key).copied().ok_or(Error::Absent);
                assert_eq!(store.find(key), value);
            }
            85..90 => {
                let answer = store.resize(1 << (turn % 7));
                assert_ne!(answer, Err(Error::BadState));
            }
            90..94 => {
                let is_last = before.safe_iterators == 2;
                let answer = if is_last {
                    store.end_safe()
                } else {
                    store.begin_safe()
                };
                assert_eq!(answer, Ok(()));
            }
            94..99 => {
                let none = before.safe_iterators == 0;
                let expected = if none {
                    Err(Error::NoSafeIterator)
                } else {
                    Ok(())
                };
                assert_eq!(store.end_safe(), expected);
            }
            _ => {
                let mut held: Vec<(u32, u32)> = map.clone().into_iter().collect();
                held.sort_by_key(|pair| pair.1);
                assert_eq!(walked(&store), held);
            }
        }
        assert_eq!(
            store.state.old_used + store.state.new_used,
            map.len() as u32
        );
    }
    assert!(steps_in.iter().all(|&steps| steps > 1000), "{steps_in:?}");
}
