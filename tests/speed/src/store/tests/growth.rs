//! The growth behind an add.

use super::*;

/// Runs `test` on a store with `room` numbers in each bucket buffer and the
/// keys from 0 on, added without permission to grow, which is then given or
/// not.
fn with_keys(size: u32, room: usize, keys: u32, allowed: bool, test: impl FnOnce(&mut Store)) {
    let (mut first, mut second) = (vec![7; room], vec![7; room]);
    let mut entries = [7; 300];
    let mut store = Store::new(&mut first, &mut second, &mut entries);
    assert_eq!(store.init(100, size), Ok(()));
    assert!(store.state.resize_allowed);
    store.state.resize_allowed = false;
    for key in 0..keys {
        assert_eq!(store.add(key, key), Ok(()));
    }
    assert!(!store.state.rehashing);
    store.state.resize_allowed = allowed;
    test(&mut store);
}

/// The sizes of both tables behind one more add, the second 0 for none.
fn expect_sizes(size: u32, room: usize, keys: u32, allowed: bool, sizes: (u32, u32)) {
    with_keys(size, room, keys, allowed, |store| {
        let before = store.state;
        assert_eq!(store.add(keys, keys), Ok(()));
        let state = store.state;
        assert_eq!((state.old_size, state.new_size), sizes);
        // Nothing has moved.
        let added = State {
            old_used: keys + 1,
            free_head: keys + 2,
            new_size: sizes.1,
            rehashing: sizes.1 != 0,
            ..before
        };
        assert_eq!(state, added);
        let cleared = sizes.1 as usize;
        assert!(store.second[..cleared].iter().all(|&head| head == 0));
        assert!(store.second[cleared..].iter().all(|&head| head == 7));
    });
}

#[test]
fn a_table_with_a_key_for_each_bucket_grows() {
    expect_sizes(4, 64, 2, true, (4, 0));
    expect_sizes(4, 64, 3, true, (4, 8));
    expect_sizes(16, 64, 15, true, (16, 32));
    // Four buckets at least.
    expect_sizes(1, 64, 0, true, (1, 4));
    expect_sizes(2, 64, 1, true, (2, 4));
    // The size is that for the keys behind the add.
    expect_sizes(2, 64, 2, true, (2, 8));
    expect_sizes(4, 64, 16, true, (4, 64));
}

#[test]
fn without_permission_a_table_grows_above_five_keys_for_each_bucket() {
    expect_sizes(4, 64, 3, false, (4, 0));
    expect_sizes(4, 64, 19, false, (4, 0));
    expect_sizes(4, 64, 20, false, (4, 64));
    expect_sizes(1, 64, 4, false, (1, 0));
    expect_sizes(1, 64, 5, false, (1, 16));
}

#[test]
fn a_table_does_not_grow_into_a_buffer_that_is_too_short() {
    expect_sizes(4, 7, 3, true, (4, 0));
    expect_sizes(4, 8, 3, true, (4, 8));
    expect_sizes(1, 15, 5, false, (1, 0));
    expect_sizes(1, 16, 5, false, (1, 16));
}

#[test]
fn a_table_does_not_grow_above_the_largest() {
    let size = MAX_SIZE as usize;
    let (mut first, mut second) = (vec![7; size], vec![7; 2 * size]);
    let mut entries = vec![7; size * FIELDS];
    let mut store = Store::new(&mut first, &mut second, &mut entries);
    for (old, new) in [(MAX_SIZE / 2, MAX_SIZE), (MAX_SIZE, 0)] {
        assert_eq!(store.init(MAX_CAPACITY, old), Ok(()));
        for key in 0..old {
            assert!(!store.state.rehashing);
            assert_eq!(store.add(key, 0), Ok(()));
        }
        assert_eq!(store.state.new_size, new);
    }
}

#[test]
fn a_refused_add_makes_no_table_grow() {
    with_keys(64, 256, 99, true, |store| {
        let before = Memory::of(store);
        assert_eq!(store.add(5, 0), Err(Error::Present));
        assert_eq!(Memory::of(store), before);
    });
    with_keys(64, 256, 100, true, |store| {
        let before = Memory::of(store);
        assert_eq!(store.add(100, 0), Err(Error::Full));
        assert_eq!(Memory::of(store), before);
    });
}

/// Key 8 is the only one to move from 8 buckets to 2, and with key 0 there are
/// as many keys as buckets.
#[test]
fn a_table_grows_in_the_add_whose_step_ends_a_move() {
    for allowed in [true, false] {
        with_keys(8, 8, 0, allowed, |store| {
            assert_eq!(store.add(8, 80), Ok(()));
            assert_eq!(store.resize(2), Ok(()));
            assert_eq!(store.add(0, 0), Ok(()));
            let new_size = if allowed { 4 } else { 0 };
            let grown = State {
                second_is_current: true,
                old_size: 2,
                new_size,
                old_used: 2,
                rehashing: allowed,
                free_head: 3,
                capacity: 100,
                resize_allowed: allowed,
                ..State::default()
            };
            assert_eq!(store.state, grown);
            assert_eq!(store.second[..2], [2, 0]);
            assert_eq!(store.first[..4], [0; 4]);
            assert_eq!(walked(store), [(0, 0), (8, 80)]);
        });
    }
}

/// The step of each add passes ten empty buckets, and with the last one there
/// are more than five keys for each bucket of the new table.
#[test]
fn a_table_does_not_grow_in_the_middle_of_a_move() {
    with_keys(64, 64, 0, true, |store| {
        assert_eq!(store.add(63, 0), Ok(()));
        assert_eq!(store.resize(1), Ok(()));
        for key in 0..6 {
            assert_eq!(store.add(key, 0), Ok(()));
            let state = store.state;
            assert_eq!((state.old_size, state.new_size), (64, 1));
        }
        assert_eq!(store.add(6, 0), Ok(()));
        let state = store.state;
        assert_eq!((state.old_size, state.new_size), (1, 16));
        assert_eq!((state.old_used, state.new_used), (8, 0));
    });
}

#[test]
fn a_table_grows_with_a_safe_iterator_too() {
    with_keys(4, 64, 3, true, |store| {
        store.state.safe_iterators = 1;
        assert_eq!(store.add(3, 3), Ok(()));
        let state = store.state;
        assert_eq!((state.old_size, state.new_size), (4, 8));
        assert_eq!(state.safe_iterators, 1);
    });
}
