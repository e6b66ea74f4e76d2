//! The step that an add or a delete in a move takes first.

use super::*;

#[test]
fn an_add_in_a_move_takes_a_step_first() {
    with_move(|store| {
        // Bucket 0 moves, and then the key goes to the new table.
        assert_eq!(store.add(12, 120), Ok(()));
        assert_eq!(store.first, [0, 3, 0, 0]);
        assert_eq!(store.second, [0, 0, 0, 0, 5, 0, 0, 0]);
        assert_eq!(store.entries[9..15], [0, 4, 40, 4, 12, 120]);
        let state = store.state;
        assert_eq!((state.old_used, state.new_used), (3, 2));
        assert_eq!((state.rehash_index, state.free_head), (1, 6));
        assert!(state.rehashing);

        // Bucket 1 moves, from its head on: that ends the move.
        assert_eq!(store.add(13, 130), Ok(()));
        assert_eq!(store.first, [0, 0, 0, 0]);
        assert_eq!(store.second, [0, 1, 0, 0, 5, 6, 0, 0]);
        let links = [store.link(1), store.link(3), store.link(6), store.link(2)];
        assert_eq!(links, [3, 0, 2, 0]);
        let ended = State {
            second_is_current: true,
            old_size: 8,
            old_used: 6,
            free_head: 7,
            capacity: 8,
            ..State::default()
        };
        assert_eq!(store.state, ended);
    });
}

/// An add goes to the new table all the same, and looks in both.
#[test]
fn a_safe_iterator_holds_up_the_steps_of_adds() {
    with_move(|store| {
        for (iterators, key) in [(1, 12), (MOST_SAFE_ITERATORS, 13)] {
            store.state.safe_iterators = iterators;
            let before = store.state;
            let first = store.first.to_vec();
            for held in [4, 9] {
                expect_refused(store, held, Error::Present);
            }
            assert_eq!(store.add(key, key * 10), Ok(()));
            expect_refused(store, key, Error::Present);
            assert_eq!(store.first, first);
            let added = State {
                new_used: before.new_used + 1,
                free_head: before.free_head + 1,
                ..before
            };
            assert_eq!(store.state, added);
        }
        // The chain that a step would move is not read, the key's own are.
        set_key(store, 4, 3);
        expect_added(store, 2);
        expect_damage(store, 20);
        set_key(store, 4, 4);

        store.state.safe_iterators = 0;
        assert_eq!(store.add(2, 20), Ok(()));
        assert_eq!(store.state.rehash_index, 1);
        let pairs = [
            (1, 10),
            (2, 20),
            (4, 40),
            (5, 50),
            (9, 90),
            (12, 120),
            (13, 130),
        ];
        assert_eq!(walked(store), pairs);
    });
}

/// Runs `test` at the start of a move from size 16 to 32, with one key.
fn with_sparse_move(key: u32, test: impl FnOnce(&mut Store)) {
    let (mut first, mut second, mut entries) = ([7; 16], [7; 32], [7; 12]);
    let mut store = Store::new(&mut first, &mut second, &mut entries);
    assert_eq!(store.init(4, 16), Ok(()));
    assert_eq!(store.add(key, 0), Ok(()));
    assert_eq!(store.resize(32), Ok(()));
    test(&mut store);
}

/// The step of the first add passes ten empty buckets, that of the second
/// moves the key behind them.
#[test]
fn a_step_passes_ten_empty_buckets() {
    with_sparse_move(10, |store| {
        assert_eq!(store.add(26, 1), Ok(()));
        let state = store.state;
        assert_eq!((state.rehash_index, state.rehashing), (10, true));
        assert_eq!((state.old_used, state.new_used), (1, 1));
        assert_eq!(store.first[10], 1);
        assert_eq!(store.add(42, 2), Ok(()));
        assert!(!store.state.rehashing);
        assert_eq!(walked(store), [(10, 0), (26, 1), (42, 2)]);
    });
}

/// An add in a move that is refused, and changes nothing.
fn expect_refused(store: &mut Store, key: u32, error: Error) {
    assert!(store.state.rehashing);
    let before = Memory::of(store);
    assert_eq!(store.add(key, 0), Err(error), "{key}");
    assert_eq!(Memory::of(store), before, "{key}");
}

/// The chains that an add and a delete of the key read are damaged.
fn expect_damage(store: &mut Store, key: u32) {
    expect_refused(store, key, Error::Damaged);
    let before = Memory::of(store);
    assert_eq!(store.delete(key), Err(Error::Damaged), "{key}");
    assert_eq!(Memory::of(store), before, "{key}");
}

/// An add in a move that is answered, tried on a copy, of a key that a delete does
/// not find. That delete takes no step.
fn expect_added(store: &Store, key: u32) {
    assert!(store.state.rehashing);
    let mut copy = Memory::of(store);
    let absent = copy.call(|store| store.delete(key));
    assert_eq!(absent, Err(Error::Absent), "{key}");
    assert_eq!(copy, Memory::of(store));
    assert_eq!(copy.call(|store| store.add(key, 0)), Ok(()), "{key}");
}

#[test]
fn a_refused_add_in_a_move_changes_nothing() {
    with_move(|store| {
        put(store, 13, 130);
        put(store, 21, 210);
        // On the chain that moves, on the key's old one and on its new one.
        for key in [4, 5, 13] {
            expect_refused(store, key, Error::Present);
        }
        // No free entry, and one whose link is out of range.
        store.state.free_head = 0;
        expect_refused(store, 29, Error::Damaged);
        expect_refused(store, 13, Error::Present);
        store.state.free_head = 7;
        store.entries[start_of(7)] = 9;
        expect_refused(store, 29, Error::Damaged);
        expect_refused(store, 13, Error::Present);
        store.entries[start_of(7)] = 8;
        expect_added(store, 29);

        put(store, 29, 290);
        put(store, 37, 370);
        expect_refused(store, 45, Error::Full);
        expect_refused(store, 4, Error::Present);
        // Damage of the key's old chain, of its new one, of the one that moves.
        for (entry, own) in [(1, 1), (5, 13), (4, 4)] {
            set_key(store, entry, 2);
            expect_damage(store, 45);
            expect_damage(store, 5);
            set_key(store, entry, own);
        }
    });
}

/// By its count the old table holds keys. So one of its next buckets is
/// filled, or there is one behind the ten that a step passes.
#[test]
fn a_step_to_the_end_of_the_table_is_damage() {
    with_move(|store| {
        for index in [2, 4] {
            store.state.rehash_index = index;
            expect_damage(store, 2);
        }
        store.state.rehash_index = 1;
        expect_added(store, 2);
    });
    with_sparse_move(0, |store| {
        for index in [6, 16] {
            store.state.rehash_index = index;
            expect_damage(store, 2);
        }
        store.state.rehash_index = 5;
        expect_added(store, 2);
    });
}

/// The step moves nothing, whatever lies there.
#[test]
fn an_old_table_without_keys_is_only_left() {
    with_move(|store| {
        store.state.old_used = 0;
        let first = store.first.to_vec();
        assert_eq!(store.add(1, 11), Ok(()));
        assert_eq!(store.first, first);
        assert_eq!(store.second, [0, 5, 0, 0, 0, 0, 0, 0]);
        let ended = State {
            second_is_current: true,
            old_size: 8,
            old_used: 1,
            free_head: 6,
            capacity: 8,
            ..State::default()
        };
        assert_eq!(store.state, ended);
    });
}

/// The step is refused, whatever the key's own chains are.
#[test]
fn an_unsound_chain_that_moves_is_damage() {
    with_move_of_three(|store| {
        expect_added(store, 2);
        // It loops, runs out of range, has a key off its bucket, is too long.
        store.entries[start_of(1)] = 3;
        expect_damage(store, 2);
        store.entries[start_of(1)] = 9;
        expect_damage(store, 2);
        store.entries[start_of(1)] = 0;
        set_key(store, 1, 3);
        expect_damage(store, 2);
        set_key(store, 1, 1);
        store.state.old_used = 2;
        expect_damage(store, 2);
    });
}

/// Before the step both chains are sound. Behind it the new one would lead
/// from the entry that they share to its own head again.
#[test]
fn a_new_chain_into_the_chain_that_moves_is_damage() {
    with_move_of_three(|store| {
        put(store, 25, 250);
        expect_added(store, 17);
        store.entries[start_of(4)] = 1;
        store.state.new_used = 2;
        assert_eq!(store.find(17), Err(Error::Absent));
        expect_damage(store, 17);
        expect_damage(store, 1);
        // The shared entry may be the whole chain.
        store.second[1] = 1;
        assert_eq!(store.find(17), Err(Error::Absent));
        expect_damage(store, 17);
        // Another new bucket's chain is not read.
        expect_added(store, 2);
    });
}

/// The step takes the keys that it moves off the old table's count.
#[test]
fn an_old_chain_longer_than_the_keys_left_is_damage() {
    with_move(|store| {
        expect_added(store, 13);
        store.state.old_used = 3;
        assert_eq!(store.find(13), Err(Error::Absent));
        expect_damage(store, 13);
        expect_damage(store, 1);
        // Not where the move ends: then there is no old chain to read.
        store.state.old_used = 1;
        assert_eq!(store.find(13), Err(Error::Damaged));
        expect_added(store, 13);
    });
    // Nor where it is the chain that moves, here with one key left by count.
    with_move_of_three(|store| {
        store.state.old_used = 4;
        expect_added(store, 13);
    });
}

/// The step puts the keys that it moves on the new table's count, and those
/// of the key's bucket on its chain.
#[test]
fn a_new_chain_longer_than_the_keys_then_is_damage() {
    with_move_of_three(|store| {
        put(store, 13, 130);
        put(store, 21, 210);
        // With entry 2 the chain will have three entries.
        store.state.new_used = 0;
        assert_eq!(store.find(29), Err(Error::Damaged));
        expect_added(store, 29);
        // With entry 1 too it will have four.
        set_key(store, 1, 45);
        expect_damage(store, 29);
        store.state.new_used = 1;
        expect_added(store, 29);
    });
}

/// Behind the step the link of entries 3 and 2 is the head of their new
/// bucket, and the link of entry 1 is entry 3.
#[test]
fn a_free_entry_on_the_chain_that_moves_is_damage_by_its_new_link() {
    with_move_of_three(|store| {
        for (entry, bucket) in [(3, 1), (2, 5)] {
            store.state.free_head = entry;
            expect_added(store, 2);
            store.second[bucket] = 9;
            expect_refused(store, 2, Error::Damaged);
            store.second[bucket] = 8;
            expect_added(store, 2);
        }
        store.second[1] = 9;
        store.state.free_head = 1;
        assert_eq!(store.add(2, 20), Ok(()));
        assert_eq!(store.state.free_head, 3);
        assert_eq!(store.second, [0, 1, 1, 0, 0, 2, 0, 0]);
        assert_eq!(store.entries[..3], [0, 2, 20]);
    });
}
