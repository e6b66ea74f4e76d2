//! Deletes.

use super::*;

/// The links of the first entries.
fn links<const N: usize>(store: &Store) -> [u32; N] {
    std::array::from_fn(|place| store.link(place as u32 + 1))
}

/// A delete that is refused, and changes nothing.
fn expect_refused(store: &mut Store, key: u32, error: Error) {
    let before = Memory::of(store);
    assert_eq!(store.delete(key), Err(error), "{key}");
    assert_eq!(Memory::of(store), before, "{key}");
}

/// The chain has entries 3, 2 and 1, with keys 9, 5 and 1.
#[test]
fn an_entry_goes_off_its_chain_and_onto_the_free_one() {
    for (key, entry, head, expected) in [
        (9, 3, 2, [0, 1, 4]),
        (5, 2, 3, [0, 4, 1]),
        (1, 1, 3, [4, 0, 2]),
    ] {
        with_store(|store| {
            let before = store.state;
            assert_eq!(store.delete(key), Ok(()));
            let deleted = State {
                old_used: 2,
                free_head: entry,
                ..before
            };
            assert_eq!(store.state, deleted);
            assert_eq!(store.first, [0, head, 0, 0]);
            assert_eq!(links(store), expected);
            assert_eq!((store.key(entry), store.value(entry)), (0, 0));
            expect_refused(store, key, Error::Absent);
            assert_eq!(store.find(key), Err(Error::Absent));

            // The next add takes it.
            assert_eq!(store.add(2, 20), Ok(()));
            assert_eq!((store.first[2], store.state.free_head), (entry, 4));
        });
    }
}

#[test]
fn the_last_key_leaves_an_empty_bucket() {
    with_store(|store| {
        for key in [5, 9, 1] {
            assert_eq!(store.delete(key), Ok(()));
        }
        assert_eq!(store.first, [0; 4]);
        assert_eq!((store.state.old_used, store.state.free_head), (0, 1));
        expect_refused(store, 1, Error::Absent);
    });
}

/// Bucket 0 with key 4 moves first, and then the key goes off the old table.
#[test]
fn a_delete_in_a_move_takes_a_step_first() {
    with_move(|store| {
        assert_eq!(store.delete(5), Ok(()));
        assert_eq!(store.first, [0, 3, 0, 0]);
        assert_eq!(store.second, [0, 0, 0, 0, 4, 0, 0, 0]);
        assert_eq!(links(store), [0, 5, 1, 0]);
        let state = store.state;
        assert_eq!((state.old_used, state.new_used), (2, 1));
        assert_eq!((state.rehash_index, state.free_head), (1, 2));
        assert!(state.rehashing);

        // Bucket 1 moves, which ends the move: key 9 is then behind key 1.
        assert_eq!(store.delete(9), Ok(()));
        assert_eq!(store.second, [0, 1, 0, 0, 4, 0, 0, 0]);
        assert_eq!(links(store), [0, 5, 2, 0]);
        let ended = State {
            second_is_current: true,
            old_size: 8,
            old_used: 2,
            free_head: 3,
            capacity: 8,
            ..State::default()
        };
        assert_eq!(store.state, ended);
    });
}

/// The step moves entries 3, 2 and 1, with keys 9, 5 and 1: entry 1 becomes the head
/// of the new bucket 1, entry 3 stands behind it, and entry 2 is in bucket 5. Keys 17
/// and 25 are in the new table already, 25 before 17.
#[test]
fn a_delete_finds_the_key_where_the_step_leaves_it() {
    for (key, bucket_1, bucket_5) in [
        (1, vec![9, 25, 17], vec![5]),
        (9, vec![1, 25, 17], vec![5]),
        (5, vec![1, 9, 25, 17], vec![]),
        (25, vec![1, 9, 17], vec![5]),
        (17, vec![1, 9, 25], vec![5]),
    ] {
        with_move_of_three(|store| {
            put(store, 17, 170);
            put(store, 25, 250);
            assert_eq!(store.delete(key), Ok(()));
            assert!(!store.state.rehashing);
            assert_eq!((store.state.old_used, store.state.old_size), (4, 8));
            let handed = |bucket| {
                let mut list = [0; 16];
                let scanned = store.scan(bucket, &mut list).expect("a walk call");
                let pairs = list[..scanned.count as usize * 2].chunks(2);
                pairs.map(|pair| pair[0]).collect::<Vec<u32>>()
            };
            assert_eq!((handed(1), handed(5)), (bucket_1, bucket_5), "{key}");
        });
    }
}

#[test]
fn a_refused_delete_takes_no_step() {
    with_move(|store| {
        for key in [0, 2, 12, 13, 17] {
            expect_refused(store, key, Error::Absent);
        }
        store.entries[start_of(4)] = 9;
        expect_refused(store, 5, Error::Damaged);
    });
}

/// Of a move that is held up the chain that a step would move is not read.
#[test]
fn a_safe_iterator_holds_up_the_steps_of_deletes() {
    with_move(|store| {
        put(store, 13, 130);
        store.state.safe_iterators = 1;
        expect_refused(store, 21, Error::Absent);
        store.entries[start_of(4)] = 9;
        for (key, used) in [(5, (3, 1)), (13, (3, 0)), (9, (2, 0))] {
            let before = store.state;
            assert_eq!(store.delete(key), Ok(()));
            let state = store.state;
            assert_eq!((state.old_used, state.new_used), used);
            assert_eq!(state.rehash_index, before.rehash_index);
            assert!(state.rehashing);
        }
        assert_eq!(store.first, [4, 1, 0, 0]);
        expect_refused(store, 4, Error::Damaged);
        store.state.safe_iterators = 0;
        expect_refused(store, 1, Error::Damaged);
    });
}

/// The old table has no keys any more: the step only ends the move.
#[test]
fn a_delete_may_end_a_move_whose_keys_are_gone() {
    with_store(|store| {
        store.state.safe_iterators = 1;
        assert_eq!(store.resize(8), Ok(()));
        put(store, 2, 20);
        put(store, 3, 30);
        for key in [1, 5, 9] {
            assert_eq!(store.delete(key), Ok(()));
        }
        store.state.safe_iterators = 0;
        assert_eq!(store.state.old_used, 0);
        expect_refused(store, 1, Error::Absent);
        assert_eq!(store.delete(3), Ok(()));
        let state = store.state;
        assert_eq!((state.rehashing, state.old_size), (false, 8));
        assert_eq!(walked(store), [(2, 20)]);
    });
}
