use super::defined::Memory;
use super::*;

mod delete;
mod filling;
mod growth;
mod pass;
mod step;
mod whole;

const PAIRS: [u32; 6] = [9, 90, 5, 50, 1, 10];

const DAMAGED: Result<Scanned, ScanError> = Err(ScanError::Refused(Error::Damaged));

/// Runs `test` on a store of capacity 8 and size 4 with three keys in one
/// bucket. It is not allowed to grow, so that it can have more.
fn with_store(test: impl FnOnce(&mut Store)) {
    let (mut first, mut second, mut entries) = ([7; 4], [7; 8], [7; 24]);
    let mut store = Store::new(&mut first, &mut second, &mut entries);
    assert_eq!(store.find(1), Err(Error::BadState));
    assert_eq!(store.init(8, 3), Err(Error::BadSize));
    assert_eq!(store.init(9, 4), Err(Error::BadState));
    assert_eq!(store.init(8, 4), Ok(()));
    store.state.resize_allowed = false;
    for (key, value) in [(1, 10), (5, 50), (9, 90)] {
        assert_eq!(store.add(key, value), Ok(()));
    }
    test(&mut store);
}

#[test]
fn keys_are_found_and_handed_out() {
    with_store(|store| {
        assert_eq!(store.add(5, 0), Err(Error::Present));
        assert_eq!(store.find(5), Ok(50));
        assert_eq!(store.find(13), Err(Error::Absent));
        let mut list = [0; 6];
        let answer = Scanned { next: 3, count: 3 };
        assert_eq!(store.scan(1, &mut list), Ok(answer));
        assert_eq!(list, PAIRS);
        assert_eq!(store.scan(1, &mut list[..5]), Err(ScanError::Short(3)));
    });
}

#[test]
fn values_are_changed() {
    with_two_tables(|store| {
        let mut expected = Memory::of(store);
        assert_eq!(store.update(17, 0), Err(Error::Absent));
        assert_eq!(Memory::of(store), expected);
        for key in [5, 13] {
            let place = store.entries.iter().position(|&n| n == key * 10);
            assert_eq!(store.update(key, 77), Ok(()));
            expected.set_entries(place.expect("its value"), 77);
            assert_eq!(Memory::of(store), expected);
            assert_eq!(store.find(key), Ok(77));
        }
    });
}

#[test]
fn a_full_store_refuses() {
    with_store(|store| {
        for key in 20..25 {
            assert_eq!(store.add(key, 0), Ok(()));
        }
        assert_eq!(store.add(30, 0), Err(Error::Full));
    });
}

#[test]
fn a_chain_that_loops_is_damaged() {
    with_store(|store| {
        store.entries[0] = 3;
        assert_eq!(store.find(1), Err(Error::Damaged));
        // The first entry has key 9, and still the chain is read.
        assert_eq!(store.find(9), Err(Error::Damaged));
        assert_eq!(store.update(9, 0), Err(Error::Damaged));
        assert_eq!(store.delete(9), Err(Error::Damaged));
        assert_eq!(store.add(13, 0), Err(Error::Damaged));
        let mut list = [7; 8];
        assert_eq!(store.scan(1, &mut list), DAMAGED);
        assert_eq!(store.iterate(0, &mut list), DAMAGED);
        assert_eq!(list, [7; 8]);
        store.entries[0] = 9;
        assert_eq!(store.find(1), Err(Error::Damaged));
        assert_eq!(store.find(2), Err(Error::Absent));
    });
}

#[test]
fn unsound_states_are_refused() {
    let spoil: [fn(&mut State); 15] = [
        |s| s.capacity = 0,
        |s| s.capacity = 9,
        |s| s.capacity = MAX_CAPACITY + 1,
        |s| s.old_used = 9,
        |s| s.free_head = 9,
        |s| s.safe_iterators = MOST_SAFE_ITERATORS + 1,
        |s| s.old_size = 0,
        |s| s.old_size = 3,
        |s| s.old_size = 8,
        |s| s.new_size = 8,
        |s| s.new_used = 1,
        |s| s.rehash_index = 1,
        |s| s.rehashing = true,
        |s| (s.rehashing, s.new_size) = (true, 4),
        |s| (s.rehashing, s.new_size, s.rehash_index) = (true, 8, 5),
    ];
    with_store(|store| {
        let sound = store.state;
        for spoil in spoil {
            store.state = sound;
            spoil(&mut store.state);
            let state = store.state;
            assert_eq!(store.find(1), Err(Error::BadState), "{state:?}");
            assert_eq!(store.verify(), Err(Error::BadState), "{state:?}");
            for answer in [
                store.update(1, 0),
                store.add(2, 0),
                store.delete(1),
                store.resize(8),
                store.begin_safe(),
                store.end_safe(),
                store.repair(),
            ] {
                assert_eq!(answer, Err(Error::BadState), "{state:?}");
            }
            let refused = Err(ScanError::Refused(Error::BadState));
            assert_eq!(store.scan(0, &mut [0; 8]), refused, "{state:?}");
            assert_eq!(store.iterate(0, &mut [0; 8]), refused, "{state:?}");
        }
        store.state = sound;
        assert_eq!(store.find(1), Ok(10));
    });
}

#[test]
fn a_resize_begins_a_move() {
    with_store(|store| {
        let before = store.state;
        for size in [0, 3, 4, 16, MAX_SIZE * 2] {
            assert_eq!(store.resize(size), Err(Error::BadSize), "{size}");
        }
        assert_eq!(store.state, before);
        assert_eq!(store.second, [7; 8]);

        assert_eq!(store.resize(2), Ok(()));
        assert_eq!(store.second, [0, 0, 7, 7, 7, 7, 7, 7]);
        let moving = State {
            rehashing: true,
            new_size: 2,
            ..before
        };
        assert_eq!(store.state, moving);
        for size in [1, 2, 3] {
            assert_eq!(store.resize(size), Err(Error::Rehashing));
        }
        assert_eq!(store.state, moving);
    });
}

/// An add without its tests and without a step, so that the old table stays
/// as it is.
fn put(store: &mut Store, key: u32, value: u32) {
    let next_free = store.link(store.state.free_head);
    store.push(store.state.rehashing, key, value, next_free);
}

/// Runs `test` during a move from size 4 to 8, with a fourth key in the new
/// table. The group of cursor 1 has the chains of all four.
fn with_two_tables(test: impl FnOnce(&mut Store)) {
    with_store(|store| {
        assert_eq!(store.resize(8), Ok(()));
        put(store, 13, 130);
        assert_eq!(store.state.new_used, 1);
        test(store);
    });
}

#[test]
fn two_tables_are_one_store() {
    with_two_tables(|store| {
        assert_eq!(store.find(13), Ok(130));
        assert_eq!(store.find(9), Ok(90));
        let mut list = [0; 8];
        let answer = Scanned { next: 3, count: 4 };
        assert_eq!(store.scan(1, &mut list), Ok(answer));
        assert_eq!(list[..6], PAIRS);
        assert_eq!(list[6..], [13, 130]);
        assert_eq!(store.scan(1, &mut []), Err(ScanError::Short(4)));
    });
}

/// Each chain is sound by itself, but the new table has one key more than
/// it counts. That is found before the list is too short.
#[test]
fn chains_that_pass_the_keys_held_are_damaged() {
    with_two_tables(|store| {
        put(store, 17, 170);
        let counted = Scanned { next: 3, count: 5 };
        assert_eq!(store.scan(1, &mut [0; 10]), Ok(counted));
        store.state.new_used = 1;
        for (key, value) in [(1, 10), (5, 50), (9, 90), (13, 130), (17, 170)] {
            assert_eq!(store.find(key), Ok(value));
        }
        assert_eq!(store.scan(1, &mut [0; 10]), DAMAGED);
        assert_eq!(store.scan(1, &mut []), DAMAGED);
        // The group of cursor 5 has only one of the new table's two chains.
        let answer = Scanned { next: 3, count: 4 };
        assert_eq!(store.scan(5, &mut [0; 8]), Ok(answer));
    });
}

fn set_key(store: &mut Store, entry: u32, key: u32) {
    store.entries[start_of(entry) + 1] = key;
}

/// Every call that reads the bucket of `hash` is refused, whether or not
/// that key is held, and whatever the room of a list.
fn expect_damaged(store: &mut Store, hash: u32) {
    assert_eq!(store.find(hash), Err(Error::Damaged), "{hash}");
    assert_eq!(store.update(hash, 0), Err(Error::Damaged), "{hash}");
    assert_eq!(store.add(hash, 0), Err(Error::Damaged), "{hash}");
    assert_eq!(store.delete(hash), Err(Error::Damaged), "{hash}");
    let mut list = [7; 16];
    assert_eq!(store.scan(hash, &mut list), DAMAGED, "{hash}");
    assert_eq!(list, [7; 16]);
    assert_eq!(store.scan(hash, &mut []), DAMAGED, "{hash}");
}

/// Calls that read only buckets 2 and 6 find no damage; key 2 is held there. An
/// add or a delete in a move reads the chain that its step moves too, and finds
/// none there.
fn expect_others_answered(store: &mut Store) {
    assert_eq!(store.find(2), Ok(20));
    assert_eq!(store.update(2, 20), Ok(()));
    assert_eq!(store.add(2, 0), Err(Error::Present));
    assert_eq!(store.find(6), Err(Error::Absent));
    assert_eq!(store.delete(6), Err(Error::Absent));
    let mut list = [0; 2];
    let answer = Scanned { next: 1, count: 1 };
    assert_eq!(store.scan(2, &mut list), Ok(answer));
    assert_eq!(list, [2, 20]);
}

/// Puts other keys into an entry whose chain is in the group of cursor 1,
/// which has `count` keys: `own` are those of the entry's bucket, `off` are
/// not, and the calls on `hashes` read that bucket.
fn expect_own_keys(
    store: &mut Store,
    entry: u32,
    own: &[u32],
    off: &[u32],
    hashes: &[u32],
    count: u32,
) {
    let (key, value) = (store.key(entry), store.value(entry));
    for &own in own {
        set_key(store, entry, own);
        assert_eq!(store.find(own), Ok(value));
        let answer = Scanned { next: 3, count };
        assert_eq!(store.scan(1, &mut [0; 10]), Ok(answer));
    }
    for &off in off {
        set_key(store, entry, off);
        assert_eq!(store.scan(1, &mut [0; 10]), DAMAGED, "{off}");
        for &hash in hashes {
            expect_damaged(store, hash);
        }
        expect_others_answered(store);
    }
    set_key(store, entry, key);
}

/// Of the chain's three entries the third is the head and the first the end.
#[test]
fn a_key_off_its_bucket_is_damage() {
    with_store(|store| {
        assert_eq!(store.add(2, 20), Ok(()));
        for entry in 1..=3 {
            let own = [13, 65537, u32::MAX - 2];
            let off = [0, 2, 3, 65536, u32::MAX];
            expect_own_keys(store, entry, &own, &off, &[1, 5, 9, 13], 3);
        }
        set_key(store, 1, 2);
        assert_eq!(store.add(6, 60), Ok(()));
    });
}

/// Runs `test` on tables of sizes 4 and 8, in a move from either to the
/// other. Entries 3, 2 and 1 are the chain of the smaller one's bucket 1,
/// entries 6 and 5 that of the larger one's bucket 5. The step of an add
/// moves neither, but entry 4 of the smaller table's bucket 0, or entry 7 of
/// the larger one's bucket 2.
fn with_both_moves(test: fn(&mut Store)) {
    for shrinks in [false, true] {
        with_store(|store| {
            assert_eq!(store.add(4, 40), Ok(()));
            assert_eq!(store.resize(8), Ok(()));
            put(store, 13, 130);
            put(store, 21, 210);
            put(store, 2, 20);
            if shrinks {
                let grows = store.state;
                store.state = State {
                    second_is_current: true,
                    old_size: grows.new_size,
                    new_size: grows.old_size,
                    old_used: grows.new_used,
                    new_used: grows.old_used,
                    ..grows
                };
            }
            test(store);
        });
    }
}

#[test]
fn a_key_belongs_by_the_smaller_size_in_the_smaller_table() {
    with_both_moves(|store| {
        for entry in 1..=3 {
            // Bucket 1 by size 4. By size 8 they have the buckets 1 and 5.
            let own = [17, 29];
            let off = [0, 2, 3, 6, u32::MAX];
            expect_own_keys(store, entry, &own, &off, &[1, 5, 9, 13, 17, 21], 5);
        }
        set_key(store, 1, 2);
        assert_eq!(store.add(6, 60), Ok(()));
    });
}

#[test]
fn a_key_belongs_by_the_larger_size_in_the_larger_table() {
    with_both_moves(|store| {
        for entry in 5..=6 {
            let own = [29, 65541];
            // By size 4 the keys 17 and 25 have the same bucket as 5.
            let off = [17, 25, 4, 7, u32::MAX];
            expect_own_keys(store, entry, &own, &off, &[5, 13, 21, 29], 5);
        }
        // Lookups of 1, 9 and 17 read bucket 1 of the larger table, not 5.
        set_key(store, 5, 17);
        assert_eq!(store.find(1), Ok(10));
        assert_eq!(store.add(9, 0), Err(Error::Present));
        assert_eq!(store.find(17), Err(Error::Absent));
        assert_eq!(store.add(17, 170), Ok(()));
    });
}

/// The pairs that a whole walk hands out, in the order of the values.
fn walked(store: &Store) -> Vec<(u32, u32)> {
    let mut pairs = Vec::new();
    let mut list = [0; 1000];
    let mut cursor = 0;
    loop {
        let scanned = store.scan(cursor, &mut list).expect("a walk call");
        let handed = list[..scanned.count as usize * 2].chunks_exact(2);
        pairs.extend(handed.map(|pair| (pair[0], pair[1])));
        cursor = scanned.next;
        if cursor == 0 {
            break;
        }
    }
    pairs.sort_by_key(|pair| pair.1);
    pairs
}

/// Keys that fill some buckets more than others, another one for each value.
fn scattered(value: u32) -> u32 {
    value.wrapping_mul(2654435761).rotate_left(16)
}

/// Runs `test` at the start of a move from size 4 to 8: bucket 0 has entry 4,
/// with key 4, and bucket 1 has entries 3, 2 and 1, with keys 9, 5 and 1.
fn with_move(test: impl FnOnce(&mut Store)) {
    with_store(|store| {
        assert_eq!(store.add(4, 40), Ok(()));
        assert_eq!(store.resize(8), Ok(()));
        test(store);
    });
}

/// The same with bucket 0 empty, so that the step moves bucket 1: entries 3
/// and 1 to the new bucket 1, entry 2 to the new bucket 5.
fn with_move_of_three(test: impl FnOnce(&mut Store)) {
    with_store(|store| {
        assert_eq!(store.resize(8), Ok(()));
        test(store);
    });
}
