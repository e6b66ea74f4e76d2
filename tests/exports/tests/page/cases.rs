//! "Cases" of `docs/SPECIFICATION.md`, in its order, those that are about calls; and "The printed script".

use exports::call::Call;
use exports::model::numbers::{State, Store, Table};
use exports::model::store::suggested;

use crate::shape::{
    add, at_rest, at_rest_for, delete, find, fingerprint, iterate, moving, readers, scan, value,
    Shape, LONG,
};

use Table::{New, Old};

/// A key for each bucket of a table, which tells its table and its bucket.
fn marks(table: Table, size: u32) -> impl Iterator<Item = (Table, u32, u32)> {
    let from = match table {
        Old => 64,
        New => 128,
    };
    (0..size).map(move |bucket| (table, bucket, from + bucket))
}

/// A store with a key in every bucket of its live tables.
fn marked(store: Store) -> Store {
    let mut all: Vec<_> = marks(Old, store.state.old_size).collect();
    all.extend(marks(New, store.state.new_size));
    all.into_iter().fold(store, |store, (table, bucket, key)| {
        store.with(table, bucket, &[key])
    })
}

/// The group of a walk call: its buckets, told from the keys that it hands out, and the next cursor.
fn group(store: &Store, cursor: u32) -> (Vec<(Table, u32)>, u32) {
    let (number, next, _, keys) = store.hand_out(scan(cursor), LONG);
    assert_eq!(number, 0);
    let bucket = |key| {
        if key < 128 {
            (Old, key - 64)
        } else {
            (New, key - 128)
        }
    };
    (keys.into_iter().map(bucket).collect(), next)
}

/// The cursors of a walk of one table, from 0 to 0.
fn cursors(size: u32) -> Vec<u32> {
    let store = marked(at_rest(size));
    let mut all = vec![0];
    loop {
        let (_, next) = group(&store, all[all.len() - 1]);
        all.push(next);
        if next == 0 {
            return all;
        }
    }
}

#[test]
fn cursors_of_one_table() {
    assert_eq!(cursors(4), [0, 2, 1, 3, 0]);
    assert_eq!(cursors(8), [0, 4, 2, 6, 1, 5, 3, 7, 0]);
    for cursor in [0, 1, 2, 1 << 31, u32::MAX] {
        assert_eq!(group(&marked(at_rest(1)), cursor), (vec![(Old, 0)], 0));
    }
    assert_eq!(group(&marked(at_rest(4)), 5), (vec![(Old, 1)], 3));
    assert_eq!(group(&marked(at_rest(4)), u32::MAX), (vec![(Old, 3)], 0));
}

/// Two tables and a cursor; the smaller table's bucket, the larger one's, and the next cursor. Which of the two is
/// the old one plays no part.
fn check_group(sizes: (u32, u32), cursor: u32, smaller: u32, larger: &[u32], next: u32) {
    let in_order = |small, large| {
        let mut buckets = vec![(small, smaller)];
        buckets.extend(larger.iter().map(|&bucket| (large, bucket)));
        (buckets, next)
    };
    let grows = marked(moving(sizes.0, sizes.1));
    assert_eq!(group(&grows, cursor), in_order(Old, New));
    let shrinks = marked(moving(sizes.1, sizes.0));
    assert_eq!(group(&shrinks, cursor), in_order(New, Old));
}

#[test]
fn groups_of_two_tables() {
    check_group((4, 8), 2, 2, &[2, 6], 1);
    check_group((4, 16), 0, 0, &[0, 8, 4, 12], 2);
    check_group((4, 16), 8, 0, &[8, 4, 12], 2);
}

#[test]
fn a_walk_after_shrinking() {
    let mut store = at_rest(8);
    assert_eq!(store.make(Call::Resize { size: 4 }), (0, 0, 0));
    assert_eq!(store.make(Call::RehashStep), (0, 0, 0));
    assert_eq!(group(&marked(store), 7), (vec![(Old, 3)], 0));
}

#[test]
fn suggested_sizes() {
    let size = |keys, growing| {
        let (number, size, _) = with_keys(1, keys).make(Call::SuggestedSize { growing });
        assert_eq!(number, 0);
        size
    };
    assert_eq!((size(5, 1), size(5, 0)), (16, 8));
    assert_eq!((size(0, 1), size(0, 0)), (4, 4));
    assert_eq!((size(2, 1), size(3, 1), size(4, 0)), (4, 8, 4));
    // No store over bytes has so many keys.
    for held in [32_769, 40_000, 65_535, 65_536] {
        assert_eq!(suggested(held, true), 65_536);
    }
}

/// The sizes after an add of a key that is not held, which must be answered 0.
fn sizes_after_an_add(mut store: Store) -> (u32, u32) {
    assert_eq!(store.make(add(1_000)), (0, 0, 0));
    (store.state.old_size, store.state.new_size)
}

/// A store with so many keys, all in bucket 0.
fn with_keys(size: u32, keys: u32) -> Store {
    let keys: Vec<u32> = (0..keys).map(|key| key * size).collect();
    at_rest(size).with(Old, 0, &keys)
}

fn allowed(store: Store, allowed: u32) -> Store {
    store.but(|store| assert_eq!(store.make(Call::AllowResize { allowed }), (0, 0, 0)))
}

#[test]
fn growth() {
    let with_other_buffer = |store: Store, length| store.but(|store| store.second.truncate(length));
    let three = with_other_buffer(with_keys(4, 3), 8);
    assert_eq!(sizes_after_an_add(three.clone()), (4, 8));
    assert_eq!(
        sizes_after_an_add(with_other_buffer(with_keys(4, 2), 8)),
        (4, 0)
    );
    assert_eq!(sizes_after_an_add(allowed(three.clone(), 0)), (4, 0));
    assert_eq!(sizes_after_an_add(with_other_buffer(three, 7)), (4, 0));

    let two = allowed(allowed(with_keys(2, 2), 0), 1);
    assert_eq!(sizes_after_an_add(two), (2, 8));

    assert_eq!(sizes_after_an_add(allowed(with_keys(1, 4), 0)), (1, 0));
    assert_eq!(sizes_after_an_add(allowed(with_keys(1, 5), 0)), (1, 16));
    assert_eq!(sizes_after_an_add(allowed(with_keys(2, 9), 0)), (2, 0));
    assert_eq!(sizes_after_an_add(allowed(with_keys(2, 10), 0)), (2, 32));

    let shrinking = moving(8, 2).with(Old, 0, &[8]);
    assert_eq!(
        sizes_after_an_add(shrinking.clone().with(Old, 1, &[9])),
        (8, 2)
    );
    assert_eq!(sizes_after_an_add(shrinking), (2, 4));
}

#[test]
fn permission() {
    let call = Call::AllowResize { allowed: 0 };
    assert_eq!(at_rest(4).number(call), 0);
    let zeros = at_rest(4).but(|store| store.state = State::default());
    assert_eq!(zeros.number(call), 1);
}

#[test]
fn keys_off_their_bucket_at_rest() {
    let sound = at_rest(2).with(Old, 0, &[2, 4]);
    assert_eq!(readers(&sound, 2, 6), [0; 5]);
    let off = at_rest(2).with(Old, 0, &[2, 5]);
    assert_eq!(readers(&off, 2, 6), [2; 5]);
    assert_eq!(readers(&at_rest(2).with(Old, 0, &[5, 2]), 2, 6), [2; 5]);
    assert_eq!(off.number(add(2)), 2);
    assert_eq!(off.hand_out(scan(0), 0), (2, 0, 0, vec![]));
    assert_eq!(off.number(find(5)), 3);
    assert_eq!(off.hand_out(scan(1), LONG), (0, 0, 0, vec![]));
}

#[test]
fn keys_off_their_bucket_during_a_move() {
    let sound = moving(2, 4).with(Old, 0, &[2, 4]);
    assert_eq!(
        (sound.number(Call::RehashStep), readers(&sound, 2, 6)),
        (0, [0; 5])
    );
    let off = moving(2, 4).with(Old, 0, &[2, 5]);
    assert_eq!(
        (off.number(Call::RehashStep), readers(&off, 2, 6)),
        (2, [2; 5])
    );

    let sound = moving(2, 4).with(Old, 0, &[2]).with(New, 0, &[4]);
    assert_eq!(readers(&sound, 4, 8), [0; 5]);
    let off = moving(2, 4).with(Old, 0, &[2]).with(New, 0, &[6]);
    assert_eq!(readers(&off, 4, 8), [2; 5]);
    assert_eq!((off.number(Call::RehashStep), off.number(find(2))), (0, 0));
}

#[test]
fn what_a_step_would_leave() {
    let numbers = |store: &Store, calls: [Call; 2]| calls.map(|call| store.number(call));
    let step = Call::RehashStep;

    let sound = moving(2, 4)
        .with(Old, 0, &[0, 4])
        .with(New, 0, &[8])
        .but(|store| store.state.new_used = 2);
    assert_eq!(numbers(&sound, [delete(8), add(12)]), [0, 0]);
    let shared = sound.but(|store| store.set_link(store.entry(8), store.entry(4)));
    assert_eq!(numbers(&shared, [delete(8), add(12)]), [2, 2]);
    assert_eq!(numbers(&shared, [step, find(8)]), [0, 0]);

    let two = moving(2, 4).with(Old, 0, &[0]).with(Old, 1, &[1]);
    assert_eq!(numbers(&two, [delete(1), add(3)]), [0, 0]);
    let looped = two.but(|store| store.set_link(store.entry(0), store.entry(0)));
    assert_eq!(numbers(&looped, [delete(1), add(3)]), [2, 2]);
    assert_eq!(looped.number(find(1)), 0);

    let three = moving(2, 4).with(Old, 0, &[0]).with(Old, 1, &[1, 3]);
    assert_eq!(numbers(&three, [delete(1), add(5)]), [0, 0]);
    let two_counted = three.but(|store| store.state.old_used = 2);
    assert_eq!(numbers(&two_counted, [delete(1), add(5)]), [2, 2]);
    assert_eq!(numbers(&two_counted, [step, find(1)]), [0, 0]);

    let free_too = moving(2, 4)
        .with(Old, 0, &[0])
        .but(|store| store.state.free_head = store.entry(0));
    assert_eq!(free_too.number(add(1)), 0);
    let above = free_too.but(|store| store.set_head(New, 0, store.state.capacity + 1));
    assert_eq!(numbers(&above, [add(1), step]), [2, 0]);
}

#[test]
fn steps() {
    let mut both = moving(2, 4).with(Old, 0, &[2, 4]);
    assert_eq!(both.make(Call::RehashStep), (0, 2, 0));

    let one_key = |bucket, next| {
        let mut store = moving(16, 32)
            .with(Old, bucket, &[bucket])
            .with_next_bucket(next);
        (store.make(Call::RehashStep), store.state.rehash_index)
    };
    assert_eq!(one_key(9, 0).0, (0, 1, 0));
    assert_eq!(one_key(10, 0), ((0, 0, 1), 10));
    assert_eq!(one_key(15, 5), ((0, 0, 1), 15));
    assert_eq!(one_key(15, 6).0, (0, 1, 0));
    assert_eq!(one_key(0, 6).0, (2, 0, 0));
    assert_eq!(one_key(0, 16).0, (2, 0, 0));
}

#[test]
fn pass_calls() {
    let store = moving(2, 4).with(Old, 0, &[2]).with(New, 0, &[4]);
    let keys_and_place = |place| {
        let (number, next, keys, _) = store.hand_out(iterate(place), LONG);
        assert_eq!(number, 0);
        (keys, next)
    };
    let answered = [0, 1, 2, 3, 6, u32::MAX].map(keys_and_place);
    assert_eq!(answered, [(1, 1), (1, 3), (1, 3), (0, 6), (0, 6), (0, 6)]);
    assert_eq!(store.hand_out(iterate(0), 0), (9, 0, 1, vec![]));
    assert_eq!(store.hand_out(iterate(3), 0), (0, 6, 0, vec![]));

    let off = moving(2, 4).with(Old, 0, &[2]).with(New, 0, &[6]);
    assert_eq!(off.hand_out(iterate(1), LONG), (2, 0, 0, vec![]));
    assert_eq!(off.hand_out(iterate(1), 0), (2, 0, 0, vec![]));
    assert_eq!(off.hand_out(iterate(0), LONG), (0, 1, 1, vec![2]));

    let store = at_rest(2).with(Old, 0, &[2, 4]);
    assert_eq!(store.hand_out(iterate(0), LONG), (0, 1, 2, vec![2, 4]));
    assert_eq!(store.hand_out(iterate(1), LONG), (0, 2, 0, vec![]));
}

#[test]
fn paused_moves() {
    let store = moving(2, 4).with(Old, 0, &[0]).with(Old, 1, &[1, 3]);
    let number_and_next_bucket = |store: &Store| {
        [Call::RehashStep, delete(1), add(5)].map(|call| {
            let mut store = store.clone();
            (store.make(call).0, store.state.rehash_index)
        })
    };
    assert_eq!(number_and_next_bucket(&store), [(0, 1), (0, 1), (0, 1)]);
    let paused = store.but(|store| assert_eq!(store.make(Call::BeginSafe), (0, 0, 0)));
    assert_eq!(number_and_next_bucket(&paused), [(18, 0), (0, 0), (0, 0)]);

    assert_eq!(
        at_rest(2).with_careful_passes(1).number(Call::RehashStep),
        8
    );
    let off = moving(2, 4).with(Old, 0, &[1]).with_careful_passes(1);
    assert_eq!(off.number(Call::RehashStep), 18);
}

#[test]
fn careful_passes_are_counted() {
    let end = |passes| at_rest(4).with_careful_passes(passes).number(Call::EndSafe);
    let begin = |passes| {
        at_rest(4)
            .with_careful_passes(passes)
            .number(Call::BeginSafe)
    };
    assert_eq!(end(0), 16);
    assert_eq!((begin(254), end(254)), (0, 0));
    assert_eq!(begin(255), 17);

    let too_many = moving(2, 4).with(Old, 0, &[2]).with_careful_passes(256);
    assert_eq!(readers(&too_many, 2, 6), [1; 5]);
    assert_eq!(too_many.number(Call::RehashStep), 1);
    assert_eq!(too_many.number(Call::BeginSafe), 1);
    let zeros = at_rest(4).but(|store| store.state = State::default());
    assert_eq!(zeros.number(Call::EndSafe), 1);
    assert_eq!(zeros.number(Call::EndIterator { fingerprint: 0 }), 1);
}

#[test]
fn plain_passes() {
    let new = at_rest(4);
    let end = |store: &Store, fingerprint| store.number(Call::EndIterator { fingerprint });
    assert_eq!(fingerprint(&new), 13_078_267_905_649_422_074);
    assert_eq!(end(&new, 13_078_267_905_649_422_074), 0);
    assert_eq!(end(&new, 13_078_267_905_649_422_075), 15);

    let one_each = moving(2, 4).with(Old, 0, &[2]).with(New, 0, &[4]);
    assert_eq!(fingerprint(&one_each), 2_448_095_614_669_022_528);

    let added = new.but(|store| assert_eq!(store.make(add(1)), (0, 0, 0)));
    assert_eq!(end(&added, fingerprint(&new)), 15);
}

#[test]
fn a_store_of_one_entry() {
    let mut store = at_rest_for(1, 4);
    let numbers = [add(3), add(5), delete(3), add(5)].map(|call| store.make(call).0);
    assert_eq!(numbers, [0, 5, 0, 0]);
}

#[test]
fn the_printed_script() {
    let mut store = at_rest_for(8, 4);
    for key in [1, 5, 9] {
        assert_eq!(store.make(add(key)), (0, 0, 0));
    }
    assert_eq!(store.hand_out(scan(1), LONG), (0, 3, 3, vec![9, 5, 1]));
    assert_eq!(store.make(Call::Resize { size: 8 }), (0, 0, 0));
    assert_eq!(store.make(Call::RehashStep), (0, 3, 0));
    assert_eq!(store.hand_out(scan(1), LONG), (0, 5, 2, vec![1, 9]));
    assert_eq!(store.make(Call::RehashStep), (8, 0, 0));
    assert_eq!(store.make(find(9)), (0, value(9), 0));
}
