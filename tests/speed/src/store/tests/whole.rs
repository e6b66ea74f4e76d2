//! Check and mend of a whole store.

use super::*;

/// A mend of an undamaged store changes nothing but the order of the free chain.
#[test]
fn an_undamaged_store_stays() {
    let stays = |store: &mut Store| {
        let before = Memory::of(store);
        assert_eq!(store.verify(), Ok(true));
        assert_eq!(store.repair(), Ok(()));
        assert_eq!(Memory::of(store), before);
    };
    with_store(stays);
    with_two_tables(stays);
    with_move(stays);
    with_both_moves(stays);
    with_store(|store| {
        for key in [9, 1] {
            assert_eq!(store.delete(key), Ok(()));
        }
        assert_eq!((store.state.free_head, store.link(1)), (1, 3));
        assert_eq!((store.link(3), store.verify()), (4, Ok(true)));
        assert_eq!(store.delete(5), Ok(()));
        assert_eq!((store.state.free_head, store.link(2)), (2, 1));
        assert_eq!(store.verify(), Ok(true));
        assert_eq!(store.repair(), Ok(()));
        assert_eq!(store.state.free_head, 1);
        for entry in 1..8 {
            assert_eq!(store.link(entry), entry + 1);
        }
        assert_eq!((store.link(8), store.verify()), (0, Ok(true)));
    });
}

/// A damage, and the pairs that a mend leaves, by their values.
type Case = (fn(&mut Store), &'static [(u32, u32)]);

fn expect_mended(store: &mut Store, (spoil, pairs): Case, case: usize) {
    spoil(store);
    let damaged = Memory::of(store);
    assert_eq!(store.verify(), Ok(false), "{case}");
    assert_eq!(Memory::of(store), damaged);
    assert_eq!(store.repair(), Ok(()));
    assert_eq!(store.verify(), Ok(true), "{case}");
    assert_eq!(walked(store), pairs, "{case}");
    let held = store.state.old_used + store.state.new_used;
    assert_eq!(held as usize, pairs.len());
}

/// The chain has entries 3, 2 and 1, with keys 9, 5 and 1, and the free one the
/// entries 4 to 8.
#[test]
fn damage_is_told_and_mended() {
    const ALL: &[(u32, u32)] = &[(1, 10), (5, 50), (9, 90)];
    let cases: [Case; 12] = [
        // A loop, and links out of range.
        (|store| store.entries[0] = 3, ALL),
        (|store| store.entries[0] = 9, ALL),
        (|store| store.entries[3] = u32::MAX, &[(5, 50), (9, 90)]),
        // A bucket that leads into the free chain, and that into a bucket's.
        (
            |store| store.first[0] = 8,
            &[(0, 0), (1, 10), (5, 50), (9, 90)],
        ),
        (|store| store.entries[21] = 3, ALL),
        // A key out of its bucket, and one that is there twice.
        (|store| set_key(store, 2, 6), &[(9, 90)]),
        (|store| set_key(store, 1, 9), &[(5, 50), (9, 90)]),
        // Wrong counts.
        (|store| store.state.old_used = 2, ALL),
        (|store| store.state.old_used = 4, ALL),
        // A free chain that is short, and one that loops.
        (|store| store.state.free_head = 5, ALL),
        (|store| store.state.free_head = 0, ALL),
        (|store| store.entries[21] = 4, ALL),
    ];
    for (number, case) in cases.into_iter().enumerate() {
        with_store(|store| expect_mended(store, case, number));
    }
}

/// Entry 4 has key 13, in the new table.
#[test]
fn damage_in_a_move_is_told_and_mended() {
    const ALL: &[(u32, u32)] = &[(1, 10), (5, 50), (9, 90), (13, 130)];
    let cases: [Case; 4] = [
        // The bucket that is filled has moved already, as it seems.
        (|store| store.state.rehash_index = 2, ALL),
        // A key in both tables: the old one's comes first.
        (|store| set_key(store, 4, 5), &ALL[..3]),
        // An entry in both tables.
        (|store| store.entries[0] = 4, ALL),
        (
            |store| (store.state.old_used, store.state.new_used) = (4, 0),
            ALL,
        ),
    ];
    for (number, case) in cases.into_iter().enumerate() {
        with_two_tables(|store| {
            expect_mended(store, case, number);
            let index = if number == 0 { 1 } else { 0 };
            assert_eq!(store.state.rehash_index, index);
        });
    }
}
