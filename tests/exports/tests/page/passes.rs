//! The examples of `docs/PASSES.md`.

use exports::call::Call;
use exports::model::numbers::Store;
use exports::model::passes::mixed;

use crate::shape::{add, at_rest, delete, fingerprint, iterate, Shape, LONG};

fn with_keys(size: u32, keys: &[u32]) -> Store {
    let mut store = at_rest(size);
    for &key in keys {
        assert_eq!(store.make(add(key)), (0, 0, 0));
    }
    store
}

/// The keys that a pass call hands out, and the place that it answers.
fn pass_call(store: &Store, place: u32) -> (Vec<u32>, u32) {
    let (number, next, _, keys) = store.hand_out(iterate(place), LONG);
    assert_eq!(number, 0);
    (keys, next)
}

/// The end of a plain pass.
fn end(store: &Store, fingerprint: u64) -> u32 {
    store.number(Call::EndIterator { fingerprint })
}

#[test]
fn a_pass_call_by_call() {
    let mut store = with_keys(4, &[1, 3, 6]);
    assert_eq!(store.make(Call::BeginSafe), (0, 0, 0));
    assert_eq!(store.state.safe_iterators, 1);
    assert_eq!(pass_call(&store, 0), (vec![1], 2));
    assert_eq!(store.make(add(9)), (0, 0, 0));
    assert_eq!((store.state.rehashing, store.state.new_size), (true, 8));
    assert_eq!(store.make(Call::RehashStep), (18, 0, 0));
    assert_eq!(pass_call(&store, 2), (vec![6], 3));
    for key in [3, 1] {
        assert_eq!(store.make(delete(key)), (0, 0, 0));
        assert_eq!(store.make(add(key)), (0, 0, 0));
    }
    assert_eq!(pass_call(&store, 3), (vec![1], 6));
    assert_eq!(pass_call(&store, 6), (vec![3], 8));
    assert_eq!(pass_call(&store, 8), (vec![], 12));
    assert_eq!(store.make(Call::EndSafe), (0, 0, 0));
    assert_eq!(store.state.safe_iterators, 0);
    // The move can go on: key 9 moves, and key 6 is left.
    assert_eq!(store.make(Call::RehashStep), (0, 1, 1));
}

#[test]
fn one_key_for_another() {
    let mut store = with_keys(4, &[1, 2]);
    let begun = fingerprint(&store);
    assert_eq!(begun, 8_427_530_295_853_426_936);
    assert_eq!(begun, mixed([0, 4, 2, 1, 0, 0]));
    assert_eq!(pass_call(&store, 0), (vec![1], 2));
    assert_eq!(store.make(delete(2)), (0, 0, 0));
    assert_eq!(end(&store, begun), 15);
    assert_eq!(store.make(add(5)), (0, 0, 0));
    assert_eq!(pass_call(&store, 2), (vec![], 4));
    assert_eq!(end(&store, begun), 0);
}

#[test]
fn there_and_back() {
    let mut store = with_keys(4, &[1, 2, 7]);
    let begun = fingerprint(&store);
    assert_eq!(pass_call(&store, 0), (vec![1], 2));
    assert_eq!(store.make(Call::Resize { size: 2 }), (0, 0, 0));
    let steps = [(); 3].map(|()| store.make(Call::RehashStep));
    assert_eq!(steps, [(0, 1, 1), (0, 1, 1), (0, 1, 0)]);
    assert_eq!(pass_call(&store, 2), (vec![], 2));
    assert_eq!(store.make(Call::Resize { size: 4 }), (0, 0, 0));
    let steps = [(); 2].map(|()| store.make(Call::RehashStep));
    assert_eq!(steps, [(0, 1, 1), (0, 2, 0)]);
    assert!(!store.state.second_is_current);
    assert_eq!(end(&store, begun), 0);
}

/// Numbers of states that no store over bytes has; so of the model alone.
#[test]
fn other_numbers_the_same_fingerprint() {
    assert_eq!(
        mixed([0, 8, 11_013, 1, 256, 46_240]),
        1_014_862_717_411_466_258
    );
    assert_eq!(
        mixed([0, 4_096, 61_146, 1, 2_048, 0]),
        1_014_862_717_411_466_258
    );
}
