//! Walks through a store that changes between their calls.

use std::collections::{BTreeMap, BTreeSet};

use crate::changes::{Change, Pair, Random};
use suspects::{Cell, Store, Walk};

/// What one walk has met, from its first call to its last.
struct Watch {
    /// The cells that were held at each of its calls.
    held: BTreeSet<Cell>,
    handed_out: BTreeMap<Cell, u32>,
    /// The size of the smaller live table at each of its calls.
    sizes: Vec<u32>,
}

impl Watch {
    fn new(pair: &Pair) -> Watch {
        Watch {
            held: pair.map.keys().copied().collect(),
            handed_out: BTreeMap::new(),
            sizes: Vec::new(),
        }
    }

    /// Makes the next call, and answers whether there was one.
    fn call(&mut self, walk: &mut Walk, pair: &Pair) -> bool {
        let Some(group) = walk.next(&pair.store).unwrap() else {
            return false;
        };
        self.held.retain(|cell| pair.map.contains_key(cell));
        self.sizes.push(smaller_size(&pair.store));
        let bound = *self.sizes.iter().max().unwrap() as usize;
        assert!(self.sizes.len() <= bound, "a call too many, by sizes {:?}", self.sizes);
        for (cell, fails) in group {
            assert_eq!(pair.map.get(cell), Some(fails));
            *self.handed_out.entry(*cell).or_default() += 1;
        }
        true
    }

    /// How many calls had a smaller size than the call before.
    fn descents(&self) -> u32 {
        self.sizes.windows(2).filter(|sizes| sizes[1] < sizes[0]).count() as u32
    }

    /// Sees that the walk has kept its promises, now that it has ended.
    fn expect(&self) {
        for cell in &self.held {
            assert!(self.handed_out.contains_key(cell), "{cell} was lost");
        }
        let most = 1 + self.descents();
        for (cell, times) in &self.handed_out {
            assert!(*times <= most, "{cell} came {times} times, by sizes {:?}", self.sizes);
        }
    }
}

/// The size of the smaller live table.
fn smaller_size(store: &Store) -> u32 {
    let size = store.size();
    store.new_size().map_or(size, |new_size| new_size.min(size))
}

/// Some walks see the table grow, some see it shrink, and some of these hand out a cell twice.
#[test]
fn walks_lose_nothing() {
    let (mut grew, mut shrank, mut doubled) = (0, 0, 0);
    for seed in 0..100 {
        let mut random = Random::new(seed);
        let mut pair = Pair::new(400, 1 << random.below(7));
        for _ in 0..random.below(200) {
            let _ = pair.change(Change::any(&mut random, 20, 500));
        }
        let adds = [2, 8, 40][random.below(3) as usize];
        let mut walk = Walk::new();
        let mut watch = Watch::new(&pair);
        while watch.call(&mut walk, &pair) {
            for _ in 0..random.below(12) {
                let _ = pair.change(Change::any(&mut random, adds, 500));
            }
        }
        watch.expect();
        grew += u32::from(watch.sizes.windows(2).any(|sizes| sizes[1] > sizes[0]));
        shrank += u32::from(watch.descents() > 0);
        doubled += u32::from(watch.handed_out.values().any(|times| *times > 1));
    }
    assert!(grew > 20 && shrank > 20 && doubled > 5, "{grew}, {shrank}, {doubled}");
}

/// Adds alone, so that the table only grows: each cell that was held throughout comes exactly once.
#[test]
fn a_walk_of_a_growing_store_hands_out_nothing_twice() {
    for first in [1, 3, 50, 300] {
        let mut pair = Pair::new(2000, 4);
        let mut keys = 0..2000;
        for key in keys.by_ref().take(first) {
            pair.change(Change::Add(key.into(), key)).unwrap();
        }
        let mut walk = Walk::new();
        let mut watch = Watch::new(&pair);
        while watch.call(&mut walk, &pair) {
            for key in keys.by_ref().take(7) {
                pair.change(Change::Add(key.into(), key)).unwrap();
            }
        }
        watch.expect();
        assert_eq!((watch.held.len(), watch.descents()), (first, 0));
        assert!(watch.handed_out.values().all(|times| *times == 1));
        assert!(pair.map.len() > first + 7, "few were added meanwhile");
    }
}

/// Its cursor is all that a walk is: one that goes on from a kept cursor hands out the same.
#[test]
fn a_walk_goes_on_from_its_cursor() {
    let mut pair = Pair::new(100, 4);
    let mut random = Random::new(3);
    for _ in 0..150 {
        let _ = pair.change(Change::any(&mut random, 20, 200));
    }
    let mut walk = Walk::default();
    assert_eq!(walk.cursor(), Some(0));
    let mut calls = 0;
    while let Some(cursor) = walk.cursor() {
        calls += 1;
        assert!(calls <= Store::MAX_SIZE);
        let mut other = Walk::from_cursor(cursor);
        assert_eq!(walk.next(&pair.store).unwrap(), other.next(&pair.store).unwrap());
        assert_eq!(walk.cursor(), other.cursor());
        let _ = pair.change(Change::any(&mut random, 20, 200));
    }
    assert_eq!(walk.next(&pair.store), Ok(None));
}

/// The calls of the specification's printed script, cursor for cursor.
#[test]
fn the_printed_script() {
    let mut store = Store::new(8, 4).unwrap();
    for key in [1, 5, 9] {
        store.add(key, 10 * key).unwrap();
    }
    let group = |keys: &[u32]| keys.iter().map(|&key| (key.into(), 10 * key)).collect::<Vec<_>>();
    let mut walk = Walk::from_cursor(1);
    assert_eq!(walk.next(&store).unwrap().unwrap(), group(&[9, 5, 1]));
    assert_eq!(walk.cursor(), Some(3));
    store.resize(8).unwrap();
    assert!(!store.rehash_step().unwrap().moving);
    let mut walk = Walk::from_cursor(1);
    assert_eq!(walk.next(&store).unwrap().unwrap(), group(&[1, 9]));
    assert_eq!(walk.cursor(), Some(5));
}

/// A new store has no keys, and its walk is over with one call that hands out none.
#[test]
fn a_walk_of_an_empty_store() {
    let store = Store::new(8, 4).unwrap();
    let mut walk = Walk::new();
    assert_eq!(walk.next(&store), Ok(Some(&[][..])));
    assert_eq!((walk.cursor(), walk.next(&store)), (None, Ok(None)));
    assert_eq!(store.walk().next(), None);
}
