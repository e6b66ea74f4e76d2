//! Careful passes through a store that changes, and plain ones that notice it.

use std::collections::{BTreeMap, BTreeSet};
use std::panic::{AssertUnwindSafe, catch_unwind};

use crate::changes::{Change, Pair, Random};
use suspects::{CarefulPass, Cell, Error, PlainPass, Step, Store, Suspect, Walk};

fn store(keys: &[u32]) -> Store {
    let mut store = Store::new(8, 4).unwrap();
    for key in keys {
        store.add(*key, 10 * key).unwrap();
    }
    store
}

fn bucket(keys: &[u32]) -> Option<Vec<Suspect>> {
    Some(keys.iter().map(|&key| (Cell::from(key), 10 * key)).collect())
}

/// Adds, deletes, resizes and growth come between the calls of each pass. What is held throughout
/// comes exactly once, and a cell comes at most once in each of its stays.
#[test]
fn careful_passes_hand_out_each_cell_once() {
    let (mut moves_begun, mut steps_paused, mut twice) = (0, 0, 0);
    for seed in 0..100 {
        let mut random = Random::new(seed);
        let mut pair = Pair::new(400, 1 << random.below(8));
        for _ in 0..random.below(200) {
            let _ = pair.change(Change::any(&mut random, 20, 300));
        }
        let moving = pair.store.is_rehashing();
        let mut held: BTreeSet<Cell> = pair.map.keys().copied().collect();
        let mut stays: BTreeMap<Cell, u32> = held.iter().map(|cell| (*cell, 1)).collect();
        let mut handed_out = BTreeMap::<Cell, u32>::new();

        let mut pass = CarefulPass::begin(&mut pair.store).unwrap();
        let mut place = pass.place();
        while let Some(bucket) = pass.next(&pair.store).unwrap() {
            assert!(!bucket.is_empty());
            for (cell, fails) in bucket {
                assert_eq!(pair.map.get(cell), Some(fails));
                *handed_out.entry(*cell).or_default() += 1;
            }
            for _ in 0..random.below(6) {
                let change = Change::any(&mut random, 2, 300);
                match (change, pair.change(change)) {
                    (Change::Add(cell, _), Ok(())) => *stays.entry(cell).or_default() += 1,
                    (Change::Delete(cell), Ok(())) => _ = held.remove(&cell),
                    (Change::Step, Err(Error::Paused)) => steps_paused += 1,
                    _ => {}
                }
            }
            assert!(pass.place() > place, "the pass does not come further");
            place = pass.place();
        }
        moves_begun += u32::from(!moving && pair.store.is_rehashing());
        assert!(!moving || pair.store.is_rehashing(), "a move has ended");
        pass.end(&mut pair.store).unwrap();
        assert_eq!(pair.store.careful_passes(), 0);

        assert!(held.iter().all(|cell| handed_out.get(cell) == Some(&1)));
        assert!(handed_out.iter().all(|(cell, times)| *times <= stays[cell]));
        twice += u32::from(handed_out.values().any(|times| *times > 1));
    }
    assert!(moves_begun > 20 && steps_paused > 20, "{moves_begun}, {steps_paused}");
    assert!(twice > 0, "no cell came a second time, in a second stay");
}

/// "A pass, call by call" of `docs/PASSES.md`.
#[test]
fn a_pass_call_by_call() {
    let mut store = store(&[1, 3, 6]);
    let mut pass = CarefulPass::begin(&mut store).unwrap();
    let mut next = |store: &Store| {
        let bucket = pass.next(store).unwrap().map(<[_]>::to_vec);
        (bucket, pass.place())
    };
    assert_eq!(next(&store), (bucket(&[1]), 2));
    store.add(9, 90).unwrap();
    assert_eq!((store.size(), store.new_size()), (4, Some(8)));
    assert_eq!(store.rehash_step(), Err(Error::Paused));
    assert_eq!(next(&store), (bucket(&[6]), 3));
    for key in [3, 1] {
        store.delete(key).unwrap();
        store.add(key, 10 * key).unwrap();
    }
    assert_eq!(next(&store), (bucket(&[1]), 6));
    assert_eq!(next(&store), (bucket(&[3]), 8));
    assert_eq!(next(&store), (None, 12));
    assert_eq!(next(&store), (None, 12));
    pass.end(&mut store).unwrap();
    assert_eq!(store.rehash_step(), Ok(Step { moved: 1, moving: true }));
}

/// Key 4 goes to a bucket that the pass has passed, and a move begins behind it. Key 5 goes to the
/// new table, which lies behind what was the end.
#[test]
fn a_careful_pass_goes_on_behind_its_end() {
    let mut store = store(&[1, 2, 3]);
    let mut pass = CarefulPass::begin(&mut store).unwrap();
    for key in [1, 2, 3] {
        assert_eq!(pass.next(&store).unwrap().map(<[_]>::to_vec), bucket(&[key]));
    }
    assert_eq!(pass.next(&store), Ok(None));
    assert_eq!(pass.place(), store.size());
    store.add(4, 40).unwrap();
    store.add(5, 50).unwrap();
    assert_eq!(pass.next(&store).unwrap().map(<[_]>::to_vec), bucket(&[5]));
    assert_eq!(pass.next(&store), Ok(None));
    pass.end(&mut store).unwrap();
}

#[test]
fn a_lost_careful_pass_stays_under_way() {
    let mut store = store(&[1, 2, 3]);
    drop(CarefulPass::begin(&mut store).unwrap());
    store.resize(8).unwrap();
    assert_eq!((store.careful_passes(), store.rehash_step()), (1, Err(Error::Paused)));
    CarefulPass::resume(0).end(&mut store).unwrap();
    assert_eq!((store.careful_passes(), store.rehash_step().is_ok()), (0, true));
}

/// Several at a time: the moves go on when the last of them has ended, whichever that is.
#[test]
fn careful_passes_are_counted() {
    let mut store = store(&[1, 2, 3]);
    let passes: Vec<_> = (0..255).map(|_| CarefulPass::begin(&mut store).unwrap()).collect();
    assert_eq!(store.careful_passes(), 255);
    let refused = CarefulPass::begin(&mut store).map(drop);
    assert_eq!(refused, Err(Error::TooManyCarefulPasses));
    store.resize(8).unwrap();
    for pass in passes {
        assert_eq!(store.rehash_step(), Err(Error::Paused));
        pass.end(&mut store).unwrap();
    }
    assert!(store.rehash_step().is_ok());
    assert_eq!(CarefulPass::resume(0).end(&mut store), Err(Error::NoCarefulPass));
}

#[test]
fn a_careful_pass_by_a_closure() {
    let mut pair = Pair::new(200, 4);
    for key in 0..100 {
        pair.change(Change::Add(key.into(), key)).unwrap();
    }
    let Pair { mut store, map } = pair;
    let mut visited = BTreeMap::new();
    store
        .careful_pass(|store, bucket| {
            assert_eq!(store.careful_passes(), 1);
            for &(cell, fails) in bucket {
                assert_eq!(visited.insert(cell, fails), None);
                store.delete(cell)?;
            }
            Ok(())
        })
        .unwrap();
    assert_eq!(visited, map);
    assert_eq!((store.len(), store.careful_passes()), (0, 0));
}

/// However the closure is left, the pass has ended behind it, and only that one.
#[test]
fn a_careful_pass_by_a_closure_always_ends() {
    let mut store = store(&[1, 2, 3]);
    let other = CarefulPass::begin(&mut store).unwrap();

    let mut visits = 0;
    let visited = store.careful_pass(|store, _| {
        visits += 1;
        assert_eq!(store.careful_passes(), 2);
        store.find(4).map(drop)
    });
    assert_eq!((visited, visits, store.careful_passes()), (Err(Error::Absent), 1, 1));

    let panicked = catch_unwind(AssertUnwindSafe(|| {
        store.careful_pass(|_, _| std::panic::resume_unwind(Box::new("left")))
    }));
    assert_eq!(panicked.unwrap_err().downcast_ref(), Some(&"left"));
    assert_eq!(store.careful_passes(), 1);

    // One inside the other.
    let mut inner = 0;
    let visited = store.careful_pass(|store, _| {
        store.careful_pass(|store, bucket| {
            assert_eq!(store.careful_passes(), 3);
            inner += bucket.len();
            Ok(())
        })
    });
    assert_eq!((visited, inner), (Ok(()), 9));
    other.end(&mut store).unwrap();

    // A start takes the pause away, so there is nothing to end.
    let visited = store.careful_pass(|store, _| store.init(8, 4));
    assert_eq!(visited, Err(Error::NoCarefulPass));
    assert!(store.is_empty());
}

/// Calls that read, refused ones, the permission and careful passes are no changes.
#[test]
fn a_plain_pass_of_a_store_that_stays_as_it_is() {
    let mut random = Random::new(1);
    let mut pair = Pair::new(200, 4);
    for _ in 0..200 {
        let _ = pair.change(Change::any(&mut random, 20, 300));
    }
    let Pair { mut store, map } = pair;
    let held = *map.keys().next().unwrap();
    let mut visited = BTreeMap::new();
    let mut pass = PlainPass::begin(&store).unwrap();
    while let Some(bucket) = pass.next(&store).unwrap() {
        assert!(!bucket.is_empty());
        for &(cell, fails) in bucket {
            assert_eq!(visited.insert(cell, fails), None);
        }
        assert_eq!(store.add(held, 1), Err(Error::Present));
        store.allow_resize(visited.len() % 2 == 0).unwrap();
        store.careful_pass(|store, _| store.find(held).map(drop)).unwrap();
    }
    assert_eq!(visited, map);
    assert_eq!(pass.end(&store), Ok(()));
}

#[test]
fn a_plain_pass_notices_a_change() {
    type Change = fn(&mut Store) -> Result<(), Error>;
    for change in [
        (|store| store.add(4, 40)) as Change,
        |store| store.delete(1),
        |store| store.resize(8),
        |store| store.init(8, 8),
    ] {
        let mut store = store(&[1, 2]);
        let mut pass = PlainPass::begin(&store).unwrap();
        assert!(pass.next(&store).unwrap().is_some());
        change(&mut store).unwrap();
        assert_eq!(pass.end(&store), Err(Error::Changed));
    }
}

/// "One key for another" of `docs/PASSES.md`: what a plain pass cannot notice.
#[test]
fn a_plain_pass_does_not_notice_every_change() {
    let mut store = store(&[1, 2]);
    let mut pass = PlainPass::begin(&store).unwrap();
    assert_eq!(pass.fingerprint(), 8_427_530_295_853_426_936);
    assert_eq!(pass.next(&store).unwrap().map(<[_]>::to_vec), bucket(&[1]));
    store.delete(2).unwrap();
    store.add(5, 50).unwrap();
    assert_eq!(pass.next(&store), Ok(None));
    assert_eq!(pass.place(), 4);
    assert_eq!(pass.end(&store), Ok(()));
}

/// A pass is its place, and a plain one its fingerprint too.
#[test]
fn passes_go_on_from_their_place() {
    let mut store = store(&[1, 2, 3, 5, 6]);
    let mut plain = PlainPass::begin(&store).unwrap();
    let mut careful = CarefulPass::begin(&mut store).unwrap();
    let end = store.size() + store.new_size().unwrap();
    while plain.place() < end {
        let place = plain.place();
        let mut other_plain = PlainPass::resume(place, plain.fingerprint());
        // None begins with this one, so that none is to be ended.
        let mut other_careful = CarefulPass::resume(careful.place());
        let bucket = plain.next(&store).unwrap();
        assert_eq!(bucket, careful.next(&store).unwrap());
        assert_eq!(bucket, other_plain.next(&store).unwrap());
        assert_eq!(bucket, other_careful.next(&store).unwrap());
        assert_eq!(other_plain.end(&store), Ok(()));
        assert!(plain.place() > place);
    }
    assert_eq!((plain.place(), careful.place()), (end, end));
    let forged = PlainPass::resume(u32::MAX, !plain.fingerprint());
    assert_eq!(forged.clone().next(&store), Ok(None));
    assert_eq!(forged.end(&store), Err(Error::Changed));
    careful.end(&mut store).unwrap();
}

/// A walk and both passes, cell by cell: what their calls hand out, from where they are.
#[test]
fn cell_by_cell() {
    let mut store = store(&[1, 3, 6, 9]);
    let sorted = |mut suspects: Vec<Suspect>| {
        suspects.sort();
        suspects
    };
    let held = sorted(bucket(&[1, 3, 6, 9]).unwrap());

    let mut walk = Walk::new();
    let mut handed_out = walk.next(&store).unwrap().unwrap().to_vec();
    handed_out.extend(walk.suspects(&store).map(Result::unwrap));
    assert_eq!((sorted(handed_out), walk.cursor()), (held.clone(), None));
    assert!(walk.suspects(&store).next().is_none());

    let mut plain = PlainPass::begin(&store).unwrap();
    let handed_out = plain.suspects(&store).collect::<Result<Vec<_>, _>>().unwrap();
    assert_eq!(sorted(handed_out), held);
    assert!(plain.suspects(&store).next().is_none());
    assert_eq!(plain.end(&store), Ok(()));

    let mut careful = CarefulPass::begin(&mut store).unwrap();
    let mut handed_out = careful.next(&store).unwrap().unwrap().to_vec();
    assert!(handed_out.len() < held.len());
    handed_out.extend(careful.suspects(&store).map(Result::unwrap));
    assert_eq!(sorted(handed_out), held);
    assert_eq!(careful.end(&mut store), Ok(()));
}
