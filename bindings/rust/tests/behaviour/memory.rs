//! Memory that something else has written: every call answers, and a refusal changes nothing.

use std::collections::BTreeMap;

use crate::changes::{Change, Pair, Random};
use suspects::{CarefulPass, Error, Memory, PlainPass, Store, Walk};

type Answered = BTreeMap<&'static str, Result<(), Error>>;

type Call = fn(&mut Store, key: u32, size: u32) -> Result<(), Error>;

/// Makes every call once but a start, and sees that a refusal changes nothing. Answers how each of
/// them went, by its name.
fn every_call(store: &mut Store, key: u32, size: u32) -> Answered {
    let calls: [(&str, Call); 16] = [
        ("find", |store, key, _| store.find(key).map(drop)),
        ("update", |store, key, _| store.update(key, 1)),
        ("suggested size", |store, _, size| store.suggested_size(size % 2 == 0).map(drop)),
        ("walk call", |store, key, _| Walk::from_cursor(key).next(store).map(drop)),
        ("walk", |store, _, _| store.walk().try_for_each(|suspect| suspect.map(drop))),
        ("pass call", |store, key, _| PlainPass::resume(key % 16, 0).next(store).map(drop)),
        ("plain pass", |store, _, _| PlainPass::begin(store)?.end(store)),
        ("end of a plain pass", |store, key, _| PlainPass::resume(0, key.into()).end(store)),
        ("add", |store, key, _| store.add(key, 1)),
        ("delete", |store, key, _| store.delete(key)),
        ("step", |store, _, _| store.rehash_step().map(drop)),
        ("resize", |store, _, size| store.resize(size)),
        ("permission", |store, _, size| store.allow_resize(size % 2 == 0)),
        ("begin of a careful pass", |store, _, _| CarefulPass::begin(store).map(drop)),
        ("end of a careful pass", |store, _, _| CarefulPass::resume(0).end(store)),
        ("careful pass", |store, _, _| store.careful_pass(|_, _| Ok(()))),
    ];
    let make = |(name, call): (_, Call)| {
        let before = store.memory().clone();
        let answered = call(store, key, size);
        if answered.is_err() {
            assert!(*store.memory() == before, "{name} was refused");
        }
        (name, answered)
    };
    calls.map(make).into()
}

fn all_bad(answered: &Answered) -> bool {
    answered.values().all(|answered| *answered == Err(Error::BadState))
}

/// A store of `capacity` cells, half of them held or more, with a move under way.
fn filled(random: &mut Random, capacity: u32) -> Pair {
    let mut pair = Pair::new(capacity, 4);
    while pair.map.len() < capacity as usize / 2 {
        let cell = random.below(2 * capacity).into();
        let _ = pair.change(Change::Add(cell, random.below(100)));
    }
    if !pair.store.is_rehashing() {
        pair.change(Change::Resize(2 * pair.store.size())).unwrap();
    }
    pair
}

/// Bytes of the state and of the buffers are overwritten, a few or many.
#[test]
fn damage_is_answered() {
    let mut random = Random::new(1);
    let (mut sound, mut damaged, mut bad) = (0, 0, 0);
    for round in 0..400 {
        let pair = filled(&mut random, 12);
        let mut memory = pair.store.into_memory();
        // What lies beyond plays no part.
        memory.first.truncate(4 * 64);
        memory.second.truncate(4 * 64);
        let some = round % 10 + 1;
        for _ in 0..some {
            let Memory { state, first, second, entries } = &mut memory;
            let (bytes, live): (&mut [u8], _) = match random.below(5) {
                0 => (state, 44),
                1 => (first, 4 * 8),
                2 => (second, 4 * 8),
                _ => (entries, 12 * 12),
            };
            // Of a number mostly its lowest byte, so that it stays small.
            let place = random.below(live / 4) * 4 + random.below(8) / 7;
            bytes[place as usize] = random.below(16) as u8;
        }
        let mut store = Store::from_memory(memory);
        let size = 1 << random.below(7);
        for answered in every_call(&mut store, random.below(24), size).values() {
            match answered {
                Err(Error::BadState) => bad += 1,
                Err(Error::Damaged) => damaged += 1,
                _ => sound += 1,
            }
        }
    }
    assert!(sound > 200 && damaged > 200 && bad > 200, "{sound}, {damaged}, {bad}");
}

/// Memory of nothing but random bytes, with a sound state and without.
#[test]
fn any_bytes_are_answered() {
    let mut random = Random::new(2);
    let mut damaged = 0;
    for round in 0..300 {
        let mut memory = filled(&mut random, 12).store.into_memory();
        let Memory { state, first, second, entries } = &mut memory;
        if round % 2 == 0 {
            fill(&mut random, state);
        }
        for bytes in [first, second, entries] {
            bytes.truncate(4 * 36);
            fill(&mut random, bytes);
        }
        let mut store = Store::from_memory(memory);
        let answered = every_call(&mut store, random.below(24), 16);
        if round % 2 == 0 {
            assert!(all_bad(&answered));
        } else {
            assert!(answered.values().all(|answered| *answered != Err(Error::BadState)));
            damaged += u32::from(answered["walk"] == Err(Error::Damaged));
        }
    }
    assert!(damaged > 100, "{damaged}");
}

fn fill(random: &mut Random, bytes: &mut [u8]) {
    bytes.fill_with(|| random.next() as u8);
}

/// Lengths that the exports take, and lengths that they do not.
#[test]
fn lengths_are_checked() {
    let store = Store::new(Store::MAX_CAPACITY, 4).unwrap();
    assert_eq!(store.find(0), Err(Error::Absent));
    let buffers: [fn(&mut Memory) -> &mut Vec<u8>; 3] =
        [|memory| &mut memory.first, |memory| &mut memory.second, |memory| &mut memory.entries];
    for (index, buffer) in buffers.into_iter().enumerate() {
        let full = buffer(&mut store.memory().clone()).len();
        for length in [full + 4, full + 1, full - 1, full - 3, 0] {
            let mut memory = store.memory().clone();
            buffer(&mut memory).resize(length, 0);
            let mut other = Store::from_memory(memory);
            let answered = every_call(&mut other, 1, 8);
            if length == 0 && index == 1 {
                // With no move under way the second buffer is not needed, but to move to.
                assert_eq!((answered["add"], answered["resize"]), (Ok(()), Err(Error::BadSize)));
            } else {
                assert!(all_bad(&answered));
                assert_eq!(other.init(8, 4), Err(Error::BadState));
            }
        }
    }
}

/// The three flags of a state are 0 or 1, in all four bytes of each.
#[test]
fn flags_are_checked() {
    let store = Store::new(4, 4).unwrap();
    for flag in [0, 5, 9] {
        for byte in 0..4 {
            let mut memory = store.memory().clone();
            memory.state[4 * flag + byte] = 2;
            let mut other = Store::from_memory(memory);
            assert!(all_bad(&every_call(&mut other, 1, 8)));
            // A start reads no state.
            assert_eq!((other.init(4, 4), other.find(1)), (Ok(()), Err(Error::Absent)));
        }
    }
}

/// The iterator ends with the first error, though the walk itself could be tried again.
#[test]
fn an_iterator_ends_with_an_error() {
    let mut store = Store::new(8, 4).unwrap();
    for key in [0, 2, 1] {
        store.add(key, key).unwrap();
    }
    // The walk goes by the buckets 0, 2, 1, 3. The chain of bucket 2 loops.
    let mut memory = store.into_memory();
    let entry = memory.first[4 * 2];
    memory.entries[12 * (usize::from(entry) - 1)] = entry;
    let store = Store::from_memory(memory);
    let items: Vec<_> = store.walk().take(5).collect();
    assert_eq!(items, [Ok((0.into(), 0)), Err(Error::Damaged)]);

    let mut walk = Walk::new();
    assert_eq!(walk.next(&store).unwrap().unwrap(), [(0.into(), 0)]);
    for _ in 0..3 {
        assert_eq!(walk.next(&store), Err(Error::Damaged));
        assert_eq!(walk.cursor(), Some(2));
    }
}

/// The same bytes are the same store, wherever they lie.
#[test]
fn a_store_is_its_bytes() {
    let mut random = Random::new(3);
    let pair = filled(&mut random, 100);
    let fingerprint = PlainPass::begin(&pair.store).unwrap().fingerprint();
    let mut copy = Store::from_memory(pair.store.memory().clone());
    assert_eq!(PlainPass::begin(&copy).unwrap().fingerprint(), fingerprint);
    assert!(copy.walk().eq(pair.store.walk()));

    // What happens to the copy does not happen to the store, but would.
    let mut other = pair.store.clone();
    while copy.rehash_step().unwrap().moving {
        other.rehash_step().unwrap();
    }
    assert!(other.is_rehashing() && pair.store.is_rehashing());
    other.rehash_step().unwrap();
    assert!(copy.memory() == other.memory() && copy.memory() != pair.store.memory());
}

/// A refused start leaves the store, and one that is answered leaves nothing of it.
#[test]
fn a_start_in_the_same_memory() {
    let mut store = Store::new(8, 4).unwrap();
    store.add(1, 10).unwrap();
    let _ = CarefulPass::begin(&mut store).unwrap();
    store.allow_resize(false).unwrap();
    let before = store.memory().clone();
    for (capacity, size, error) in [(9, 4, Error::BadState), (8, 3, Error::BadSize)] {
        assert_eq!(store.init(capacity, size), Err(error));
        assert!(*store.memory() == before);
    }
    store.init(4, 8).unwrap();
    assert_eq!((store.len(), store.capacity(), store.size()), (0, 4, 8));
    assert_eq!((store.careful_passes(), store.is_resize_allowed()), (0, true));
    assert_eq!(store.find(1), Err(Error::Absent));
}
