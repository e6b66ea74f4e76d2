//! Every error, met where the specification has it.

use std::collections::BTreeSet;

use suspects::raw::{self, ANSWER_BYTES};
use suspects::{CarefulPass, Error, Memory, PlainPass, Store};

fn store(keys: &[u32]) -> Store {
    let mut store = Store::new(4, 4).unwrap();
    for key in keys {
        store.add(*key, 1).unwrap();
    }
    store
}

/// A store whose one chain leads back to its beginning.
fn looping() -> Store {
    let mut memory = store(&[0]).into_memory();
    memory.entries[..4].copy_from_slice(&1_u32.to_le_bytes());
    Store::from_memory(memory)
}

fn moving() -> Store {
    let mut store = store(&[0, 1]);
    store.resize(8).unwrap();
    store
}

fn paused() -> Store {
    let mut store = moving();
    // It is never ended, and that is the point.
    let _ = CarefulPass::begin(&mut store).unwrap();
    store
}

fn short() -> Error {
    let store = store(&[0, 4]);
    let Memory { state, first, second, entries } = store.memory();
    let mut answer = [0; ANSWER_BYTES];
    let number = raw::scan(state, first, second, entries, &mut [0; 12], &mut answer, 0);
    Error::check(number, &answer).unwrap_err()
}

fn changed() -> Result<(), Error> {
    let mut store = store(&[]);
    let pass = PlainPass::begin(&store)?;
    store.add(0, 1)?;
    pass.end(&store)
}

fn crowded() -> Result<(), Error> {
    let mut store = store(&[]);
    (0..256).try_for_each(|_| CarefulPass::begin(&mut store).map(drop))
}

/// One of each, with its number and its name in the specification.
fn met() -> Vec<(Error, u32, &'static str)> {
    vec![
        (Store::from_memory(Memory::zeroed(4, 4)).find(0).unwrap_err(), 1, "bad state"),
        (looping().find(0).unwrap_err(), 2, "damaged"),
        (store(&[0]).find(1).unwrap_err(), 3, "absent"),
        (store(&[0]).add(0, 1).unwrap_err(), 4, "present"),
        (store(&[0, 1, 2, 3]).add(4, 1).unwrap_err(), 5, "full"),
        (Store::new(4, 3).unwrap_err(), 6, "bad size"),
        (moving().resize(16).unwrap_err(), 7, "moving"),
        (store(&[]).rehash_step().unwrap_err(), 8, "not moving"),
        (short(), 9, "short"),
        (changed().unwrap_err(), 15, "changed"),
        (CarefulPass::resume(0).end(&mut store(&[])).unwrap_err(), 16, "no careful pass"),
        (crowded().unwrap_err(), 17, "too many careful passes"),
        (paused().rehash_step().unwrap_err(), 18, "paused"),
    ]
}

#[test]
fn every_error_is_met() {
    let mut numbers = BTreeSet::new();
    for (error, number, name) in met() {
        assert_eq!(error.number(), number);
        assert!(numbers.insert(number));
        // What it says begins with its name.
        assert_eq!(error.to_string().split(':').next(), Some(name));
        assert!(std::error::Error::source(&error).is_none());
    }
    assert_eq!(short(), Error::Short { keys: 2 });
}

#[test]
fn an_error_comes_of_its_number() {
    let keys = 0x0403_0201_u32;
    let mut answer = [0; ANSWER_BYTES];
    answer[4..].copy_from_slice(&keys.to_le_bytes());
    assert_eq!(Error::check(0, &answer), Ok(()));
    for (error, number, _) in met() {
        let due = match error {
            Error::Short { .. } => Error::Short { keys },
            other => other,
        };
        assert_eq!(Error::check(number, &answer), Err(due));
    }
}

/// 10 is the program's, and 11 to 14 are no call's.
#[test]
fn other_numbers_are_no_answers() {
    for number in (10..15).chain([19, u32::MAX]) {
        let checked = std::panic::catch_unwind(|| Error::check(number, &[0; ANSWER_BYTES]));
        let said = checked.unwrap_err().downcast::<String>().unwrap();
        assert!(said.contains(&number.to_string()), "{said}");
    }
}

/// The limits, and the order of a start's refusals: 6 before 1.
#[test]
fn a_store_that_cannot_be() {
    for (capacity, size, error) in [
        (0, 4, Error::BadSize),
        (65_537, 4, Error::BadSize),
        (u32::MAX, 4, Error::BadSize),
        (4, 0, Error::BadSize),
        (4, 6, Error::BadSize),
        (4, 131_072, Error::BadSize),
        (4, u32::MAX, Error::BadSize),
        (4097, 6, Error::BadSize),
        (65_536, 4, Error::BadState),
        (4097, 4, Error::BadState),
        (4, 8192, Error::BadState),
        (4, 65_536, Error::BadState),
    ] {
        assert_eq!(Store::new(capacity, size).unwrap_err(), error, "{capacity}, {size}");
    }
    assert_eq!((Store::MAX_CAPACITY, Store::MAX_SIZE), (4096, 4096));
    let store = Store::new(Store::MAX_CAPACITY, Store::MAX_SIZE).unwrap();
    assert_eq!((store.capacity(), store.size()), (Store::MAX_CAPACITY, Store::MAX_SIZE));
}

/// The calls of `raw` write the front of a list, and leave the rest of it.
#[test]
fn a_list_of_bytes() {
    let store = store(&[4, 0]);
    let Memory { state, first, second, entries } = store.memory();
    let numbers = |bytes: &[u8]| {
        bytes.as_chunks().0.iter().copied().map(u32::from_le_bytes).collect::<Vec<_>>()
    };
    let (mut list, mut answer) = ([0xff; 20], [0xff; ANSWER_BYTES]);
    assert_eq!(raw::scan(state, first, second, entries, &mut list, &mut answer, 0), 0);
    assert_eq!(numbers(&list), [0, 1, 4, 1, u32::MAX]);
    assert_eq!(numbers(&answer), [2, 2]);
    let (mut list, mut answer) = ([0xff; 20], [0xff; ANSWER_BYTES]);
    assert_eq!(raw::iterate(state, first, second, entries, &mut list, &mut answer, 0), 0);
    assert_eq!(numbers(&list), [0, 1, 4, 1, u32::MAX]);
    assert_eq!(numbers(&answer), [1, 2]);
}

/// An answer becomes zeros also where nothing else is looked at, if it has its own length.
#[test]
fn an_answer_of_bytes() {
    let store = store(&[4]);
    let Memory { state, first, second, entries } = store.memory();
    let mut answer = [0xff; ANSWER_BYTES];
    assert_eq!(raw::find(&state[1..], first, second, entries, &mut answer, 4), 1);
    assert_eq!(answer, [0; ANSWER_BYTES]);
    let mut answer = [0xff; ANSWER_BYTES + 1];
    assert_eq!(raw::find(state, first, second, entries, &mut answer, 4), 1);
    assert_eq!(answer, [0xff; ANSWER_BYTES + 1]);
}
