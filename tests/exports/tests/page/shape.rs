//! Stores of a given shape, and calls on them over bytes.

use exports::call::{Archive, Call, Model};
use exports::compare::Comparison;
use exports::model::bytes::checked;
use exports::model::numbers::{State, Store, Table};
use exports::random::Random;
use exports::slices::{Slice, Slices};

/// Enough entries and buckets for every example.
const CAPACITY: u32 = 32;
const BUCKETS: usize = 64;

/// More numbers than any list of an example needs.
pub const LONG: usize = 1_000;

/// The value that a key has here.
pub fn value(key: u32) -> u32 {
    key + 100
}

/// The number that the model and the archive both return. Every byte that they leave is compared.
pub fn answer(call: Call, slices: &mut Slices) -> u32 {
    match Comparison::new(&Model, &Archive).make(call, slices) {
        Ok(number) => number,
        Err(difference) => panic!("{difference}"),
    }
}

/// A store as bytes, with a list of so many numbers.
pub fn as_bytes(store: &Store, list: usize) -> Slices {
    let mut random = Random::new(1);
    let mut slices = Slices::of_store(&mut random, store);
    slices.list = Slice::random(&mut random, 4 * list);
    slices
}

/// An empty store with one table.
pub fn at_rest(size: u32) -> Store {
    at_rest_for(CAPACITY, size)
}

pub fn at_rest_for(capacity: u32, size: u32) -> Store {
    let mut store = Store {
        state: State::default(),
        first: vec![7; BUCKETS],
        second: vec![7; BUCKETS],
        entries: vec![7; 3 * capacity as usize],
    };
    assert_eq!(store.make(Call::Init { capacity, size }), (0, 0, 0));
    store
}

/// An empty store during a move.
pub fn moving(old_size: u32, new_size: u32) -> Store {
    let mut store = at_rest(old_size);
    assert_eq!(store.make(Call::Resize { size: new_size }), (0, 0, 0));
    store
}

pub trait Shape: Sized {
    /// Makes the call: its number, and the two numbers of its answer.
    fn make(&mut self, call: Call) -> (u32, u32, u32);

    /// The number of the call, made on a copy.
    fn number(&self, call: Call) -> u32;

    /// Makes a walk call or a pass call: its number, the two numbers of its answer, and the keys of the pairs that it
    /// hands out to a list of so many numbers. Each key must come with its value.
    fn hand_out(&self, call: Call, list: usize) -> (u32, u32, u32, Vec<u32>);

    /// With a chain of these keys, in this order, in a bucket, counted.
    fn with(self, table: Table, bucket: u32, keys: &[u32]) -> Self;

    fn with_next_bucket(self, bucket: u32) -> Self;

    fn with_careful_passes(self, passes: u32) -> Self;

    /// The entry that has this key.
    fn entry(&self, key: u32) -> u32;

    /// The same store after something was done to it.
    fn but(&self, change: impl FnOnce(&mut Self)) -> Self;
}

impl Shape for Store {
    fn make(&mut self, call: Call) -> (u32, u32, u32) {
        let mut slices = as_bytes(self, LONG);
        let number = answer(call, &mut slices);
        let (state, first) = (slices.state.get(), slices.first.get());
        let (second, entries) = (slices.second.get(), slices.entries.get());
        let after = checked(state, first, second, entries, slices.answer.get());
        *self = after.expect("a call leaves flags and lengths as they must be");
        (number, slices.answer.number(0), slices.answer.number(1))
    }

    fn number(&self, call: Call) -> u32 {
        self.clone().make(call).0
    }

    fn hand_out(&self, call: Call, list: usize) -> (u32, u32, u32, Vec<u32>) {
        let mut slices = as_bytes(self, list);
        let number = answer(call, &mut slices);
        let (next, keys) = (slices.answer.number(0), slices.answer.number(1));
        let handed_out = if number == 0 { keys as usize } else { 0 };
        let keys_of_pairs = (0..handed_out).map(|pair| {
            let key = slices.list.number(2 * pair);
            assert_eq!(slices.list.number(2 * pair + 1), value(key));
            key
        });
        (number, next, keys, keys_of_pairs.collect())
    }

    fn with(mut self, table: Table, bucket: u32, keys: &[u32]) -> Self {
        for &key in keys.iter().rev() {
            let entry = self.state.free_head;
            self.state.free_head = self.link(entry);
            self.set_link(entry, self.head(table, bucket));
            self.set_key(entry, key);
            self.set_value(entry, value(key));
            self.set_head(table, bucket, entry);
            *self.used_mut(table) += 1;
        }
        self
    }

    fn with_next_bucket(mut self, bucket: u32) -> Self {
        self.state.rehash_index = bucket;
        self
    }

    fn with_careful_passes(mut self, passes: u32) -> Self {
        self.state.safe_iterators = passes;
        self
    }

    fn entry(&self, key: u32) -> u32 {
        let held = self.state.held() as u32;
        let found = (1..=held).find(|&entry| self.key(entry) == key);
        found.expect("the key is held")
    }

    fn but(&self, change: impl FnOnce(&mut Self)) -> Self {
        let mut other = self.clone();
        change(&mut other);
        other
    }
}

pub fn find(key: u32) -> Call {
    Call::Find { key }
}

pub fn update(key: u32) -> Call {
    Call::Update {
        key,
        value: value(key) + 1,
    }
}

pub fn add(key: u32) -> Call {
    Call::Add {
        key,
        value: value(key),
    }
}

pub fn delete(key: u32) -> Call {
    Call::Delete { key }
}

pub fn scan(cursor: u32) -> Call {
    Call::Scan { cursor }
}

pub fn iterate(place: u32) -> Call {
    Call::Iterate { place }
}

/// What the readers of "Cases" answer: find, change and delete of a key, add of another one, and a walk call at
/// cursor 0.
pub fn readers(store: &Store, key: u32, another: u32) -> [u32; 5] {
    let calls = [find(key), update(key), delete(key), add(another), scan(0)];
    calls.map(|call| store.number(call))
}

/// The fingerprint that the begin of a plain pass answers.
pub fn fingerprint(store: &Store) -> u64 {
    let mut slices = as_bytes(store, 0);
    assert_eq!(answer(Call::BeginIterator, &mut slices), 0);
    slices
        .answer
        .get()
        .iter()
        .rev()
        .fold(0, |all, &byte| all << 8 | u64::from(byte))
}
