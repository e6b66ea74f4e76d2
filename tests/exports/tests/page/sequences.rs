//! "Sequences of calls" of `docs/SPECIFICATION.md`: over random sequences the model stays undamaged and answers as a
//! plain map, every walk and every pass of a store that stays as it is hands out each key once, and every move ends
//! in time.

use std::collections::BTreeMap;

use exports::model::numbers::{Refusal, Store, Table};
use exports::random::Random;

use crate::shape::at_rest_for;

const SEQUENCES: u64 = 200;
const CALLS: usize = 300;

/// The plain map.
struct Map {
    capacity: usize,
    pairs: BTreeMap<u32, u32>,
}

impl Map {
    fn add(&mut self, key: u32, value: u32) -> u32 {
        if self.pairs.contains_key(&key) {
            return 4;
        }
        if self.pairs.len() == self.capacity {
            return 5;
        }
        self.pairs.insert(key, value);
        0
    }

    fn update(&mut self, key: u32, value: u32) -> u32 {
        match self.pairs.get_mut(&key) {
            Some(held) => {
                *held = value;
                0
            }
            None => 3,
        }
    }

    fn delete(&mut self, key: u32) -> u32 {
        self.pairs.remove(&key).map_or(3, |_| 0)
    }
}

/// "Undamaged store", and its keys are those of the map.
fn check(store: &Store, map: &Map) {
    assert!(store.state_is_sound());
    let mut pairs = BTreeMap::new();
    let mut on_a_chain = vec![false; store.state.capacity as usize + 1];
    let mut visit = |entry: u32| {
        assert!(
            !std::mem::replace(&mut on_a_chain[entry as usize], true),
            "on two chains"
        )
    };
    for &table in store.live_tables() {
        let mut held = 0;
        for bucket in 0..store.size(table) {
            let chain = store.chain(table, bucket).expect("the chain is sound");
            if table == Table::Old && bucket < store.state.rehash_index {
                assert!(chain.is_empty(), "it has moved");
            }
            held += chain.len() as u32;
            for entry in chain {
                visit(entry);
                assert_eq!(
                    pairs.insert(store.key(entry), store.value(entry)),
                    None,
                    "two entries have one key"
                );
            }
        }
        assert_eq!(held, store.used(table));
    }
    let mut free = store.state.free_head;
    while free != 0 {
        visit(free);
        free = store.link(free);
    }
    assert!(
        on_a_chain[1..].iter().all(|&is| is),
        "an entry is on no chain"
    );
    assert_eq!(pairs, map.pairs);
}

/// All that a series of calls hands out, each given what the one before answered, until one answers the last; and how
/// many calls that took.
fn all_handed_out(
    last: u32,
    call: impl Fn(u32) -> Result<(u32, Vec<(u32, u32)>), Refusal>,
) -> (Vec<(u32, u32)>, u32) {
    let (mut at, mut all, mut calls) = (0, Vec::new(), 0);
    loop {
        let (next, pairs) = call(at).expect("the store is undamaged, and the list long");
        all.extend(pairs);
        calls += 1;
        at = next;
        if at == last {
            all.sort_unstable();
            return (all, calls);
        }
    }
}

fn check_ways_through(store: &Store, map: &Map) {
    let held: Vec<(u32, u32)> = map
        .pairs
        .iter()
        .map(|(&key, &value)| (key, value))
        .collect();
    let sizes: Vec<u32> = store
        .live_tables()
        .iter()
        .map(|&table| store.size(table))
        .collect();
    let smaller = sizes.iter().copied().min().expect("a table is live");
    let (walked, calls) = all_handed_out(0, |cursor| store.scan(cursor, 2 * held.len()));
    assert_eq!(walked, held);
    assert!(calls <= smaller);
    let (passed, _) = all_handed_out(sizes.iter().sum(), |place| {
        store.iterate(place, 2 * held.len())
    });
    assert_eq!(passed, held);
}

/// As many steps as the old table has buckets end a move.
fn check_move_ends(mut store: Store, map: &Map) {
    if !store.state.rehashing {
        return;
    }
    store.state.safe_iterators = 0;
    let before = store.state.second_is_current;
    for _ in 0..store.state.old_size {
        let (_, goes_on) = store.rehash_step().expect("a step of an undamaged store");
        if !goes_on {
            break;
        }
    }
    assert_ne!(store.state.second_is_current, before);
    check(&store, map);
}

#[test]
fn a_sequence_answers_as_a_plain_map() {
    for case in 0..SEQUENCES {
        let mut random = Random::of_case(1, case);
        let capacity = 1 + random.below_u32(16);
        let mut store = at_rest_for(capacity, 1 << random.below(5));
        let length = random.below(65);
        store.second.truncate(length);
        let mut map = Map {
            capacity: capacity as usize,
            pairs: BTreeMap::new(),
        };
        let keys = 1 + random.below_u32(3 * capacity);
        for _ in 0..CALLS {
            let (key, value) = (random.below_u32(keys), random.number());
            match random.below(16) {
                0..=4 => assert_eq!(number(store.add_or_stay(key, value)), map.add(key, value)),
                5..=7 => assert_eq!(number(store.delete_or_stay(key)), map.delete(key)),
                8 => assert_eq!(number(store.update(key, value)), map.update(key, value)),
                9..=10 => assert_eq!(
                    store.find(key),
                    map.pairs.get(&key).copied().ok_or(Refusal::Absent)
                ),
                11 => {
                    let _ = store.resize(1 << random.below(7));
                }
                12..=13 => assert_ne!(store.rehash_step(), Err(Refusal::Damaged)),
                14 if random.once_in(3) => assert_eq!(number(store.begin_safe()), 0),
                14 => {
                    let _ = store.end_safe();
                }
                _ => assert_eq!(number(store.allow_resize(random.once_in(2))), 0),
            }
            check(&store, &map);
            if random.once_in(8) {
                check_ways_through(&store, &map);
                check_move_ends(store.clone(), &map);
            }
        }
    }
}

/// The number of an answer.
fn number<T>(answer: Result<T, Refusal>) -> u32 {
    answer.map_or_else(Refusal::number, |_| 0)
}

/// A refused call of the model may leave its store half changed; a caller keeps what was before it.
trait OrStay {
    fn add_or_stay(&mut self, key: u32, value: u32) -> Result<(), Refusal>;
    fn delete_or_stay(&mut self, key: u32) -> Result<(), Refusal>;
}

impl OrStay for Store {
    fn add_or_stay(&mut self, key: u32, value: u32) -> Result<(), Refusal> {
        let mut copy = self.clone();
        copy.add(key, value).map(|()| *self = copy)
    }

    fn delete_or_stay(&mut self, key: u32) -> Result<(), Refusal> {
        let mut copy = self.clone();
        copy.delete(key).map(|()| *self = copy)
    }
}
