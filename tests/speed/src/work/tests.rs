use super::*;
use crate::store::Error;

/// The least number of keys, and the first and the last that are timed.
const SIZES: [u32; 3] = [1, 16, 65536];

fn sum(numbers: impl IntoIterator<Item = u32>) -> u32 {
    numbers.into_iter().fold(0, u32::wrapping_add)
}

/// The sum of the keys that are first in the seed's order, with their values.
fn sum_of_pairs(keys: &Keys, seed: u32, count: u32) -> u32 {
    let first = keys.path(seed).take(count as usize);
    sum(first).wrapping_add(sum(seed..seed + count))
}

/// The seed of the first round.
fn first_seed() -> u32 {
    numbers(SEED).next().expect("there is no last number")
}

fn answer(text: &str) -> u32 {
    run(Order::parse(text).expect("an order"))
}

#[test]
fn every_key_is_found_and_walked() {
    for size in SIZES {
        let values = sum(SEED..SEED + size);
        let both = sum_of_pairs(&Keys::scattered(size), SEED, size);
        assert_eq!(answer(&format!("A {size} 0")), both);
        assert_eq!(answer(&format!("W {size} 1\n")), both.wrapping_mul(2));
        let found = both.wrapping_add(values);
        assert_eq!(answer(&format!("F {size} 1")), found);
    }
}

/// The values are those of the last round.
#[test]
fn every_key_is_added_or_changed_anew() {
    for size in SIZES {
        let keys = Keys::scattered(size);
        let last = numbers(SEED).nth(2).expect("there is no last number");
        let expected = sum_of_pairs(&keys, last, size);
        assert_eq!(answer(&format!("A {size} 3")), expected);
        assert_eq!(answer(&format!("V {size} 3")), expected);
    }
}

/// Once by the pass, with its end, and once by the walk.
#[test]
fn every_key_is_passed() {
    for size in SIZES {
        let both = sum_of_pairs(&Keys::scattered(size), SEED, size);
        let expected = both.wrapping_mul(2).wrapping_add(size);
        assert_eq!(answer(&format!("P {size} 1")), expected);
    }
}

/// A pass ends as it began, and tells each of its calls that it is under way.
#[test]
fn a_pass_leaves_the_state() {
    with_store(16, |store| {
        fill(store, &Keys::scattered(16), SEED);
        let before = store.state;
        pass_all(store, &mut [0; 32]);
        assert_eq!(store.state, before);
    });
}

/// The entry that is deleted last is the first free one. A new store takes its
/// entries in turn, so it is the place of that key in the order of the adds.
#[test]
fn every_key_is_deleted() {
    for size in SIZES {
        let keys = Keys::scattered(size);
        let seed = first_seed();
        let last = keys.ordered(next_number(seed)).last();
        let place = keys.ordered(seed).position(|key| Some(key) == last);
        let entry = place.expect("every key is added") as u32 + 1;
        assert_eq!(answer(&format!("D {size} 1")), entry);
    }
}

/// Runs `test` on a store for so many keys that is not started.
fn with_store(keys: u32, test: impl FnOnce(&mut Store)) {
    let size = keys as usize;
    let (mut first, mut second, mut entries) = (vec![0; size], vec![0; size], vec![0; size * 3]);
    test(&mut Store::new(&mut first, &mut second, &mut entries));
}

/// A move that began with half of the keys in half as many buckets. This only
/// counts the keys of each bucket.
struct Counted {
    counts: Vec<u32>,
    next: u32,
    moved: u32,
}

impl Counted {
    fn new(keys: &Keys, seed: u32) -> Counted {
        let half = keys.count() / 2;
        let mut counts = vec![0; half.max(1) as usize];
        for key in keys.path(seed).take(half as usize) {
            counts[(key % half) as usize] += 1;
        }
        Counted {
            counts,
            next: 0,
            moved: 0,
        }
    }

    fn step(&mut self) {
        let left = &self.counts[self.next as usize..];
        let filled = left.iter().take(10).position(|&n| n > 0);
        let passed = filled.map_or(10, |empty| empty + 1);
        self.moved += left[..passed].iter().sum::<u32>();
        self.next += passed as u32;
    }

    fn delete(&mut self, key: u32) {
        let bucket = key % self.counts.len() as u32;
        if bucket < self.next {
            self.moved -= 1;
        } else {
            self.counts[bucket as usize] -= 1;
        }
    }
}

/// The move is still under way behind the last call, so that all of them fall
/// into it.
#[test]
fn the_timed_adds_do_not_end_their_move() {
    for size in [256, 4096, 65536] {
        let keys = Keys::scattered(size);
        let half = size / 2;
        with_store(size, |store| {
            for seed in numbers(SEED).take(20) {
                for (work, adds) in [(Work::Halves, 0), (Work::AddsInMove, adds_in_move(size))] {
                    let sum = round_of(work)(store, &keys, &mut [], seed);
                    let state = store.state;
                    assert!(state.rehashing && state.old_used > 0);
                    assert_eq!((state.old_size, state.new_size), (half, size));
                    assert_eq!(state.old_used + state.new_used, half + adds);
                    let mut counted = Counted::new(&keys, seed);
                    (0..adds).for_each(|_| counted.step());
                    assert_eq!(state.rehash_index, counted.next);
                    assert_eq!(state.new_used, counted.moved + adds);
                    assert_eq!(sum, counted.next + counted.moved + adds);
                }
            }
        });
    }
}

#[test]
fn the_timed_deletes_do_not_end_their_move() {
    for size in [256, 4096, 65536] {
        let keys = Keys::scattered(size);
        let half = size / 2;
        let deletes = deletes_in_move(size);
        with_store(size, |store| {
            for seed in numbers(SEED).take(20) {
                let sum = round_of(Work::DeletesInMove)(store, &keys, &mut [], seed);
                let state = store.state;
                assert!(state.rehashing && state.old_used > 0);
                assert_eq!((state.old_size, state.new_size), (half, size));
                assert_eq!(state.old_used + state.new_used, half - deletes);
                let mut counted = Counted::new(&keys, seed);
                for key in keys.path(seed).take(deletes as usize) {
                    counted.step();
                    counted.delete(key);
                }
                assert_eq!(state.rehash_index, counted.next);
                assert_eq!(state.new_used, counted.moved);
                // They are the keys of the first entries.
                assert_eq!(sum, counted.next + counted.moved + deletes);
            }
        });
    }
}

#[test]
fn every_key_of_a_growing_store_is_walked() {
    for size in [2, 4096, 65536] {
        let keys = Keys::scattered(size);
        let seed = first_seed();
        for (letter, adds) in [('H', 0), ('M', adds_in_move(size))] {
            let mut counted = Counted::new(&keys, seed);
            (0..adds).for_each(|_| counted.step());
            let total = sum_of_pairs(&keys, seed, size / 2 + adds)
                .wrapping_add(counted.next + counted.moved + adds);
            assert_eq!(answer(&format!("{letter} {size} 1")), total);
        }
    }
}

#[test]
fn every_key_is_deleted_from_either_table() {
    for size in [256, 4096, 65536] {
        let keys = Keys::scattered(size);
        let seed = first_seed();
        let deletes = deletes_in_move(size);
        let held = sum_of_pairs(&keys, seed, size / 2);
        let deleted = sum_of_pairs(&keys, seed, deletes);
        let mut counted = Counted::new(&keys, seed);
        for key in keys.path(seed).take(deletes as usize) {
            counted.step();
            counted.delete(key);
        }
        let progress = counted.next + counted.moved + deletes;
        let total = held.wrapping_sub(deleted).wrapping_add(progress);
        assert_eq!(answer(&format!("E {size} 1")), total);
    }
}

/// The buffers have as many buckets as keys. So a table grows to these with half
/// of the keys in half as many buckets, but not where that is fewer than four.
#[test]
fn moves_begin_by_themselves() {
    for size in [1, 2, 4, 16, 4096, 65536] {
        let keys = Keys::scattered(size);
        let begins = size >= 4;
        with_store(size, |store| {
            start(store, &keys, (size / 2).max(1));
            let first = (size / 2).saturating_sub(1);
            let rest = add_some(store, keys.pairs(SEED), first);
            assert!(!store.state.rehashing);
            add_some(store, rest, size.min(2) / 2);
            assert_eq!(store.state.rehashing, begins, "{size}");
            assert_eq!(store.state.old_used, size / 2);
            assert_eq!(store.state.new_size, if begins { size } else { 0 });
            let answer = store.resize(size);
            match size {
                1 => assert_eq!(answer, Err(Error::BadSize)),
                2 => assert_eq!(answer, Ok(())),
                _ => assert_eq!(answer, Err(Error::Rehashing)),
            }
        });
        // Full, it has no room to grow.
        with_store(size, |store| {
            fill(store, &keys, SEED);
            let state = store.state;
            assert_eq!((state.old_used, state.rehashing), (size, false));
        });
    }
}

/// One key has no smaller table to begin with, so that there is no move, and
/// with two there is no add in it. In the others an add may end it. Of four keys
/// none is deleted, of sixteen two are, and that may end it too.
#[test]
fn small_stores_move_too() {
    for size in [1, 2, 4, 16] {
        let keys = Keys::scattered(size);
        let [mut ended_by_adds, mut ended_by_deletes] = [0; 2];
        with_store(size, |store| {
            for seed in numbers(SEED).take(100) {
                round_of(Work::AddsInMove)(store, &keys, &mut [], seed);
                let state = store.state;
                assert_eq!(state.old_used + state.new_used, size / 2 + size / 4);
                ended_by_adds += u32::from(!state.rehashing);
                round_of(Work::DeletesInMove)(store, &keys, &mut [], seed);
                let state = store.state;
                assert_eq!(state.old_used + state.new_used, size / 2 - size / 8);
                ended_by_deletes += u32::from(!state.rehashing);
            }
        });
        match size {
            1 => assert_eq!((ended_by_adds, ended_by_deletes), (100, 100)),
            2 => assert_eq!((ended_by_adds, ended_by_deletes), (0, 0)),
            4 => assert!((1..100).contains(&ended_by_adds) && ended_by_deletes == 0),
            _ => assert!((1..100).contains(&ended_by_adds) && ended_by_deletes < 10),
        }
    }
}

/// The last move is over before the last key is added, and there is no room for
/// another one.
#[test]
fn growth_ends_in_a_table_for_all_keys() {
    for size in [1, 2, 4, 8, 16, 256, 4096, 65536] {
        let keys = Keys::scattered(size);
        with_store(size, |store| {
            for seed in numbers(SEED).take(5) {
                let sum = round_of(Work::Growth)(store, &keys, &mut [], seed);
                let state = store.state;
                assert_eq!((state.old_size, state.old_used), (size, size));
                assert!(!state.rehashing);
                assert_eq!(sum, size);
            }
        });
        let total = sum_of_pairs(&keys, first_seed(), size).wrapping_add(size);
        assert_eq!(answer(&format!("G {size} 1")), total);
    }
}

#[test]
fn every_spread_cell_is_found() {
    for chains in [1, 7, 100] {
        let keys = Keys::spread(chains);
        let total = |seed| sum_of_pairs(&keys, seed, 65000);
        assert_eq!(answer(&format!("S {chains} 0")), total(SEED));
        assert_eq!(answer(&format!("S {chains} 1")), total(first_seed()));
        let found = total(SEED).wrapping_add(sum(SEED..SEED + 65000));
        assert_eq!(answer(&format!("T {chains} 1")), found);
    }
}

/// Each check answers yes, and tells so in the sum.
#[test]
fn every_round_checks() {
    for size in SIZES {
        let both = sum_of_pairs(&Keys::scattered(size), SEED, size);
        for rounds in [0, 1, 5] {
            let expected = both.wrapping_add(rounds);
            assert_eq!(answer(&format!("C {size} {rounds}")), expected);
        }
    }
    let both = sum_of_pairs(&Keys::spread(100), SEED, 65000);
    assert_eq!(answer("Y 100 3"), both.wrapping_add(3));
}

/// A store that was only added to stays as it is. Its sum has the counts, the first
/// free entry, and a number of the buffer in which the links, keys and values are.
#[test]
fn every_round_mends() {
    for (keys, free_head) in [
        (Keys::scattered(1), 0),
        (Keys::scattered(16), 0),
        (Keys::scattered(65536), 0),
        (Keys::spread(100), 65001),
    ] {
        with_store(keys.size(), |store| {
            fill(store, &keys, SEED);
            let before = store.state;
            for seed in numbers(SEED).take(3) {
                let place = seed & (keys.size() - 1);
                let number = store.number_at(place as usize);
                let expected = sum([keys.count(), free_head, number]);
                assert_eq!(mend(store, &keys, seed), expected);
                assert_eq!(store.state, before);
                assert_eq!(check(store), 1);
            }
        });
    }
    let both = sum_of_pairs(&Keys::scattered(1), SEED, 1);
    let mended = sum([both, 1, 0]);
    assert_eq!(answer("R 1 1"), mended);
}
