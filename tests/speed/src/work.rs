//! The rounds of each kind of work on the plain store, the same as those of the
//! proved program (`crates/speed`), with the same sums. A refused call adds
//! nothing to a sum, and so shows in it.

use crate::keys::{next_number, numbers, Keys, Pairs, Path, SEED};
use crate::order::{Order, Work};
use crate::store::{Scanned, Store};
use std::hint::black_box;

/// The most buckets at the start of a store that is to grow.
const SMALL_TABLE: u32 = 4;

/// The adds in the move of a round of `Work::AddsInMove`. The move finds half of
/// the keys in half as many buckets, of which they fill some 63 of 100, and a step
/// moves one bucket: these adds are fewer than the move has steps.
pub fn adds_in_move(keys: u32) -> u32 {
    keys / 4
}

/// The deletes in that of a round of `Work::DeletesInMove`, fewer still: they
/// empty some buckets before the move comes to them.
pub fn deletes_in_move(keys: u32) -> u32 {
    keys / 8
}

pub fn run(order: Order) -> u32 {
    let keys = Keys::of(order);
    let size = keys.size() as usize;
    let (mut first, mut second) = (vec![0; size], vec![0; size]);
    let (mut entries, mut list) = (vec![0; size * 3], vec![0; size * 2]);
    let mut store = Store::new(&mut first, &mut second, &mut entries);

    fill(&mut store, &keys, SEED);
    let round = round_of(order.work);
    let seeds = numbers(SEED).take(order.rounds as usize);
    let sum = seeds.fold(0u32, |sum, seed| {
        sum.wrapping_add(round(&mut store, &keys, &mut list, seed))
    });
    // At the end the sum also tells what the store has come to hold.
    sum.wrapping_add(walk_all(&store, &mut list))
}

/// A round with a seed, which answers what it adds to the sum.
type Round = fn(&mut Store, &Keys, &mut [u32], u32) -> u32;

/// Each work has a function of its own, so that its calls are not compiled among
/// those of the others.
fn round_of(work: Work) -> Round {
    match work {
        Work::Adds | Work::SpreadAdds => |store, keys, _, seed| {
            fill(store, keys, seed);
            0
        },
        Work::Finds | Work::SpreadFinds => |store, keys, _, seed| find_all(store, keys, seed),
        Work::Changes => |store, keys, _, seed| {
            change_all(store, keys, seed);
            0
        },
        Work::Deletes => |store, keys, _, seed| {
            fill(store, keys, seed);
            delete_some(store, keys.path(next_number(seed)), keys.count());
            store.state.free_head
        },
        Work::Walks => |store, _, list, _| walk_all(store, list),
        Work::Passes => |store, _, list, _| pass_all(store, list),
        Work::Checks | Work::SpreadChecks => |store, _, _, _| check(store),
        Work::Mends | Work::SpreadMends => |store, keys, _, seed| mend(store, keys, seed),
        Work::AddsInMove => |store, keys, _, seed| {
            let rest = begin_move(store, keys, seed);
            add_some(store, rest, adds_in_move(keys.count()));
            progress(store)
        },
        Work::DeletesInMove => |store, keys, _, seed| {
            begin_move(store, keys, seed);
            delete_some(store, keys.path(seed), deletes_in_move(keys.count()));
            progress(store).wrapping_add(store.state.free_head)
        },
        Work::Halves => |store, keys, _, seed| {
            begin_move(store, keys, seed);
            progress(store)
        },
        Work::Growth => |store, keys, _, seed| {
            start(store, keys, keys.size().min(SMALL_TABLE));
            add_some(store, keys.pairs(seed), keys.count());
            let sizes = store.state.old_size + store.state.new_size;
            progress(store).wrapping_add(sizes)
        },
    }
}

/// A new store with a table of that size.
fn start(store: &mut Store, keys: &Keys, size: u32) {
    let _ = store.init(keys.size(), size);
    hide(store);
}

/// What the state holds is hidden from the compiler, as it is where a caller
/// keeps it between calls: each field by itself, so that no two are known to be
/// equal either. The proved program does so at the same places, by a byte for
/// each field.
fn hide(store: &mut Store) {
    store.state = black_box(store.state);
}

/// The next so many pairs; answers the way behind them. All adds are made here, by
/// one call, as in the proved program, and so it is with the other calls.
fn add_some<'k>(store: &mut Store, mut pairs: Pairs<'k>, count: u32) -> Pairs<'k> {
    for (key, value) in pairs.by_ref().take(count as usize) {
        let _ = store.add(key, value);
    }
    pairs
}

fn delete_some(store: &mut Store, path: Path, count: u32) {
    for key in path.take(count as usize) {
        let _ = store.delete(key);
    }
}

/// A new store with every key, in as many buckets as it has room for.
fn fill(store: &mut Store, keys: &Keys, seed: u32) {
    start(store, keys, keys.size());
    add_some(store, keys.pairs(seed), keys.count());
}

/// A new store with half as many buckets as keys (one at least) and half of the
/// keys, at the start of a move to as many buckets as keys. Answers the way to the
/// other pairs.
fn begin_move<'k>(store: &mut Store, keys: &'k Keys, seed: u32) -> Pairs<'k> {
    start(store, keys, (keys.size() / 2).max(1));
    let rest = add_some(store, keys.pairs(seed), keys.count() / 2);
    // The last of these adds has begun the move by itself, and the resize is
    // refused. With 2 keys it is not: a table of one bucket would grow to four,
    // for which there is no room.
    let _ = store.resize(keys.size());
    hide(store);
    rest
}

/// How far a move has come: both numbers rise with each step.
fn progress(store: &Store) -> u32 {
    store.state.rehash_index.wrapping_add(store.state.new_used)
}

/// The sum of all values, in the seed's order.
fn find_all(store: &Store, keys: &Keys, seed: u32) -> u32 {
    let mut sum = 0u32;
    for key in keys.ordered(seed) {
        if let Ok(value) = store.find(key) {
            sum = sum.wrapping_add(value);
        }
    }
    sum
}

/// Another value for every key, in the seed's order.
fn change_all(store: &mut Store, keys: &Keys, seed: u32) {
    for (key, value) in keys.ordered_pairs(seed) {
        let _ = store.update(key, value);
    }
}

/// The sum, with the pairs at the front of a list.
fn with_pairs(sum: u32, list: &[u32], count: u32) -> u32 {
    let pairs = &list[..count as usize * 2];
    pairs.iter().fold(sum, |sum, &n| sum.wrapping_add(n))
}

/// The sum of every key and value that a whole walk hands out.
fn walk_all(store: &Store, list: &mut [u32]) -> u32 {
    let mut sum = 0;
    let mut cursor = 0;
    while let Ok(Scanned { next, count }) = store.scan(cursor, list) {
        sum = with_pairs(sum, list, count);
        cursor = next;
        if cursor == 0 {
            break;
        }
    }
    sum
}

/// The sum of every key and value that a whole pass with a safe iterator hands
/// out, and of the place answered last, which is the end.
fn pass_all(store: &mut Store, list: &mut [u32]) -> u32 {
    let mut sum = 0;
    let mut place = 0;
    let _ = store.begin_safe();
    hide(store);
    while let Ok(Scanned { next, count }) = store.iterate(place, list) {
        sum = with_pairs(sum, list, count);
        place = next;
        if count == 0 {
            break;
        }
    }
    let _ = store.end_safe();
    sum.wrapping_add(place)
}

/// What the check answers: 1 for yes, and 2 for no. It only reads, so the store is
/// hidden from the compiler: none can make one check of all rounds.
fn check(store: &mut Store) -> u32 {
    hide(store);
    match black_box(&*store).verify() {
        Ok(true) => 1,
        Ok(false) => 2,
        Err(_) => 0,
    }
}

/// What the mend leaves: the counts, the next bucket, the first free entry, and a
/// number of the entry buffer, another one in each round.
fn mend(store: &mut Store, keys: &Keys, seed: u32) -> u32 {
    let _ = store.repair();
    hide(store);
    let state = store.state;
    let place = seed & (keys.size() - 1);
    sum_of([
        state.old_used,
        state.new_used,
        state.rehash_index,
        state.free_head,
        store.number_at(place as usize),
    ])
}

fn sum_of<const N: usize>(numbers: [u32; N]) -> u32 {
    numbers.into_iter().fold(0, u32::wrapping_add)
}

#[cfg(test)]
mod tests;
