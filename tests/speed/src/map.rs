//! The same work on std's HashMap, where it can do it: for comparison, and said
//! for what it is. It has a hash of its own, no two tables, no cursor, no lent
//! memory and no tests of memory, and it stops at the key that it looks for.

use crate::keys::{next_number, numbers, Keys, SEED};
use crate::order::{Order, Work};
use std::collections::HashMap;

/// The room at the start of a map that is to grow.
const SMALL_MAP: usize = 4;

/// Whether it can do a work. Its moves are its own, and are not begun or seen, and so is
/// its memory, which it neither checks nor mends.
pub fn does(work: Work) -> bool {
    !matches!(
        work,
        Work::AddsInMove
            | Work::DeletesInMove
            | Work::Halves
            | Work::Checks
            | Work::Mends
            | Work::SpreadChecks
            | Work::SpreadMends
    )
}

/// Whether its sum is the store's: not where that speaks of places, of sizes or of
/// the free chain.
pub fn has_the_sum_of(work: Work) -> bool {
    does(work) && !matches!(work, Work::Passes | Work::Deletes | Work::Growth)
}

pub fn run(order: Order) -> Option<u32> {
    if !does(order.work) {
        return None;
    }
    let keys = Keys::of(order);
    let mut map = HashMap::with_capacity(keys.size() as usize);
    fill(&mut map, &keys, SEED);
    let sum = numbers(SEED)
        .take(order.rounds as usize)
        .fold(0u32, |sum, seed| {
            sum.wrapping_add(round(order.work, &mut map, &keys, seed))
        });
    Some(sum.wrapping_add(walk_all(&map)))
}

fn round(work: Work, map: &mut HashMap<u32, u32>, keys: &Keys, seed: u32) -> u32 {
    match work {
        Work::Adds | Work::SpreadAdds => fill(map, keys, seed),
        Work::Finds | Work::SpreadFinds => return find_all(map, keys, seed),
        Work::Changes => change_all(map, keys, seed),
        Work::Deletes => {
            fill(map, keys, seed);
            delete_all(map, keys, next_number(seed));
        }
        Work::Walks | Work::Passes => return walk_all(map),
        Work::Growth => {
            *map = HashMap::with_capacity(SMALL_MAP);
            add_all(map, keys, seed);
        }
        Work::AddsInMove | Work::DeletesInMove | Work::Halves => {}
        Work::Checks | Work::Mends | Work::SpreadChecks | Work::SpreadMends => {}
    }
    0
}

/// The map is emptied and keeps its memory, as a store that is started anew does.
fn fill(map: &mut HashMap<u32, u32>, keys: &Keys, seed: u32) {
    map.clear();
    add_all(map, keys, seed);
}

fn add_all(map: &mut HashMap<u32, u32>, keys: &Keys, seed: u32) {
    for (key, value) in keys.ordered_pairs(seed) {
        map.insert(key, value);
    }
}

fn find_all(map: &HashMap<u32, u32>, keys: &Keys, seed: u32) -> u32 {
    let mut sum = 0u32;
    for key in keys.ordered(seed) {
        if let Some(&value) = map.get(&key) {
            sum = sum.wrapping_add(value);
        }
    }
    sum
}

fn change_all(map: &mut HashMap<u32, u32>, keys: &Keys, seed: u32) {
    for (key, value) in keys.ordered_pairs(seed) {
        if let Some(held) = map.get_mut(&key) {
            *held = value;
        }
    }
}

fn delete_all(map: &mut HashMap<u32, u32>, keys: &Keys, seed: u32) {
    for key in keys.ordered(seed) {
        map.remove(&key);
    }
}

fn walk_all(map: &HashMap<u32, u32>) -> u32 {
    map.iter().fold(0, |sum: u32, (&key, &value)| {
        sum.wrapping_add(key).wrapping_add(value)
    })
}

#[cfg(test)]
mod tests {
    use super::*;
    use crate::work;

    #[test]
    fn its_sums_are_those_of_the_store() {
        for work in Work::ALL {
            for (number, rounds) in [(1, 2), (16, 3), (4096, 2)] {
                let order = Order {
                    work,
                    number,
                    rounds,
                };
                assert_eq!(run(order).is_some(), does(work));
                if has_the_sum_of(work) && !(work.is_spread() && number == 4096) {
                    assert_eq!(run(order), Some(work::run(order)), "{order}");
                }
            }
        }
    }

    /// A pass hands out every pair, and deletes leave none.
    #[test]
    fn its_other_works_are_done_too() {
        let answer = |text: &str| run(Order::parse(text).expect("an order"));
        assert_eq!(answer("P 4096 1"), answer("W 4096 1"));
        assert_eq!(answer("D 4096 1"), Some(0));
        assert_eq!(answer("G 4096 1"), answer("A 4096 1"));
    }
}
