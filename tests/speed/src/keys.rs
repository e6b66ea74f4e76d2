//! The keys of an order, and the ways through them.

use crate::order::{Order, CELLS};
use crate::store::MAX_SIZE;
use std::iter::Take;

/// What the first order of the keys and the first values are made of.
pub const SEED: u32 = 123456789;

/// The generator of Park and Miller, "minimal standard".
const MULTIPLIER: u64 = 48271;
const PRIME: u64 = 2147483647;

/// A key is scan chain * 65,536 + position.
const POSITIONS: u32 = 65536;

/// The number that the generator makes after one of them.
pub fn next_number(number: u32) -> u32 {
    (u64::from(number) * MULTIPLIER % PRIME) as u32
}

/// Those that it makes after one of them.
pub fn numbers(seed: u32) -> impl Iterator<Item = u32> {
    let mut number = seed;
    std::iter::repeat_with(move || {
        number = next_number(number);
        number
    })
}

pub struct Keys {
    all: Vec<u32>,
    size: u32,
    is_spread: bool,
}

impl Keys {
    pub fn of(order: Order) -> Keys {
        if order.work.is_spread() {
            Keys::spread(order.number)
        } else {
            Keys::scattered(order.number)
        }
    }

    /// So many of the generator's numbers, a power of two of them.
    pub fn scattered(count: u32) -> Keys {
        Keys {
            all: numbers(1).take(count as usize).collect(),
            size: count,
            is_spread: false,
        }
    }

    /// Cells that are spread over so many scan chains: the first position of each,
    /// then the second of each, and so on.
    pub fn spread(chains: u32) -> Keys {
        Keys {
            all: (0..CELLS)
                .map(|cell| cell % chains * POSITIONS + cell / chains)
                .collect(),
            size: MAX_SIZE,
            is_spread: true,
        }
    }

    pub fn count(&self) -> u32 {
        self.all.len() as u32
    }

    /// The capacity of their store and, but for a store that is to grow, the size
    /// of its table: a power of two.
    pub fn size(&self) -> u32 {
        self.size
    }

    /// Scattered keys from one place on, by the same odd step again and again, both
    /// made of the seed; cells in turn, as a log has them. That is one kind of path
    /// for all works, so that each call stands at one place.
    pub fn path(&self, seed: u32) -> Path<'_> {
        let mask = self.size as usize - 1;
        let (at, step) = if self.is_spread {
            (0, 1)
        } else {
            (seed as usize & mask, ((seed >> 15) as usize & mask) | 1)
        };
        Path {
            keys: &self.all,
            at,
            step,
            mask,
        }
    }

    /// Every key once.
    pub fn ordered(&self, seed: u32) -> Take<Path<'_>> {
        self.path(seed).take(self.all.len())
    }

    /// The path with values that count up from the seed.
    pub fn pairs(&self, seed: u32) -> Pairs<'_> {
        Pairs {
            path: self.path(seed),
            value: seed,
        }
    }

    /// Every pair once.
    pub fn ordered_pairs(&self, seed: u32) -> Take<Pairs<'_>> {
        self.pairs(seed).take(self.all.len())
    }
}

/// A way through keys that meets each of them before it comes to one again. It goes
/// on without an end: who takes it says how far.
pub struct Path<'k> {
    keys: &'k [u32],
    at: usize,
    step: usize,
    mask: usize,
}

impl Iterator for Path<'_> {
    type Item = u32;

    fn next(&mut self) -> Option<u32> {
        let key = self.keys[self.at];
        self.at = (self.at + self.step) & self.mask;
        Some(key)
    }
}

/// The same with a value for each key.
pub struct Pairs<'k> {
    path: Path<'k>,
    value: u32,
}

impl Iterator for Pairs<'_> {
    type Item = (u32, u32);

    fn next(&mut self) -> Option<(u32, u32)> {
        let value = self.value;
        self.value = value.wrapping_add(1);
        Some((self.path.next()?, value))
    }
}

#[cfg(test)]
mod tests {
    use super::*;

    #[test]
    fn an_order_has_every_key_once() {
        for size in [1, 4096, 65536] {
            let keys = Keys::scattered(size);
            let mut sorted = keys.all.clone();
            sorted.sort();
            for seed in numbers(SEED).take(100) {
                let mut visited: Vec<u32> = keys.ordered(seed).collect();
                assert!(size == 1 || visited != keys.all);
                visited.sort();
                assert_eq!(visited, sorted);
            }
        }
    }

    /// The lengths of the chains in a table of `size` buckets.
    fn chain_lengths(keys: &Keys) -> Vec<u32> {
        let mut lengths = vec![0; keys.size as usize];
        for key in keys.ordered(SEED) {
            lengths[(key % keys.size) as usize] += 1;
        }
        lengths
    }

    /// Chains as a random table has them: a third of the buckets are empty,
    /// and a few have five keys or more.
    #[test]
    fn chains_have_many_lengths() {
        for size in [4096, 65536] {
            let lengths = chain_lengths(&Keys::scattered(size));
            let per_thousand = |least, most| {
                let within = lengths.iter().filter(|n| (least..=most).contains(*n));
                within.count() * 1000 / lengths.len()
            };
            assert!((340..390).contains(&per_thousand(0, 0)));
            assert!((340..390).contains(&per_thousand(1, 1)));
            assert!((1..10).contains(&per_thousand(5, size)));
        }
    }

    /// Cells at one position of many scan chains share a bucket.
    #[test]
    fn spread_cells_have_a_bucket_for_each_position() {
        for chains in [1, 3, 10, 100, 999, 1000, 65000] {
            let keys = Keys::spread(chains);
            assert_eq!((keys.count(), keys.size()), (65000, 65536));
            let lengths = chain_lengths(&keys);
            let (full, rest) = ((65000 / chains) as usize, 65000 % chains);
            assert!(lengths[..full].iter().all(|&n| n == chains));
            assert_eq!(lengths[full], rest);
            assert!(lengths[full + 1..].iter().all(|&n| n == 0));
        }
    }

    #[test]
    fn spread_cells_come_in_turn() {
        let cells: Vec<u32> = Keys::spread(10).ordered(SEED).collect();
        let first: Vec<u32> = (0..10).map(|chain| chain << 16).collect();
        assert_eq!(cells[..10], first);
        let second: Vec<u32> = first.iter().map(|key| key + 1).collect();
        assert_eq!(cells[10..20], second);
        let mut sorted = cells.clone();
        sorted.sort();
        sorted.dedup();
        assert_eq!(sorted.len(), 65000);
    }
}
