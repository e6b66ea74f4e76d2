//! The store, kept in ordinary Rust collections.
//!
//! Lent buffers, links and the free chain are left out on purpose: nothing of
//! them shows in what the program writes but how long the bucket buffers are.
//! What does show is kept exactly: the order of every chain, the counts, the
//! refusals and their order, and when a table grows by itself.
//!
//! The limits here are the library's. Those of the program are lower, and its own.

use crate::cursor;
use std::collections::VecDeque;
use std::rc::Rc;

pub const MAX_CAPACITY: u32 = 65_536;
/// Of a table, and of a suggested size too.
pub const MAX_SIZE: u32 = 65_536;
/// The most empty buckets that one step passes.
pub const EMPTY_VISITS: u32 = 10;
/// The smallest size that is suggested. Smaller ones are legal all the same.
pub const LEAST_SUGGESTION: u32 = 4;
/// A table with more than so many keys for each of its buckets grows even where
/// that is not allowed.
const FORCE_RATIO: usize = 5;

/// The refusals that a script can bring about. The specification's 2 (damaged) and
/// 9 (short) need memory that the program never lends.
#[derive(Clone, Copy, Debug, PartialEq, Eq)]
pub enum Refusal {
    BadState = 1,
    Absent = 3,
    Present = 4,
    Full = 5,
    BadSize = 6,
    Moving = 7,
    NotMoving = 8,
    BadLine = 10,
}

#[derive(Clone, Copy, Debug, PartialEq, Eq)]
pub struct Entry {
    pub key: u32,
    pub value: u32,
}

pub fn is_legal_capacity(capacity: u32) -> bool {
    (1..=MAX_CAPACITY).contains(&capacity)
}

pub fn is_legal_size(size: u32) -> bool {
    size.is_power_of_two() && size <= MAX_SIZE
}

/// The front of the queue is the head of the chain.
type Chain = VecDeque<Entry>;

/// One hash table. A copy shares the chains until one of the two is changed, so
/// that it costs little.
#[derive(Clone)]
struct Table {
    buckets: Vec<Rc<Chain>>,
    held: usize,
}

impl Table {
    fn new(size: u32) -> Self {
        Table {
            buckets: vec![Rc::default(); size as usize],
            held: 0,
        }
    }

    fn size(&self) -> u32 {
        self.buckets.len() as u32
    }

    /// The bucket of a key, and of a cursor too: the hash of a key is the key.
    fn index(&self, hash: u32) -> usize {
        (hash % self.size()) as usize
    }

    fn chain(&self, hash: u32) -> &Chain {
        &self.buckets[self.index(hash)]
    }

    fn chain_mut(&mut self, hash: u32) -> &mut Chain {
        let index = self.index(hash);
        Rc::make_mut(&mut self.buckets[index])
    }

    fn insert(&mut self, entry: Entry) {
        self.chain_mut(entry.key).push_front(entry);
        self.held += 1;
    }

    fn find(&self, key: u32) -> Option<&Entry> {
        self.chain(key).iter().find(|entry| entry.key == key)
    }

    fn find_mut(&mut self, key: u32) -> Option<&mut Entry> {
        self.chain_mut(key)
            .iter_mut()
            .find(|entry| entry.key == key)
    }

    fn remove(&mut self, key: u32) -> Option<Entry> {
        let place = self.chain(key).iter().position(|entry| entry.key == key)?;
        self.held -= 1;
        self.chain_mut(key).remove(place)
    }

    /// The first bucket with keys among so many from bucket `start` on.
    fn first_filled(&self, start: usize, visits: usize) -> Option<usize> {
        let end = self.buckets.len().min(start + visits);
        (start..end).find(|&index| !self.buckets[index].is_empty())
    }

    fn take_chain(&mut self, index: usize) -> Rc<Chain> {
        let chain = std::mem::take(&mut self.buckets[index]);
        self.held -= chain.len();
        chain
    }
}

/// A move under way: the table that is filled, and the old table's next bucket.
#[derive(Clone)]
struct Rehash {
    target: Table,
    next: usize,
}

#[derive(Debug, PartialEq, Eq)]
pub struct Step {
    pub moved: usize,
    pub moving: bool,
}

#[derive(Debug, PartialEq, Eq)]
pub struct Scan {
    pub next: u32,
    pub entries: Vec<Entry>,
}

/// What a suggested size is for.
#[derive(Clone, Copy, Debug)]
pub enum Aim {
    Grow,
    Shrink,
}

#[derive(Clone)]
pub struct Store {
    capacity: u32,
    /// The length of each of the two bucket buffers: a table has so many buckets
    /// at most.
    room: u32,
    /// The only table, or during a move the old one.
    table: Table,
    rehash: Option<Rehash>,
    /// Whether a table may grow by itself as soon as it has a key for each bucket.
    resize_allowed: bool,
}

impl Store {
    pub fn start(capacity: u32, size: u32, room: u32) -> Result<Self, Refusal> {
        if !is_legal_capacity(capacity) || !is_legal_size(size) {
            return Err(Refusal::BadSize);
        }
        if size > room {
            return Err(Refusal::BadState);
        }
        Ok(Store {
            capacity,
            room,
            table: Table::new(size),
            rehash: None,
            resize_allowed: true,
        })
    }

    /// Sets the permission to grow. No line of a script does.
    #[cfg(test)]
    pub fn allow_resize(&mut self, allowed: bool) {
        self.resize_allowed = allowed;
    }

    /// The number of keys held in both tables together.
    pub fn held(&self) -> usize {
        self.table.held + self.rehash.as_ref().map_or(0, |rehash| rehash.target.held)
    }

    /// The size of the only table, or during a move of the old one.
    pub fn size(&self) -> u32 {
        self.table.size()
    }

    pub fn is_moving(&self) -> bool {
        self.rehash.is_some()
    }

    /// The keys that the move under way has yet to move, in the order of their
    /// buckets. With no move there are none.
    pub fn unmoved(&self) -> impl Iterator<Item = u32> + '_ {
        let old = self.rehash.as_ref().map(|_| &self.table);
        old.into_iter()
            .flat_map(|table| &table.buckets)
            .flat_map(|chain| chain.iter())
            .map(|entry| entry.key)
    }

    pub fn find(&self, key: u32) -> Result<u32, Refusal> {
        self.table
            .find(key)
            .or_else(|| self.rehash.as_ref()?.target.find(key))
            .map(|entry| entry.value)
            .ok_or(Refusal::Absent)
    }

    pub fn update(&mut self, key: u32, value: u32) -> Result<(), Refusal> {
        let entry = self
            .table
            .find_mut(key)
            .or_else(|| self.rehash.as_mut()?.target.find_mut(key))
            .ok_or(Refusal::Absent)?;
        entry.value = value;
        Ok(())
    }

    pub fn add(&mut self, key: u32, value: u32) -> Result<(), Refusal> {
        self.step_first(|store| store.add_alone(key, value))?;
        self.grow();
        Ok(())
    }

    pub fn delete(&mut self, key: u32) -> Result<(), Refusal> {
        self.step_first(|store| store.delete_alone(key))
    }

    /// A call that carries a move on. While one is under way the call takes a step
    /// first, and is answered as on the store that the step leaves. If either of
    /// the two is refused, neither has happened.
    fn step_first(
        &mut self,
        call: impl FnOnce(&mut Store) -> Result<(), Refusal>,
    ) -> Result<(), Refusal> {
        if !self.is_moving() {
            return call(self);
        }
        let mut copy = self.clone();
        copy.step()?;
        call(&mut copy)?;
        *self = copy;
        Ok(())
    }

    fn add_alone(&mut self, key: u32, value: u32) -> Result<(), Refusal> {
        if self.find(key).is_ok() {
            return Err(Refusal::Present);
        }
        if self.held() == self.capacity as usize {
            return Err(Refusal::Full);
        }
        // During a move the old table may only lose keys: a key put into a
        // bucket that was already passed would never be moved.
        let table = match &mut self.rehash {
            Some(rehash) => &mut rehash.target,
            None => &mut self.table,
        };
        table.insert(Entry { key, value });
        Ok(())
    }

    fn delete_alone(&mut self, key: u32) -> Result<(), Refusal> {
        self.table
            .remove(key)
            .or_else(|| self.rehash.as_mut()?.target.remove(key))
            .map(|_| ())
            .ok_or(Refusal::Absent)
    }

    /// Behind an answered add: begins a move to the suggested size if the only
    /// table has too many keys. Where that size is no larger, or too large for the
    /// other buffer, all stays as it is.
    fn grow(&mut self) {
        if self.is_moving() {
            return;
        }
        let (held, buckets) = (self.held(), self.size() as usize);
        let full = self.resize_allowed && held >= buckets;
        let overfull = held > FORCE_RATIO * buckets;
        let size = self.suggested_size(Aim::Grow);
        if (full || overfull) && size > self.size() && size <= self.room {
            self.begin_move(size);
        }
    }

    /// Begins a move to a table of `size` buckets.
    pub fn resize(&mut self, size: u32) -> Result<(), Refusal> {
        if self.is_moving() {
            return Err(Refusal::Moving);
        }
        if !is_legal_size(size) || size == self.size() || size > self.room {
            return Err(Refusal::BadSize);
        }
        self.begin_move(size);
        Ok(())
    }

    /// Nothing has moved yet.
    fn begin_move(&mut self, size: u32) {
        self.rehash = Some(Rehash {
            target: Table::new(size),
            next: 0,
        });
    }

    /// Moves the next filled bucket, unless too many empty ones come before it: a
    /// step does not search through a sparse table. The step that leaves the old
    /// table without keys ends the move.
    pub fn step(&mut self) -> Result<Step, Refusal> {
        let mut rehash = self.rehash.take().ok_or(Refusal::NotMoving)?;
        let mut moved = 0;
        // There may be no keys before the step: the store was empty when the move
        // began, or the last of the old table's keys were deleted since.
        if self.table.held > 0 {
            let visits = EMPTY_VISITS as usize;
            if let Some(index) = self.table.first_filled(rehash.next, visits) {
                let chain = self.table.take_chain(index);
                moved = chain.len();
                for &entry in chain.iter() {
                    rehash.target.insert(entry);
                }
                rehash.next = index + 1;
            } else {
                rehash.next += visits;
                assert!(
                    rehash.next < self.table.buckets.len(),
                    "the old table's keys lie at or after the next bucket"
                );
            }
        }
        let moving = self.table.held > 0;
        if moving {
            self.rehash = Some(rehash);
        } else {
            self.table = rehash.target;
        }
        Ok(Step { moved, moving })
    }

    /// One call of the walk: the keys of the cursor's buckets in chain order.
    pub fn scan(&self, cursor: u32) -> Scan {
        if self.held() == 0 {
            return Scan {
                next: 0,
                entries: Vec::new(),
            };
        }
        let Some(rehash) = &self.rehash else {
            return Scan {
                next: cursor::next(cursor, self.size()),
                entries: self.table.chain(cursor).iter().copied().collect(),
            };
        };
        let (small, large) = if self.size() < rehash.target.size() {
            (&self.table, &rehash.target)
        } else {
            (&rehash.target, &self.table)
        };
        let group = cursor::group(cursor, small.size(), large.size());
        let mut entries = Vec::new();
        entries.extend(small.chain(group.small));
        for bucket in group.large {
            entries.extend(large.chain(bucket));
        }
        Scan {
            next: group.next,
            entries,
        }
    }

    pub fn suggested_size(&self, aim: Aim) -> u32 {
        let wanted = match aim {
            Aim::Grow => 2 * self.held() as u32,
            Aim::Shrink => self.held() as u32,
        };
        wanted.next_power_of_two().clamp(LEAST_SUGGESTION, MAX_SIZE)
    }
}

#[cfg(test)]
mod tests {
    use super::*;

    /// Keys are added with ten times themselves.
    fn add_all(store: &mut Store, keys: impl IntoIterator<Item = u32>) {
        for key in keys {
            store.add(key, 10 * key).unwrap();
        }
    }

    fn store(capacity: u32, size: u32, keys: impl IntoIterator<Item = u32>) -> Store {
        let mut store = Store::start(capacity, size, MAX_SIZE).unwrap();
        add_all(&mut store, keys);
        store
    }

    /// A store that is not allowed to grow, so that its one table may have as many
    /// keys as buckets, and more.
    fn fixed(capacity: u32, size: u32, keys: impl IntoIterator<Item = u32>) -> Store {
        let mut store = store(capacity, size, []);
        store.allow_resize(false);
        add_all(&mut store, keys);
        assert!(!store.is_moving());
        store
    }

    /// The sizes of the old and the new table; with no move the second is 0.
    fn sizes(store: &Store) -> (u32, u32) {
        let new = store.rehash.as_ref().map(|rehash| rehash.target.size());
        (store.size(), new.unwrap_or(0))
    }

    fn keys(scan: &Scan) -> Vec<u32> {
        scan.entries.iter().map(|entry| entry.key).collect()
    }

    fn finish(store: &mut Store) {
        while store.step().unwrap().moving {}
    }

    /// Each step by the number of keys that it moves, and whether the move goes on.
    fn expect_steps(store: &mut Store, steps: &[(usize, bool)]) {
        for &(moved, moving) in steps {
            assert_eq!(store.step(), Ok(Step { moved, moving }));
        }
    }

    #[test]
    fn limits_of_start() {
        let start = |capacity, size, room| Store::start(capacity, size, room).err();
        for (capacity, size) in [(1, 1), (4097, 8192), (65_536, 65_536)] {
            assert_eq!(start(capacity, size, size), None);
            assert_eq!(start(capacity, size, size - 1), Some(Refusal::BadState));
        }
        for (capacity, size) in [
            (1, 65_535),
            (1, 65_537),
            (1, 131_072),
            (1, 0),
            (1, 3),
            (0, 1),
            (65_537, 1),
            (u32::MAX, 1),
            (1, 1 << 31),
        ] {
            assert_eq!(start(capacity, size, MAX_SIZE), Some(Refusal::BadSize));
            // Told before a buffer that is too short.
            assert_eq!(start(capacity, size, 0), Some(Refusal::BadSize));
        }
    }

    #[test]
    fn capacity_one_is_used_again() {
        let mut store = store(1, 1, [1]);
        assert_eq!(store.add(1, 0), Err(Refusal::Present));
        assert_eq!(store.add(2, 20), Err(Refusal::Full));
        assert_eq!(store.delete(1), Ok(()));
        assert_eq!(store.add(2, 20), Ok(()));
        assert_eq!(store.find(2), Ok(20));
        assert_eq!(store.find(1), Err(Refusal::Absent));
    }

    #[test]
    fn suggested_sizes() {
        for (held, grown, shrunk) in [
            (5, 16, 8),
            // Never below 4.
            (0, 4, 4),
            (1, 4, 4),
            (2, 4, 4),
            (3, 8, 4),
            (4, 8, 4),
            (8, 16, 8),
            (9, 32, 16),
            (2049, 8192, 4096),
            (32_768, 65_536, 32_768),
            (32_769, 65_536, 65_536),
            (65_536, 65_536, 65_536),
        ] {
            let store = store(65_536, 65_536, 0..held);
            assert_eq!(store.suggested_size(Aim::Grow), grown, "{held} keys");
            assert_eq!(store.suggested_size(Aim::Shrink), shrunk, "{held} keys");
        }
    }

    #[test]
    fn suggested_size_counts_both_tables() {
        let mut store = store(16, 4, 0..3);
        store.resize(8).unwrap();
        store.add(3, 0).unwrap();
        store.add(4, 0).unwrap();
        assert_eq!(store.suggested_size(Aim::Grow), 16);
        store.step().unwrap();
        assert_eq!(store.suggested_size(Aim::Shrink), 8);
    }

    #[test]
    fn two_table_groups_hand_out_in_order() {
        let mut store = fixed(16, 4, [0, 4, 8, 12, 1, 2, 35]);
        store.resize(16).unwrap();
        expect_steps(&mut store, &[(4, true)]);
        let scan = store.scan(0);
        assert_eq!((scan.next, keys(&scan)), (2, vec![0, 8, 4, 12]));
        let scan = store.scan(8);
        assert_eq!((scan.next, keys(&scan)), (2, vec![8, 4, 12]));
        // Their steps leave key 35 alone in the old table.
        for key in [7, 3] {
            store.add(key, 0).unwrap();
        }
        let scan = store.scan(3);
        assert_eq!((scan.next, keys(&scan)), (0, vec![35, 3, 7]));
        let scan = store.scan(11);
        assert_eq!((scan.next, keys(&scan)), (0, vec![35, 7]));
    }

    #[test]
    fn the_smaller_table_comes_first_when_shrinking_too() {
        let mut store = store(16, 8, [0, 2, 6, 3]);
        store.resize(4).unwrap();
        store.add(10, 0).unwrap();
        let scan = store.scan(2);
        assert_eq!((scan.next, keys(&scan)), (1, vec![10, 2, 6]));
    }

    #[test]
    fn a_shrunk_table_gives_a_bucket_again() {
        let mut store = store(8, 8, [3, 7]);
        store.resize(4).unwrap();
        finish(&mut store);
        let scan = store.scan(7);
        assert_eq!((scan.next, keys(&scan)), (0, vec![7, 3]));
    }

    #[test]
    fn adds_during_a_move_go_to_the_new_table() {
        let mut store = store(8, 4, [0, 1, 2]);
        store.resize(8).unwrap();
        expect_steps(&mut store, &[(1, true)]);
        store.add(4, 40).unwrap();
        expect_steps(&mut store, &[(1, false)]);
        assert_eq!(store.find(4), Ok(40));
        assert_eq!(store.step(), Err(Refusal::NotMoving));
    }

    /// The deletes themselves move the keys 0 and 1.
    #[test]
    fn a_move_ends_when_the_old_keys_are_deleted() {
        let mut store = fixed(8, 4, [0, 1, 2, 3]);
        store.resize(2).unwrap();
        store.delete(3).unwrap();
        store.delete(2).unwrap();
        assert_eq!(store.unmoved().count(), 0);
        expect_steps(&mut store, &[(0, false)]);
        assert_eq!((store.size(), store.held()), (2, 2));
    }

    /// A store that is moved to one bucket, and does not grow there. A walk call
    /// hands out everything: the new table's chain, and then the old table's
    /// buckets 0, 2, 1 and 3.
    fn moving_to_one(capacity: u32, keys: impl IntoIterator<Item = u32>) -> Store {
        let mut store = fixed(capacity, 4, keys);
        store.resize(1).unwrap();
        store
    }

    /// The order of the new table's chain shows that the step came first.
    #[test]
    fn adds_and_deletes_take_a_step_first() {
        let mut store = moving_to_one(8, [0, 4, 1, 2]);
        assert_eq!(keys(&store.scan(0)), [4, 0, 2, 1]);
        store.add(5, 50).unwrap();
        assert_eq!(keys(&store.scan(0)), [5, 0, 4, 2, 1]);
        store.delete(0).unwrap();
        assert_eq!(keys(&store.scan(0)), [1, 5, 4, 2]);
        // This one's step ends the move.
        store.add(6, 60).unwrap();
        assert_eq!(keys(&store.scan(0)), [6, 2, 1, 5, 4]);
        assert_eq!(store.step(), Err(Refusal::NotMoving));
    }

    /// Also where the step would end the move: the last bucket's, and in the end
    /// one that finds no keys in the old table.
    #[test]
    fn a_refused_call_takes_its_step_back() {
        let mut store = moving_to_one(3, [1, 2, 3]);
        for unmoved in [3, 2, 1] {
            let before = store.scan(0);
            assert_eq!(store.add(1, 0), Err(Refusal::Present));
            assert_eq!(store.add(4, 0), Err(Refusal::Full));
            assert_eq!(store.delete(4), Err(Refusal::Absent));
            assert_eq!(store.scan(0), before);
            assert_eq!(store.unmoved().count(), unmoved);
            expect_steps(&mut store, &[(1, unmoved > 1)]);
        }
        let mut empty = moving_to_one(1, []);
        assert_eq!(empty.delete(0), Err(Refusal::Absent));
        expect_steps(&mut empty, &[(0, false)]);
    }

    #[test]
    fn no_other_call_takes_a_step() {
        let mut store = moving_to_one(8, [1, 2]);
        assert_eq!(store.find(2), Ok(20));
        assert_eq!(store.find(3), Err(Refusal::Absent));
        assert_eq!(store.update(2, 21), Ok(()));
        assert_eq!(store.update(3, 0), Err(Refusal::Absent));
        assert_eq!(store.resize(8), Err(Refusal::Moving));
        assert_eq!(keys(&store.scan(0)), [2, 1]);
        assert_eq!(store.suggested_size(Aim::Grow), 4);
        expect_steps(&mut store, &[(1, true), (1, false)]);
    }

    /// Of adds alone and of deletes alone, each of which passes ten empty buckets
    /// or moves a key.
    #[test]
    fn a_move_needs_no_step_of_its_own() {
        let sparse = || {
            let mut store = store(16, 64, [0, 1, 35]);
            store.resize(128).unwrap();
            store
        };
        let mut adding = sparse();
        for key in 2..7 {
            assert!(adding.is_moving());
            adding.add(key, 0).unwrap();
        }
        assert_eq!(adding.unmoved().count(), 1);
        adding.add(7, 0).unwrap();
        assert_eq!((adding.size(), adding.held()), (128, 9));

        let mut deleting = sparse();
        deleting.delete(1).unwrap();
        assert_eq!(deleting.unmoved().collect::<Vec<_>>(), [35]);
        deleting.delete(35).unwrap();
        assert_eq!(deleting.unmoved().count(), 0);
        assert!(deleting.is_moving());
        deleting.delete(0).unwrap();
        assert_eq!((deleting.size(), deleting.held()), (128, 0));
    }

    #[test]
    fn a_step_passes_ten_empty_buckets_at_most() {
        for (key, steps) in [
            (0, &[(1, false)][..]),
            (9, &[(1, false)]),
            (10, &[(0, true), (1, false)]),
            (19, &[(0, true), (1, false)]),
            (20, &[(0, true), (0, true), (1, false)]),
            (31, &[(0, true), (0, true), (0, true), (1, false)]),
        ] {
            let mut store = store(8, 32, [key]);
            store.resize(4).unwrap();
            expect_steps(&mut store, steps);
            assert_eq!((store.size(), store.find(key)), (4, Ok(10 * key)));
        }
    }

    /// Deletes thin the old table out once its move has begun. The first one's step
    /// moves key 1, the second one's passes the bucket of key 5.
    #[test]
    fn buckets_that_were_emptied_are_passed_like_others() {
        let mut store = store(8, 32, [0, 1, 5, 12, 25]);
        store.resize(64).unwrap();
        expect_steps(&mut store, &[(1, true)]);
        store.delete(5).unwrap();
        store.delete(12).unwrap();
        expect_steps(&mut store, &[(0, true), (1, false)]);
        assert_eq!((store.size(), store.held()), (64, 3));
    }

    /// From the last bucket of the largest table, and from no bucket at all.
    #[test]
    fn the_longest_and_the_shortest_move() {
        let mut store = store(1, 65_536, [65_535]);
        store.resize(32_768).unwrap();
        let passing = vec![(0, true); 6553];
        expect_steps(&mut store, &passing);
        expect_steps(&mut store, &[(1, false)]);

        store.delete(65_535).unwrap();
        store.resize(65_536).unwrap();
        expect_steps(&mut store, &[(0, false)]);
        assert_eq!(store.step(), Err(Refusal::NotMoving));
    }

    #[test]
    fn order_of_the_refusals_of_resize() {
        let mut store = store(8, 4, []);
        assert_eq!(store.resize(4), Err(Refusal::BadSize));
        assert_eq!(store.resize(3), Err(Refusal::BadSize));
        assert_eq!(store.resize(131_072), Err(Refusal::BadSize));
        store.resize(65_536).unwrap();
        assert_eq!(store.resize(131_072), Err(Refusal::Moving));
        assert_eq!(store.resize(3), Err(Refusal::Moving));
        // In buffers for 15 buckets, of which one is missing for 16.
        let mut short = Store::start(8, 4, 15).unwrap();
        assert_eq!(short.resize(16), Err(Refusal::BadSize));
        assert_eq!(short.resize(8), Ok(()));
        assert_eq!(short.resize(16), Err(Refusal::Moving));
    }

    #[test]
    fn a_table_grows_with_a_key_for_each_bucket() {
        for (size, grown) in [(1, 4), (2, 4), (4, 8), (8, 16), (64, 128)] {
            let mut store = store(200, size, 0..size - 1);
            assert_eq!(sizes(&store), (size, 0));
            store.add(size - 1, 7).unwrap();
            assert_eq!(sizes(&store), (size, grown));
            // Nothing has moved, and the key just added lies in the old table too.
            assert!(store.unmoved().eq(0..size));
            assert_eq!(store.resize(grown), Err(Refusal::Moving));
            expect_steps(&mut store, &[(1, size > 1)]);
        }
    }

    /// Five for each bucket are not too many, and one key more is.
    #[test]
    fn without_permission_a_table_grows_above_five_keys_for_each_bucket() {
        for (size, grown) in [(1, 16), (2, 32), (4, 64), (16, 256)] {
            let mut store = fixed(200, size, 0..5 * size);
            assert_eq!(store.add(0, 7), Err(Refusal::Present));
            assert_eq!(sizes(&store), (size, 0));
            store.add(5 * size, 7).unwrap();
            assert_eq!(sizes(&store), (size, grown));
            assert_eq!(store.unmoved().count(), 5 * size as usize + 1);
        }
    }

    /// Permission itself begins nothing; the next add does, if it is given then.
    #[test]
    fn permission_is_asked_at_each_add() {
        let mut given = fixed(200, 4, 0..7);
        given.allow_resize(true);
        assert_eq!(sizes(&given), (4, 0));
        given.add(7, 70).unwrap();
        assert_eq!(sizes(&given), (4, 16));

        let mut taken = store(200, 4, 0..3);
        taken.allow_resize(false);
        taken.add(3, 30).unwrap();
        assert_eq!(sizes(&taken), (4, 0));
        // A resize that is asked for needs no permission, and leaves it as it is.
        taken.resize(2).unwrap();
        finish(&mut taken);
        add_all(&mut taken, 4..10);
        assert_eq!(sizes(&taken), (2, 0));
        taken.add(10, 0).unwrap();
        assert_eq!(sizes(&taken), (2, 32));
    }

    /// Two keys would call for 4 buckets, and the third makes it 8.
    #[test]
    fn a_table_grows_for_the_keys_behind_the_add() {
        let mut store = fixed(8, 2, [0, 1]);
        assert_eq!(store.suggested_size(Aim::Grow), 4);
        store.allow_resize(true);
        store.add(2, 20).unwrap();
        assert_eq!(sizes(&store), (2, 8));
    }

    #[test]
    fn a_table_does_not_grow_into_a_buffer_that_is_too_short() {
        for (room, new) in [(4, 0), (7, 0), (8, 8), (9, 8)] {
            let mut store = Store::start(8, 4, room).unwrap();
            add_all(&mut store, 0..4);
            assert_eq!(sizes(&store), (4, new));
            assert_eq!(store.find(3), Ok(30));
        }
        // Without permission, and with a smaller size that would have fitted.
        for (room, new) in [(8, 0), (15, 0), (16, 16)] {
            let mut store = Store::start(8, 1, room).unwrap();
            store.allow_resize(false);
            add_all(&mut store, 0..6);
            assert_eq!(sizes(&store), (1, new));
        }
        // Keys are added on and on, and a delete makes no difference.
        let mut store = Store::start(40, 4, 7).unwrap();
        add_all(&mut store, 0..40);
        store.delete(0).unwrap();
        store.add(0, 0).unwrap();
        assert_eq!((sizes(&store), store.held()), ((4, 0), 40));
        assert_eq!(store.resize(8), Err(Refusal::BadSize));
        assert_eq!(store.resize(2), Ok(()));
    }

    /// The add's step ends a move to fewer buckets, or one that growth had begun.
    #[test]
    fn a_table_grows_in_the_add_whose_step_ends_a_move() {
        let mut shrinking = store(8, 8, [8]);
        shrinking.resize(2).unwrap();
        shrinking.add(0, 0).unwrap();
        assert_eq!(sizes(&shrinking), (2, 4));
        assert!(shrinking.unmoved().eq([0, 8]));

        // With a key in each bucket a move lasts as long as the next fill.
        let mut growing = store(100, 4, 0..4);
        for held in 5..=100 {
            growing.add(held - 1, 0).unwrap();
            let size = held.next_power_of_two();
            let expected = if held == size { size } else { size / 2 };
            assert_eq!(sizes(&growing), (expected, 2 * expected), "{held}");
        }
    }

    /// However many keys come meanwhile: here the step of each add only passes
    /// empty buckets.
    #[test]
    fn a_table_does_not_grow_in_the_middle_of_a_move() {
        let mut store = store(64, 64, [63]);
        store.resize(2).unwrap();
        add_all(&mut store, 0..6);
        assert_eq!((sizes(&store), store.held()), ((64, 2), 7));
        // The next one's step ends the move, and eight keys call for 16.
        store.add(6, 60).unwrap();
        assert_eq!(sizes(&store), (2, 16));
    }

    #[test]
    fn only_an_answered_add_makes_a_table_grow() {
        let crowded = || {
            let mut store = fixed(5, 4, 0..4);
            store.allow_resize(true);
            store
        };
        let mut store = crowded();
        assert_eq!(store.add(3, 0), Err(Refusal::Present));
        assert_eq!(store.delete(4), Err(Refusal::Absent));
        assert_eq!(store.update(3, 31), Ok(()));
        assert_eq!(store.find(3), Ok(31));
        store.scan(0);
        assert_eq!(store.step(), Err(Refusal::NotMoving));
        assert_eq!(store.resize(4), Err(Refusal::BadSize));
        assert_eq!(sizes(&store), (4, 0));
        store.add(4, 40).unwrap();
        assert_eq!(sizes(&store), (4, 16));

        let mut full = crowded();
        full.allow_resize(false);
        full.add(4, 40).unwrap();
        full.allow_resize(true);
        assert_eq!(full.add(5, 0), Err(Refusal::Full));
        assert_eq!(sizes(&full), (4, 0));

        // A delete whose step ends a move, with more keys left than buckets, and
        // the add behind it.
        let mut moving = crowded();
        moving.resize(1).unwrap();
        expect_steps(&mut moving, &[(1, true), (1, true), (1, true)]);
        moving.delete(0).unwrap();
        assert_eq!((sizes(&moving), moving.held()), ((1, 0), 3));
        moving.add(0, 0).unwrap();
        assert_eq!(sizes(&moving), (1, 8));
    }

    /// Neither by deletes nor by an add that finds few keys.
    #[test]
    fn a_table_does_not_shrink_by_itself() {
        let mut store = store(100, 4, 0..100);
        finish(&mut store);
        assert_eq!(sizes(&store), (128, 0));
        for key in 0..100 {
            store.delete(key).unwrap();
            assert_eq!(sizes(&store), (128, 0));
        }
        assert_eq!(store.suggested_size(Aim::Shrink), 4);
        store.add(1, 0).unwrap();
        assert_eq!(sizes(&store), (128, 0));
    }

    #[test]
    fn a_table_does_not_grow_above_the_largest() {
        let mut half = store(65_536, 32_768, 0..32_767);
        assert_eq!(sizes(&half), (32_768, 0));
        half.add(32_767, 0).unwrap();
        assert_eq!(sizes(&half), (32_768, 65_536));
        // Its suggestion would be 131,072.
        let mut fewer = fixed(65_536, 8192, 0..40_960);
        fewer.add(40_960, 0).unwrap();
        assert_eq!(sizes(&fewer), (8192, 65_536));
        // In buffers that are as long as any.
        let mut largest = Store::start(65_536, 65_536, u32::MAX).unwrap();
        add_all(&mut largest, 0..65_536);
        assert_eq!(sizes(&largest), (65_536, 0));
    }

    /// Full, walked from end to end, and moved into one bucket.
    #[test]
    fn the_largest_store() {
        let mut store = store(65_536, 65_536, 0..65_536);
        assert_eq!(store.add(65_536, 0), Err(Refusal::Full));

        let mut handed = Vec::new();
        let mut cursor = 0;
        for calls in 1..=65_536 {
            let scan = store.scan(cursor);
            handed.extend(keys(&scan));
            cursor = scan.next;
            assert_eq!(cursor == 0, calls == 65_536);
        }
        handed.sort_unstable();
        assert!(handed.into_iter().eq(0..65_536));

        store.resize(1).unwrap();
        store.step().unwrap();
        let scan = store.scan(0);
        assert_eq!((scan.next, scan.entries.len()), (0, 65_536));
        finish(&mut store);
        assert_eq!((store.size(), store.held()), (1, 65_536));
    }
}
