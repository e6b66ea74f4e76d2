//! Adds, and the growth behind them.

use super::step::Meet;
use super::{bucket, start_of, Error, Store, FIELDS, MAX_SIZE};

/// The smallest size that a table grows to.
const LEAST_SUGGESTION: u32 = 4;

/// With more than so many keys for each bucket a table grows, whether that is
/// allowed or not.
const FORCE_RATIO: u32 = 5;

/// What an add wants to know of the entries that it meets.
struct Adding {
    key: u32,
    free: u32,
    is_held: bool,
    /// Whether the first free entry is on the chain that moves.
    free_moves: bool,
}

impl Meet for Adding {
    fn meet_moving(&mut self, entry: u32, key: u32, _joins: bool) {
        self.is_held |= key == self.key;
        self.free_moves |= entry == self.free;
    }

    fn meet_new(&mut self, _entry: u32, key: u32) {
        self.is_held |= key == self.key;
    }

    fn meet_old(&mut self, _entry: u32, key: u32) {
        self.is_held |= key == self.key;
    }
}

impl Store<'_> {
    /// Where there is one table, it is known which one is read and gets the key: that
    /// is apart, as the common case.
    pub fn add(&mut self, key: u32, value: u32) -> Result<(), Error> {
        self.check_state()?;
        if self.state.rehashing {
            let next_free = if self.state.safe_iterators == 0 {
                self.step_before_add(key)?
            } else {
                self.next_free(self.is_in_either(key)?)?
            };
            self.push(self.state.rehashing, key, value, next_free);
        } else {
            let next_free = self.next_free(self.is_in_only_table(key)?)?;
            self.push(false, key, value, next_free);
        }
        if !self.state.rehashing && self.is_crowded() {
            self.grow();
        }
        Ok(())
    }

    fn is_in_only_table(&self, key: u32) -> Result<bool, Error> {
        let table = self.old_table();
        let mut is_held = false;
        self.read_chain(table, table.head(key), key, table.used, |_, met| {
            is_held |= met == key;
        })?;
        Ok(is_held)
    }

    fn is_in_either(&self, key: u32) -> Result<bool, Error> {
        let mut is_held = false;
        self.read_chains(key, |_, met| is_held |= met == key)?;
        Ok(is_held)
    }

    /// The link of the first free entry, for a key that is not held.
    fn next_free(&self, is_held: bool) -> Result<u32, Error> {
        if is_held {
            return Err(Error::Present);
        }
        self.check_number(self.link(self.first_free()?))
    }

    /// Takes the step of an add, once both are known to be answered. Answers the
    /// link that the first free entry has behind the step.
    fn step_before_add(&mut self, key: u32) -> Result<u32, Error> {
        let mut adding = Adding {
            key,
            free: self.state.free_head,
            is_held: false,
            free_moves: false,
        };
        let step = self.foresee(key, &mut adding)?;
        if adding.is_held {
            return Err(Error::Present);
        }
        let free = self.first_free()?;
        let link = if adding.free_moves {
            self.moved_link(step.next - 1, free)
        } else {
            self.link(free)
        };
        let next_free = self.check_number(link)?;
        self.take(step);
        Ok(next_free)
    }

    /// The link that an entry has once its chain, that of a bucket of the old
    /// table, has moved: to the last one before it that goes to the same bucket,
    /// or else to that bucket's head. Asked of a free entry, which only damaged
    /// memory has on a bucket's chain: elsewhere a step reads its chain once
    /// before it moves it.
    fn moved_link(&self, moving: u32, entry: u32) -> u32 {
        let new = self.new_table();
        let key = self.key(entry);
        let mut link = new.head(key);
        let mut at = self.old_table().head(moving);
        while at != entry {
            if new.share_bucket(self.key(at), key) {
                link = at;
            }
            at = self.link(at);
        }
        link
    }

    /// The first free entry, if a key more may be held.
    fn first_free(&self) -> Result<u32, Error> {
        let state = &self.state;
        if state.old_used + state.new_used == state.capacity {
            return Err(Error::Full);
        }
        match state.free_head {
            0 => Err(Error::Damaged),
            free => Ok(free),
        }
    }

    /// A number of a bucket or a link, which names an entry or none.
    fn check_number(&self, number: u32) -> Result<u32, Error> {
        if number <= self.state.capacity {
            Ok(number)
        } else {
            Err(Error::Damaged)
        }
    }

    /// The first free entry to the head of the key's bucket, in the new table or in
    /// the old one.
    pub(super) fn push(&mut self, in_new: bool, key: u32, value: u32, next_free: u32) {
        let state = &mut self.state;
        let (size, used) = if in_new {
            (state.new_size, &mut state.new_used)
        } else {
            (state.old_size, &mut state.old_used)
        };
        *used += 1;
        let buckets = if state.second_is_current != in_new {
            &mut self.second
        } else {
            &mut self.first
        };
        let head = &mut buckets[bucket(key, size)];
        let start = start_of(state.free_head);
        self.entries[start..start + FIELDS].copy_from_slice(&[*head, key, value]);
        *head = state.free_head;
        state.free_head = next_free;
    }

    /// Whether the only table has too many keys: one for each bucket, where
    /// growth is allowed, or more than five. The second is a case of the
    /// first, so that mostly one test decides.
    fn is_crowded(&self) -> bool {
        let state = &self.state;
        state.old_used >= state.old_size
            && (state.resize_allowed || state.old_used > state.old_size * FORCE_RATIO)
    }

    /// Begins a move to two buckets for each key, if that is a larger table and
    /// the other buffer has room for it.
    fn grow(&mut self) {
        let wanted = (self.state.old_used * 2).next_power_of_two();
        let size = wanted.clamp(LEAST_SUGGESTION, MAX_SIZE);
        if size > self.state.old_size && self.has_room(size) {
            self.begin_move(size);
        }
    }
}
