//! The step that an add or a delete takes first in a move that no safe iterator
//! holds up: foretold from the memory as it is, and taken once the call is known
//! to be answered.

use super::{bucket, start_of, Error, State, Store, Table};

/// The most empty buckets that a step passes.
const EMPTY_VISITS: usize = 10;

/// A call that meets the entries of the chains that it would read behind the
/// step: first those of the chain that moves, in its order, then those of the
/// key's new chain as it is, then those of its old chain, if the step leaves it.
pub(super) trait Meet {
    /// `joins`: the entry goes to the new bucket of the call's key.
    fn meet_moving(&mut self, entry: u32, key: u32, joins: bool);
    fn meet_new(&mut self, entry: u32, key: u32);
    fn meet_old(&mut self, entry: u32, key: u32);
}

/// A step that would be answered, and behind which the key's chains are sound.
pub(super) struct Step {
    /// The next bucket to move. The bucket before it is the one that the step
    /// moves, if it moves any keys.
    pub(super) next: u32,
    count: u32,
}

impl Store<'_> {
    /// The step that comes first in a call on the key, which meets the entries.
    pub(super) fn foresee(&self, key: u32, call: &mut impl Meet) -> Result<Step, Error> {
        let (old, new) = (self.old_table(), self.new_table());
        // Fetched before the chain that moves is read, since they may be far away.
        let (old_head, new_head) = (old.head(key), new.head(key));
        let mut next = self.state.rehash_index;
        let [mut count, mut joining, mut moving_last] = [0; 3];
        // With no keys in the old table the step only ends the move.
        if old.used != 0 {
            next = self.next_bucket(old)?;
            let moving = next - 1;
            self.read_chain(old, old.head(moving), moving, old.used, |at, met| {
                let joins = new.share_bucket(met, key);
                count += 1;
                joining += u32::from(joins);
                moving_last = at;
                call.meet_moving(at, met, joins);
            })?;
        }

        // The step raises the new table's count, and puts the keys that join the
        // key's chain before it.
        let most = new.used + count - joining;
        let mut last = 0;
        self.read_chain(new, new_head, key, most, |at, met| {
            last = at;
            call.meet_new(at, met);
        })?;
        // A chain that runs into the one that moves has the same end, and the
        // step would make it a loop.
        if (last != 0) & (last == moving_last) {
            return Err(Error::Damaged);
        }

        // The key's old chain may be the one that moves, or go with the table.
        let ends = count == old.used;
        if !ends && !old.share_bucket(next - 1, key) {
            let most = old.used - count;
            self.read_chain(old, old_head, key, most, |at, met| call.meet_old(at, met))?;
        }
        Ok(Step { next, count })
    }

    /// The next bucket to move behind a step. The bucket before it is the one
    /// that the step moves, or the tenth of ten empty ones.
    fn next_bucket(&self, old: Table) -> Result<u32, Error> {
        let from = self.state.rehash_index as usize;
        let left = &old.buckets[from..old.size as usize];
        let ahead = &left[..left.len().min(EMPTY_VISITS)];
        match ahead.iter().position(|&head| head != 0) {
            Some(passed) => Ok((from + passed + 1) as u32),
            None if left.len() > EMPTY_VISITS => Ok((from + EMPTY_VISITS) as u32),
            None => Err(Error::Damaged),
        }
    }

    /// Moves the keys, and ends the move if they are the old table's last.
    pub(super) fn take(&mut self, Step { next, count }: Step) {
        if count != 0 {
            self.move_chain(next as usize - 1);
        }
        let state = &mut self.state;
        state.old_used -= count;
        state.new_used += count;
        state.rehash_index = next;
        if state.old_used == 0 {
            *state = State {
                second_is_current: !state.second_is_current,
                old_size: state.new_size,
                old_used: state.new_used,
                free_head: state.free_head,
                capacity: state.capacity,
                resize_allowed: state.resize_allowed,
                safe_iterators: state.safe_iterators,
                ..State::default()
            };
        }
    }

    /// The entries of a bucket's chain, in turn, to the heads of their buckets
    /// in the new table.
    fn move_chain(&mut self, from: usize) {
        let size = self.state.new_size;
        let (current, other) = if self.state.second_is_current {
            (&mut self.second, &mut self.first)
        } else {
            (&mut self.first, &mut self.second)
        };
        let mut at = current[from];
        while at != 0 {
            let start = start_of(at);
            let head = &mut other[bucket(self.entries[start + 1], size)];
            let rest = self.entries[start];
            self.entries[start] = *head;
            *head = at;
            at = rest;
        }
        current[from] = 0;
    }
}
