//! Deletes.

use super::step::Meet;
use super::{bucket, start_of, Error, Store, Table, FIELDS};

/// The way to an entry: the entry before it on its chain, 0 where the bucket
/// itself leads to it, and the entry, 0 where none is found.
#[derive(Clone, Copy, Default)]
struct Way {
    before: u32,
    entry: u32,
}

/// A search for the first entry with a key on one chain, whose entries it meets
/// in turn. What it has found is carried without a branch.
struct Search {
    key: u32,
    found: Way,
    /// The entry met last.
    last: u32,
}

impl Search {
    fn new(key: u32) -> Search {
        Search {
            key,
            found: Way::default(),
            last: 0,
        }
    }

    fn meet(&mut self, entry: u32, key: u32) {
        let is_first = (self.found.entry == 0) & (key == self.key);
        let way = Way {
            before: self.last,
            entry,
        };
        self.found = if is_first { way } else { self.found };
        self.last = entry;
    }

    /// An entry that moves, before those of the chain as it is. Each that joins
    /// becomes the head: so the last with the key will be the first, and the next
    /// that joins will stand before it. Where none has the key, the first that
    /// joins will stand before the chain as it is.
    fn meet_moving(&mut self, entry: u32, key: u32, joins: bool) {
        let Way { before, entry: at } = self.found;
        let is_key = key == self.key;
        let is_next = joins & (before == 0);
        let next = if is_next { entry } else { before };
        self.last = if is_key { 0 } else { next };
        self.found = Way {
            before: self.last,
            entry: if is_key { entry } else { at },
        };
    }
}

/// The searches of a delete, on the key's chains as its step will leave them.
struct Deleting {
    old: Search,
    new: Search,
}

impl Meet for Deleting {
    fn meet_moving(&mut self, entry: u32, key: u32, joins: bool) {
        self.new.meet_moving(entry, key, joins);
    }

    fn meet_new(&mut self, entry: u32, key: u32) {
        self.new.meet(entry, key);
    }

    fn meet_old(&mut self, entry: u32, key: u32) {
        self.old.meet(entry, key);
    }
}

/// The table that an entry is found in.
#[derive(Clone, Copy, PartialEq, Eq)]
enum Side {
    Old,
    New,
}

impl Store<'_> {
    pub fn delete(&mut self, key: u32) -> Result<(), Error> {
        self.check_state()?;
        let (side, way) = if !self.state.rehashing {
            (Side::Old, self.way_in(self.old_table(), key)?)
        } else if self.state.safe_iterators == 0 {
            self.step_before_delete(key)?
        } else {
            let old = self.way_in(self.old_table(), key)?;
            first_way(old, self.way_in(self.new_table(), key)?)
        };
        if way.entry == 0 {
            return Err(Error::Absent);
        }
        self.remove(side, way, key);
        Ok(())
    }

    /// The way to the key's entry in one table. The chain is read to its end.
    fn way_in(&self, table: Table, key: u32) -> Result<Way, Error> {
        let mut search = Search::new(key);
        self.read_chain(table, table.head(key), key, table.used, |at, met| {
            search.meet(at, met);
        })?;
        Ok(search.found)
    }

    /// Takes the step of a delete, once both are known to be answered. Answers the
    /// way to the key's entry behind the step.
    fn step_before_delete(&mut self, key: u32) -> Result<(Side, Way), Error> {
        let mut deleting = Deleting {
            old: Search::new(key),
            new: Search::new(key),
        };
        let step = self.foresee(key, &mut deleting)?;
        let (side, way) = first_way(deleting.old.found, deleting.new.found);
        if way.entry == 0 {
            return Err(Error::Absent);
        }
        self.take(step);
        Ok((side, way))
    }

    /// The entry off its chain, and to the head of the free chain.
    fn remove(&mut self, side: Side, way: Way, key: u32) {
        let state = &mut self.state;
        // A step that ended the move has made the new table the only one.
        let in_new = (side == Side::New) & state.rehashing;
        let (size, used) = if in_new {
            (state.new_size, &mut state.new_used)
        } else {
            (state.old_size, &mut state.old_used)
        };
        *used -= 1;
        let buckets = if state.second_is_current != in_new {
            &mut self.second
        } else {
            &mut self.first
        };
        let start = start_of(way.entry);
        let link = self.entries[start];
        if way.before == 0 {
            buckets[bucket(key, size)] = link;
        } else {
            self.entries[start_of(way.before)] = link;
        }
        self.entries[start..start + FIELDS].copy_from_slice(&[state.free_head, 0, 0]);
        state.free_head = way.entry;
    }
}

/// The old table's entry comes first.
fn first_way(old: Way, new: Way) -> (Side, Way) {
    if old.entry != 0 {
        (Side::Old, old)
    } else {
        (Side::New, new)
    }
}
