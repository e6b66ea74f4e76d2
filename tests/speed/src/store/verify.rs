//! The check of a whole store. It marks no entry: each looks up its own key, and as
//! many must find themselves as the chains are long.

use super::{first_of, start_of, Error, Store, Table, FIELDS};

impl Store<'_> {
    /// Whether the store is undamaged. The chains come first: only where each of them
    /// is sound does every entry look up its key.
    pub fn verify(&self) -> Result<bool, Error> {
        self.check_state()?;
        let is_sound = self.has_its_count(self.old_table())
            & self.has_its_count(self.new_table())
            & self.has_moved()
            & self.has_all_free();
        let held = self.state.old_used + self.state.new_used;
        Ok(is_sound && self.count_held() == held)
    }

    /// Whether a table's chains are sound, and together as long as its count says.
    /// Each is read no further than those before it have left of the count.
    fn has_its_count(&self, table: Table) -> bool {
        let mut left = table.used;
        for bucket in 0..table.size {
            let head = table.buckets[bucket as usize];
            let mut count = 0;
            let answer = self.read_chain(table, head, bucket, left, |_, _| count += 1);
            if answer.is_err() {
                return false;
            }
            left -= count;
        }
        left == 0
    }

    /// Whether the buckets before the next one to move are empty.
    fn has_moved(&self) -> bool {
        let moved = &self.old_table().buckets[..self.state.rehash_index as usize];
        moved.iter().all(|&head| head == 0)
    }

    /// Whether the free chain is as long as the entries that are not held, and ends in
    /// one of those: one that runs into a bucket's chain has the same end.
    fn has_all_free(&self) -> bool {
        let state = &self.state;
        let free = state.capacity - (state.old_used + state.new_used);
        match self.free_end(free) {
            None => false,
            Some(last) => last == 0 || !self.finds_itself(last),
        }
    }

    /// The last entry of the free chain, 0 where that is none, if it has so many.
    fn free_end(&self, count: u32) -> Option<u32> {
        let entries = &self.entries[..self.state.capacity as usize * FIELDS];
        let mut at = self.state.free_head;
        let mut left = count;
        let mut last = 0;
        while at != 0 {
            if left == 0 {
                return None;
            }
            last = at;
            at = *entries.get(start_of(at))?;
            left -= 1;
        }
        (left == 0).then_some(last)
    }

    fn count_held(&self) -> u32 {
        let mut count = 0;
        for entry in 1..=self.state.capacity {
            count += u32::from(self.finds_itself(entry));
        }
        count
    }

    fn finds_itself(&self, entry: u32) -> bool {
        let key = self.key(entry);
        let mut found = 0;
        let answer = self.read_chains(key, |at, met| found = first_of(found, met == key, at));
        answer.is_ok() & (found == entry)
    }
}
