//! "The calls", from start to permission. A refused call may leave its store half changed: the exports run every call
//! on a copy of what they are lent, and throw it away then.

use super::numbers::{
    has_room, legal_capacity, legal_size, Answer, Refusal, State, Store, Table, MOST,
};

/// How many empty buckets one step passes.
const PASSED_BY_A_STEP: u32 = 10;

/// Beyond this many keys for each bucket a table grows though it is not allowed.
const KEYS_FOR_EACH_BUCKET: u64 = 5;

/// The least size that is suggested.
const LEAST_SUGGESTED: u64 = 4;

/// Where a key was found.
struct Found {
    table: Table,
    entry: u32,
    /// The entry before it on its chain; none for the head.
    before: Option<u32>,
}

/// "Start".
pub fn init(first: &mut [u32], entries: &mut [u32], capacity: u32, size: u32) -> Answer<State> {
    if !legal_capacity(capacity) || !legal_size(size) {
        return Err(Refusal::BadSize);
    }
    if !has_room(first.len(), size) || !has_room(entries.len(), 3 * capacity) {
        return Err(Refusal::BadState);
    }
    first[..size as usize].fill(0);
    for (entry, number) in entries.chunks_exact_mut(3).zip(1..=capacity) {
        let next = if number == capacity { 0 } else { number + 1 };
        entry.copy_from_slice(&[next, 0, 0]);
    }
    Ok(State {
        old_size: size,
        free_head: 1,
        capacity,
        resize_allowed: true,
        ..State::default()
    })
}

impl Store {
    /// What find reads: the key's chain in each live table. All of them must be sound, also where the key is met on
    /// the first. The entry found is the first one met that has the key.
    fn search(&self, key: u32) -> Answer<Option<Found>> {
        let mut found = None;
        for &table in self.live_tables() {
            let chain = self.chain(table, self.bucket(table, key))?;
            let at = chain.iter().position(|&entry| self.key(entry) == key);
            if let (None, Some(at)) = (&found, at) {
                found = Some(Found {
                    table,
                    entry: chain[at],
                    before: at.checked_sub(1).map(|before| chain[before]),
                });
            }
        }
        Ok(found)
    }

    /// "Find".
    pub fn find(&self, key: u32) -> Answer<u32> {
        self.require_sound_state()?;
        let found = self.search(key)?.ok_or(Refusal::Absent)?;
        Ok(self.value(found.entry))
    }

    /// "Change".
    pub fn update(&mut self, key: u32, value: u32) -> Answer<()> {
        self.require_sound_state()?;
        let found = self.search(key)?.ok_or(Refusal::Absent)?;
        self.set_value(found.entry, value);
        Ok(())
    }

    /// "Add".
    pub fn add(&mut self, key: u32, value: u32) -> Answer<()> {
        self.require_sound_state()?;
        self.step_that_comes_first()?;
        if self.search(key)?.is_some() {
            return Err(Refusal::Present);
        }
        if self.state.held() == u64::from(self.state.capacity) {
            return Err(Refusal::Full);
        }
        let entry = self.state.free_head;
        if entry == 0 || self.link(entry) > self.state.capacity {
            return Err(Refusal::Damaged);
        }
        let table = if self.state.rehashing {
            Table::New
        } else {
            Table::Old
        };
        self.state.free_head = self.link(entry);
        self.set_key(entry, key);
        self.set_value(entry, value);
        self.push(table, entry);
        *self.used_mut(table) += 1;
        self.grow();
        Ok(())
    }

    /// An entry becomes the head of its key's bucket, and its link the former head.
    fn push(&mut self, table: Table, entry: u32) {
        let bucket = self.bucket(table, self.key(entry));
        self.set_link(entry, self.head(table, bucket));
        self.set_head(table, bucket, entry);
    }

    /// "Delete".
    pub fn delete(&mut self, key: u32) -> Answer<()> {
        self.require_sound_state()?;
        self.step_that_comes_first()?;
        let Found {
            table,
            entry,
            before,
        } = self.search(key)?.ok_or(Refusal::Absent)?;
        let next = self.link(entry);
        match before {
            Some(before) => self.set_link(before, next),
            None => self.set_head(table, self.bucket(table, key), next),
        }
        self.set_key(entry, 0);
        self.set_value(entry, 0);
        self.set_link(entry, self.state.free_head);
        self.state.free_head = entry;
        *self.used_mut(table) -= 1;
        Ok(())
    }

    /// "Resize".
    pub fn resize(&mut self, size: u32) -> Answer<()> {
        self.require_sound_state()?;
        if self.state.rehashing {
            return Err(Refusal::Moving);
        }
        if !legal_size(size) || size == self.state.old_size || !self.other_has_room(size) {
            return Err(Refusal::BadSize);
        }
        self.begin_move(size);
        Ok(())
    }

    fn other_has_room(&self, size: u32) -> bool {
        has_room(self.buffer(Table::New).len(), size)
    }

    fn begin_move(&mut self, size: u32) {
        self.buffer_mut(Table::New)[..size as usize].fill(0);
        self.state.rehashing = true;
        self.state.new_size = size;
        self.state.new_used = 0;
        self.state.rehash_index = 0;
    }

    /// "Step": the number of entries moved, and whether the move goes on.
    pub fn rehash_step(&mut self) -> Answer<(u32, bool)> {
        self.require_sound_state()?;
        if !self.state.rehashing {
            return Err(Refusal::NotMoving);
        }
        if self.state.paused() {
            return Err(Refusal::Paused);
        }
        let moved = if self.state.old_used == 0 {
            0
        } else {
            self.move_a_bucket()?
        };
        if self.state.old_used == 0 {
            self.end_move();
        }
        Ok((moved, self.state.rehashing))
    }

    /// The part of a step for an old table whose count is not 0.
    fn move_a_bucket(&mut self) -> Answer<u32> {
        let from = self.state.rehash_index;
        let behind = from + PASSED_BY_A_STEP;
        let looked_at = from..behind.min(self.state.old_size);
        let filled = looked_at
            .into_iter()
            .find(|&bucket| self.head(Table::Old, bucket) != 0);
        match filled {
            Some(bucket) => {
                let chain = self.chain(Table::Old, bucket)?;
                for &entry in &chain {
                    self.push(Table::New, entry);
                }
                self.set_head(Table::Old, bucket, 0);
                let moved = chain.len() as u32;
                self.state.rehash_index = bucket + 1;
                self.state.old_used -= moved;
                self.state.new_used += moved;
                Ok(moved)
            }
            None if behind < self.state.old_size => {
                self.state.rehash_index = behind;
                Ok(0)
            }
            None => Err(Refusal::Damaged),
        }
    }

    /// The new table becomes the only one.
    fn end_move(&mut self) {
        let state = &mut self.state;
        state.second_is_current = !state.second_is_current;
        state.old_size = state.new_size;
        state.old_used = state.new_used;
        state.new_size = 0;
        state.new_used = 0;
        state.rehash_index = 0;
        state.rehashing = false;
    }

    /// "The step that comes first".
    fn step_that_comes_first(&mut self) -> Answer<()> {
        if self.state.rehashing && !self.state.paused() {
            self.rehash_step()?;
        }
        Ok(())
    }

    /// "Suggested size".
    pub fn suggested_size(&self, growing: bool) -> Answer<u32> {
        self.require_sound_state()?;
        Ok(suggested(self.state.held(), growing))
    }

    /// "Growth".
    fn grow(&mut self) {
        if self.state.rehashing {
            return;
        }
        let size = u64::from(self.state.old_size);
        let held = self.state.held();
        let allowed = held >= size && self.state.resize_allowed;
        let crowded = allowed || held > KEYS_FOR_EACH_BUCKET * size;
        let wanted = suggested(held, true);
        if crowded && wanted > self.state.old_size && self.other_has_room(wanted) {
            self.begin_move(wanted);
        }
    }

    /// "Permission to grow".
    pub fn allow_resize(&mut self, allowed: bool) -> Answer<()> {
        self.require_sound_state()?;
        self.state.resize_allowed = allowed;
        Ok(())
    }
}

/// The size that suits so many keys.
pub fn suggested(held: u64, growing: bool) -> u32 {
    let least = if growing { 2 * held } else { held };
    let size = least.max(LEAST_SUGGESTED).next_power_of_two();
    size.min(u64::from(MOST)) as u32
}
