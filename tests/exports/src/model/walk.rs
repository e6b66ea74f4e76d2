//! "The walk".

use super::numbers::{Answer, Refusal, Store, Table};

/// "The next cursor", for a table of this size, a power of two.
pub fn next_cursor(cursor: u32, size: u32) -> u32 {
    let above_the_lowest = !(size - 1);
    (cursor | above_the_lowest)
        .reverse_bits()
        .wrapping_add(1)
        .reverse_bits()
}

/// Pairs of a key and its value, in the order of the list.
pub type Pairs = Vec<(u32, u32)>;

impl Store {
    /// "The group": its buckets in their order, and the next cursor.
    pub fn group(&self, cursor: u32) -> (Vec<(Table, u32)>, u32) {
        let state = &self.state;
        if !state.rehashing {
            let bucket = cursor % state.old_size;
            return (
                vec![(Table::Old, bucket)],
                next_cursor(cursor, state.old_size),
            );
        }
        let (smaller, larger) = if state.old_size < state.new_size {
            (Table::Old, Table::New)
        } else {
            (Table::New, Table::Old)
        };
        let between = (self.size(larger) - 1) & !(self.size(smaller) - 1);
        let mut buckets = vec![(smaller, cursor % self.size(smaller))];
        let mut cursor = cursor;
        loop {
            buckets.push((larger, cursor % self.size(larger)));
            cursor = next_cursor(cursor, self.size(larger));
            if cursor & between == 0 {
                return (buckets, cursor);
            }
        }
    }

    /// The walk call: the next cursor, and the pairs that it hands out to a list of so many numbers.
    pub fn scan(&self, cursor: u32, list_length: usize) -> Answer<(u32, Pairs)> {
        self.require_sound_state()?;
        if self.state.held() == 0 {
            return Ok((0, Vec::new()));
        }
        let (group, next) = self.group(cursor);
        let mut entries = Vec::new();
        for (table, bucket) in group {
            entries.extend(self.chain(table, bucket)?);
        }
        if entries.len() as u64 > self.state.held() {
            return Err(Refusal::Damaged);
        }
        Ok((next, self.pairs(&entries, list_length)?))
    }

    /// The keys and values of these entries, if the list has two numbers for each of them.
    pub fn pairs(&self, entries: &[u32], list_length: usize) -> Answer<Pairs> {
        if list_length < 2 * entries.len() {
            return Err(Refusal::Short(entries.len() as u32));
        }
        Ok(entries
            .iter()
            .map(|&entry| (self.key(entry), self.value(entry)))
            .collect())
    }
}
