//! The mend of a whole store, whatever its memory holds, in five passes: chains are
//! cut where they are damaged, so that each entry is met once; of the entries met
//! those are kept that are the first with their key; the others leave their chains;
//! all that are not kept are freed; and the keys are counted.
//!
//! The proved store counts down in each loop that follows a chain, since a proved
//! loop has to end. Here only the lookups do. In the other loops a mark ends the
//! chain, or the chain is sound by then.

use super::{bucket, first_of, start_of, Error, Store, Table, FIELDS, MAX_CAPACITY};

impl Store<'_> {
    /// Mends the store in place.
    pub fn repair(&mut self) -> Result<(), Error> {
        self.check_state()?;
        let mut room = [0; MAX_CAPACITY as usize];
        let marks = &mut room[..self.state.capacity as usize];
        for in_new in [false, true] {
            self.cut_table(in_new, marks);
        }
        self.decide(marks);
        for in_new in [false, true] {
            self.prune_table(in_new, marks);
        }
        let free_head = self.free_others(marks);

        let moved = &self.old_table().buckets[..self.state.rehash_index as usize];
        let filled = moved.iter().position(|&head| head != 0);
        let (old_used, new_used) = (self.count(self.old_table()), self.count(self.new_table()));
        let state = &mut self.state;
        (state.old_used, state.new_used) = (old_used, new_used);
        state.rehash_index = filled.map_or(state.rehash_index, |bucket| bucket as u32);
        state.free_head = free_head;
        Ok(())
    }

    /// A table's buckets, as many as its size, and the entries, as many as the
    /// capacity. With no move the new table has none.
    fn parts(&mut self, in_new: bool) -> (&mut [u32], &mut [u32]) {
        let state = &self.state;
        let buckets = if state.second_is_current != in_new {
            &mut self.second
        } else {
            &mut self.first
        };
        let size = if in_new {
            state.new_size
        } else {
            state.old_size
        };
        (
            &mut buckets[..size as usize],
            &mut self.entries[..state.capacity as usize * FIELDS],
        )
    }

    /// The first pass, over one table's chains.
    fn cut_table(&mut self, in_new: bool, marks: &mut [u8]) {
        let (buckets, entries) = self.parts(in_new);
        let size = buckets.len() as u32;
        for (place, head) in buckets.iter_mut().enumerate() {
            *head = cut_chain(entries, marks, *head, place, size);
        }
    }

    /// The second pass: marks those of the entries met that are kept. Those that were
    /// not met are on no chain, and are not looked up.
    fn decide(&self, marks: &mut [u8]) {
        for (mark, entry) in marks.iter_mut().zip(1..) {
            if *mark != 0 {
                *mark = u8::from(self.is_first(entry));
            }
        }
    }

    /// Whether an entry is the first with its key. The counts may be false, so a chain
    /// may be as long as the capacity.
    fn is_first(&self, entry: u32) -> bool {
        let key = self.key(entry);
        let most = self.state.capacity;
        let mut found = 0;
        let mut read = |table: Table| {
            let meet = |at, met| found = first_of(found, met == key, at);
            self.read_chain(table, table.head(key), key, most, meet)
                .is_ok()
        };
        let mut is_sound = read(self.old_table());
        if self.state.rehashing {
            is_sound &= read(self.new_table());
        }
        is_sound & (found == entry)
    }

    /// The third pass, over one table's chains.
    fn prune_table(&mut self, in_new: bool, marks: &[u8]) {
        let (buckets, entries) = self.parts(in_new);
        for head in buckets {
            *head = prune_chain(entries, marks, *head);
        }
    }

    /// The fourth pass: from the last entry down, so that the free chain runs upwards.
    /// Answers its head.
    fn free_others(&mut self, marks: &[u8]) -> u32 {
        let (_, entries) = self.parts(false);
        let mut head = 0;
        let chunks = entries.chunks_exact_mut(FIELDS);
        for (place, (entry, mark)) in chunks.zip(marks).enumerate().rev() {
            if *mark == 0 {
                entry.copy_from_slice(&[head, 0, 0]);
                head = place as u32 + 1;
            }
        }
        head
    }

    /// The last pass: the keys of one table. Its chains are sound by now.
    fn count(&self, table: Table) -> u32 {
        let mut count = 0;
        for bucket in 0..table.size {
            let head = table.buckets[bucket as usize];
            let most = self.state.capacity;
            let mut length = 0;
            let answer = self.read_chain(table, head, bucket, most, |_, _| length += 1);
            count += answer.map_or(0, |()| length);
        }
        count
    }
}

/// Marks the entries met on a chain, until 0, a number out of range, an entry met
/// before, or a key out of its bucket. Cuts the chain behind the last of them, and
/// answers its head. A link is read before it is written.
fn cut_chain(entries: &mut [u32], marks: &mut [u8], head: u32, place: usize, size: u32) -> u32 {
    let mut at = head;
    let mut last = 0;
    while at != 0 {
        let start = start_of(at);
        let Some(mark) = marks.get_mut(at as usize - 1) else {
            break;
        };
        if (*mark != 0) | (bucket(entries[start + 1], size) != place) {
            break;
        }
        *mark = 1;
        last = at;
        at = entries[start];
    }
    if last == 0 {
        return 0;
    }
    entries[start_of(last)] = 0;
    head
}

/// Links each entry that is kept to the next one, and answers the first.
fn prune_chain(entries: &mut [u32], marks: &[u8], head: u32) -> u32 {
    let first = next_kept(entries, marks, head);
    let mut at = first;
    while at != 0 {
        let start = start_of(at);
        let next = next_kept(entries, marks, entries[start]);
        entries[start] = next;
        at = next;
    }
    first
}

/// The first entry that is kept, from one on, 0 where there is none.
fn next_kept(entries: &[u32], marks: &[u8], head: u32) -> u32 {
    let mut at = head;
    while at != 0 && marks[at as usize - 1] == 0 {
        at = entries[start_of(at)];
    }
    at
}
