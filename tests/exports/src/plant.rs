//! Undamaged stores of every shape, made directly and not by calls: a full store of 4,096 entries in the midst of a
//! move would take thousands of calls otherwise.

use std::collections::HashSet;

use crate::model::numbers::{State, Store, Table};
use crate::random::Random;

/// How large a store and its buffers may be.
#[derive(Clone, Copy, Debug, PartialEq, Eq)]
pub enum Room {
    /// A few entries, so that damage meets damage often.
    Tiny,
    Small,
    Middle,
    /// As much as a store over bytes may have.
    Largest,
}

impl Room {
    /// Both the most entries and the most buckets, a power of two.
    pub fn most(self) -> u32 {
        match self {
            Room::Tiny => 4,
            Room::Small => 32,
            Room::Middle => 256,
            Room::Largest => 4_096,
        }
    }

    pub fn capacity(self, random: &mut Random) -> u32 {
        match random.below(3) {
            0 => self.most(),
            _ => 1 + random.below_u32(self.most()),
        }
    }

    /// A legal size that the room allows: often the least or the most. With a small table chains are long, and a walk
    /// call hands out many keys.
    pub fn size(self, random: &mut Random) -> u32 {
        match random.below(6) {
            0 => 1,
            1 => self.most(),
            _ => 1 << random.below_u32(self.most().ilog2() + 1),
        }
    }

    /// The length of a bucket buffer in numbers, at least as many as are needed.
    pub fn bucket_numbers(self, random: &mut Random, needed: u32) -> usize {
        let (needed, most) = (needed as usize, self.most() as usize);
        match random.below(4) {
            0 => needed,
            1 => most,
            _ => random.within(needed, most),
        }
    }

    /// The length of an entry buffer in numbers.
    pub fn entry_numbers(self, random: &mut Random, capacity: u32) -> usize {
        let needed = 3 * capacity as usize;
        let most = 3 * self.most() as usize;
        match random.below(3) {
            0 => needed,
            1 => most,
            _ => (needed + random.below(6)).min(most),
        }
    }
}

/// Keys of one kind: near each other, in few buckets, or anywhere.
#[derive(Clone, Copy)]
enum Keys {
    Near(u32),
    Apart(u32),
    Anywhere,
}

impl Keys {
    fn random(random: &mut Random, room: Room) -> Self {
        match random.below(4) {
            0 => Keys::Anywhere,
            1 => Keys::Apart(room.size(random)),
            _ => Keys::Near(4 * room.most()),
        }
    }

    fn key(self, random: &mut Random) -> u32 {
        match self {
            Keys::Near(bound) => random.below_u32(bound),
            // One in eight is off the buckets that the others share.
            Keys::Apart(step) if !random.once_in(8) => random.number().wrapping_mul(step),
            Keys::Apart(_) | Keys::Anywhere => random.number(),
        }
    }
}

/// An undamaged store. What no live table and no entry has is random.
pub fn plant(random: &mut Random, room: Room) -> Store {
    let mut store = empty(random, room);
    let capacity = store.state.capacity;
    let held = match random.below(6) {
        0 => 0,
        1 => capacity,
        2 => capacity - 1,
        _ => random.below_u32(capacity + 1),
    };
    let keys = Keys::random(random, room);
    let mut used = HashSet::new();
    let mut numbers: Vec<u32> = (1..=capacity).collect();
    random.shuffle(&mut numbers);
    let (with_key, free) = numbers.split_at(held as usize);
    for &entry in with_key {
        let mut key = keys.key(random);
        while !used.insert(key) {
            key = random.number();
        }
        let table = table_for(random, &store, key);
        let bucket = store.bucket(table, key);
        store.set_link(entry, store.head(table, bucket));
        store.set_key(entry, key);
        store.set_value(entry, random.number());
        store.set_head(table, bucket, entry);
        *store.used_mut(table) += 1;
    }
    for &entry in free {
        store.set_link(entry, store.state.free_head);
        store.state.free_head = entry;
        // The calls leave free entries the key 0, but a free entry may have any.
        let key = if random.once_in(4) {
            keys.key(random)
        } else {
            0
        };
        store.set_key(entry, key);
    }
    store
}

/// A store with no keys and no free chain yet.
fn empty(random: &mut Random, room: Room) -> Store {
    let capacity = room.capacity(random);
    let old_size = room.size(random);
    let rehashing = !random.once_in(3);
    let new_size = if rehashing {
        other_size(random, room, old_size)
    } else {
        0
    };
    let rehash_index = match (rehashing, random.below(4)) {
        (false, _) | (true, 0) => 0,
        (true, 1) => old_size - 1,
        (true, _) => random.below_u32(old_size),
    };
    let safe_iterators = match random.below(12) {
        0 => 1,
        1 => 1 + random.below_u32(253),
        2 => 254,
        3 => 255,
        _ => 0,
    };
    let current = random_numbers(random, |random| room.bucket_numbers(random, old_size));
    let other = random_numbers(random, |random| {
        if rehashing || random.once_in(2) {
            room.bucket_numbers(random, new_size)
        } else {
            room.size(random) as usize
        }
    });
    let second_is_current = random.once_in(2);
    let (first, second) = if second_is_current {
        (other, current)
    } else {
        (current, other)
    };
    let state = State {
        second_is_current,
        old_size,
        new_size,
        rehashing,
        rehash_index,
        capacity,
        resize_allowed: !random.once_in(4),
        safe_iterators,
        ..State::default()
    };
    let entries = random_numbers(random, |random| room.entry_numbers(random, capacity));
    let mut store = Store {
        state,
        first,
        second,
        entries,
    };
    for &table in store.live_tables() {
        let size = store.size(table) as usize;
        store.buffer_mut(table)[..size].fill(0);
    }
    store
}

fn other_size(random: &mut Random, room: Room, old_size: u32) -> u32 {
    loop {
        let size = room.size(random);
        if size != old_size {
            return size;
        }
    }
}

fn random_numbers(random: &mut Random, length: impl FnOnce(&mut Random) -> usize) -> Vec<u32> {
    let length = length(random);
    (0..length).map(|_| random.number()).collect()
}

/// During a move a key may be in the old table, unless its bucket there has moved, or in the new one.
fn table_for(random: &mut Random, store: &Store, key: u32) -> Table {
    let has_moved = store.bucket(Table::Old, key) < store.state.rehash_index;
    if store.state.rehashing && (has_moved || random.once_in(3)) {
        Table::New
    } else {
        Table::Old
    }
}
