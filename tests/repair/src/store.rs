//! Undamaged stores of every shape: with one table or two, any part of the keys moved, the chains and the free list in any
//! order, in either buffer, and in buffers that are as long as they must be or longer.

use crate::memory::{Lengths, Memory, State, Table, BUCKET_ROOM, ENTRY_ROOM, MOST_ENTRIES};
use crate::random::Random;

const SIZES: [u32; 5] = [1, 2, 4, 8, 16];

pub fn undamaged(random: &mut Random) -> Memory {
    let mut memory = bare(random);
    let keys = keys(random, memory.state.capacity);
    let mut entries: Vec<u32> = (1..=memory.state.capacity).collect();
    random.shuffle(&mut entries);
    let free = entries.split_off(keys.len());
    for (entry, key) in entries.into_iter().zip(keys) {
        let (table, bucket) = home(random, &memory.state, key);
        memory.set_key(entry, key);
        memory.set_value(entry, random.number());
        push(&mut memory, random, table, bucket, entry);
    }
    free_all(&mut memory, random, free);
    memory
}

/// A sound state that holds no key yet, every live bucket empty, and all else whatever it may be.
pub fn bare(random: &mut Random) -> Memory {
    let state = state(random);
    let mut memory = Memory {
        state,
        lengths: lengths(random, &state),
        first: rubbish(random),
        second: rubbish(random),
        entries: rubbish(random),
    };
    for (table, bucket) in memory.buckets() {
        memory.set_head(table, bucket, 0);
    }
    memory
}

fn state(random: &mut Random) -> State {
    let old_size = *random.pick(&SIZES);
    let mut state = State {
        second_is_current: random.once_in(2),
        old_size,
        capacity: random.within(1, MOST_ENTRIES as usize) as u32,
        resize_allowed: random.once_in(2),
        safe_iterators: match random.below(4) {
            0 => 255,
            1 => random.below_u32(256),
            _ => 0,
        },
        ..State::default()
    };
    if !random.once_in(3) {
        let other_sizes: Vec<u32> = SIZES.into_iter().filter(|&n| n != old_size).collect();
        state.rehashing = true;
        state.new_size = *random.pick(&other_sizes);
        state.rehash_index = random.below_u32(old_size + 1);
    }
    state
}

/// With no rehash nothing is asked of the other buffer, not even a bucket.
fn lengths(random: &mut Random, state: &State) -> Lengths {
    let mut at_least = |least: u32, room: usize| match random.once_in(3) {
        true => least as usize,
        false => random.within(least as usize, room),
    };
    let current = at_least(state.old_size, BUCKET_ROOM);
    let other = at_least(state.new_size, BUCKET_ROOM);
    let (first, second) = match state.second_is_current {
        true => (other, current),
        false => (current, other),
    };
    Lengths {
        first,
        second,
        entries: at_least(3 * state.capacity, ENTRY_ROOM),
    }
}

/// Numbers that could be entries, some that could not, and zeros.
fn rubbish<const N: usize>(random: &mut Random) -> [u32; N] {
    let any = random.once_in(4);
    [(); N].map(|()| match any {
        true => random.number(),
        false => random.below_u32(MOST_ENTRIES + 4),
    })
}

/// Different keys, none to as many as there are entries: near each other, far apart in few buckets, or any.
fn keys(random: &mut Random, capacity: u32) -> Vec<u32> {
    let count = match random.below(6) {
        0 => 0,
        1 => capacity,
        _ => random.below_u32(capacity + 1),
    };
    let step = *random.pick(&[1, 1, 4, 16, 65_536]);
    let any = random.once_in(4);
    let mut keys = Vec::new();
    while keys.len() < count as usize {
        let key = match any {
            true => random.number(),
            false => step * random.below_u32(2 * MOST_ENTRIES),
        };
        if !keys.contains(&key) {
            keys.push(key);
        }
    }
    keys
}

/// A bucket where a key may be. No key may be in a bucket of the old table that has moved.
fn home(random: &mut Random, state: &State, key: u32) -> (Table, u32) {
    let in_old = key % state.old_size;
    if state.rehashing && (in_old < state.rehash_index || random.once_in(3)) {
        (Table::New, key % state.new_size)
    } else {
        (Table::Old, in_old)
    }
}

/// Puts an entry somewhere on a bucket's chain, and counts it.
pub fn push(memory: &mut Memory, random: &mut Random, table: Table, bucket: u32, entry: u32) {
    let chain = chain_of(memory, memory.head(table, bucket));
    let before = random.below(chain.len() + 1);
    let next = chain.get(before).copied().unwrap_or(0);
    memory.set_link(entry, next);
    match before {
        0 => memory.set_head(table, bucket, entry),
        _ => memory.set_link(chain[before - 1], entry),
    }
    *memory.state.used_mut(table) += 1;
}

/// Makes the free list, which comes in any order. A freed entry has key 0 and value 0, but nothing asks for that.
fn free_all(memory: &mut Memory, random: &mut Random, free: Vec<u32>) {
    let keys_stay = random.once_in(4);
    let mut next = 0;
    for entry in free {
        memory.set_link(entry, next);
        if !keys_stay {
            memory.set_key(entry, 0);
            memory.set_value(entry, 0);
        }
        next = entry;
    }
    memory.state.free_head = next;
}

/// The entries from a head on. In a memory that is damaged already a chain is cut at its first entry that is none, or that
/// comes again.
pub fn chain_of(memory: &Memory, head: u32) -> Vec<u32> {
    let mut chain = Vec::new();
    let mut at = head;
    while (1..=memory.state.capacity).contains(&at) && !chain.contains(&at) {
        chain.push(at);
        at = memory.link(at);
    }
    chain
}
