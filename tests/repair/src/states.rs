//! States that are not sound: one limit broken in the state of an undamaged store, and no other where that can be.

use crate::damage::Damage;
use crate::memory::{Memory, State, Table, BUCKET_ROOM};
use crate::random::Random;

pub const UNSOUND: [(&str, Damage); 19] = [
    ("state of zeros", zeros),
    ("no capacity", no_capacity),
    ("capacity above its limit", large_capacity),
    ("entry buffer short", short_entries),
    ("old size not legal", bad_old_size),
    ("new size not legal", bad_new_size),
    ("size above its limit", large_size),
    ("current buffer short", short_current),
    ("other buffer short", short_other),
    ("counts above the capacity", large_counts),
    ("counts that overflow", overflowing_counts),
    ("free head out of range", large_free_head),
    ("too many safe iterators", many_safe_iterators),
    ("equal sizes", equal_sizes),
    ("next bucket out of range", large_index),
    ("resting with a new size", resting_with_new_size),
    ("resting with a new count", resting_with_new_count),
    ("resting with a next bucket", resting_with_index),
    ("rehashing with no new table", no_new_table),
];

/// Sizes that are no power of two, and for which there is room.
const BAD_SIZES: [u32; 7] = [0, 3, 5, 6, 7, 12, 15];

fn while_rehashing(memory: &Memory) -> Option<()> {
    memory.state.rehashing.then_some(())
}

fn while_resting(memory: &Memory) -> Option<()> {
    (!memory.state.rehashing).then_some(())
}

/// A number above a limit: the next, the highest, or any.
fn above(random: &mut Random, limit: u32) -> u32 {
    match random.below(3) {
        0 => limit + 1,
        1 => u32::MAX,
        _ => limit + 1 + random.number() % (u32::MAX - limit),
    }
}

/// What a refused start hands back.
fn zeros(memory: &mut Memory, _: &mut Random) -> Option<()> {
    memory.state = State::default();
    Some(())
}

fn no_capacity(memory: &mut Memory, _: &mut Random) -> Option<()> {
    let s = &mut memory.state;
    (s.capacity, s.old_used, s.new_used, s.free_head) = (0, 0, 0, 0);
    Some(())
}

/// The entry buffer is too short for it, too. Three times some of these numbers is a small one, modulo 2^32.
fn large_capacity(memory: &mut Memory, random: &mut Random) -> Option<()> {
    memory.state.capacity = *random.pick(&[65_537, 0x5555_5556, 0xaaaa_aaab, u32::MAX]);
    Some(())
}

fn short_entries(memory: &mut Memory, random: &mut Random) -> Option<()> {
    let needed = 3 * memory.state.capacity as usize;
    memory.lengths.entries = match random.once_in(2) {
        true => needed - 1,
        false => random.below(needed),
    };
    Some(())
}

fn bad_old_size(memory: &mut Memory, random: &mut Random) -> Option<()> {
    memory.state.old_size = *random.pick(&BAD_SIZES);
    memory.state.rehash_index = 0;
    *memory.length_mut(Table::Old) = BUCKET_ROOM;
    Some(())
}

fn bad_new_size(memory: &mut Memory, random: &mut Random) -> Option<()> {
    while_rehashing(memory)?;
    memory.state.new_size = *random.pick(&BAD_SIZES);
    *memory.length_mut(Table::New) = BUCKET_ROOM;
    Some(())
}

/// No room is long enough for such a size, so that this is not all that is wrong.
fn large_size(memory: &mut Memory, random: &mut Random) -> Option<()> {
    let size = *random.pick(&[131_072, 1 << 31]);
    match memory.state.rehashing && random.once_in(2) {
        true => memory.state.new_size = size,
        false => memory.state.old_size = size,
    }
    Some(())
}

fn short_current(memory: &mut Memory, random: &mut Random) -> Option<()> {
    *memory.length_mut(Table::Old) = random.below(memory.state.old_size as usize);
    Some(())
}

fn short_other(memory: &mut Memory, random: &mut Random) -> Option<()> {
    while_rehashing(memory)?;
    *memory.length_mut(Table::New) = random.below(memory.state.new_size as usize);
    Some(())
}

fn large_counts(memory: &mut Memory, random: &mut Random) -> Option<()> {
    let s = &mut memory.state;
    match s.rehashing && random.once_in(2) {
        true => s.new_used = s.capacity - s.old_used + 1,
        false => s.old_used = s.capacity - s.new_used + 1,
    }
    Some(())
}

/// The sum is a small number, modulo 2^32.
fn overflowing_counts(memory: &mut Memory, random: &mut Random) -> Option<()> {
    while_rehashing(memory)?;
    let s = &mut memory.state;
    s.new_used = 1 + random.below_u32(s.capacity + 1);
    s.old_used = u32::MAX;
    Some(())
}

fn large_free_head(memory: &mut Memory, random: &mut Random) -> Option<()> {
    memory.state.free_head = above(random, memory.state.capacity);
    Some(())
}

fn many_safe_iterators(memory: &mut Memory, random: &mut Random) -> Option<()> {
    memory.state.safe_iterators = above(random, 255);
    Some(())
}

fn equal_sizes(memory: &mut Memory, _: &mut Random) -> Option<()> {
    while_rehashing(memory)?;
    memory.state.new_size = memory.state.old_size;
    *memory.length_mut(Table::New) = BUCKET_ROOM;
    Some(())
}

fn large_index(memory: &mut Memory, random: &mut Random) -> Option<()> {
    while_rehashing(memory)?;
    memory.state.rehash_index = above(random, memory.state.old_size);
    Some(())
}

fn resting_with_new_size(memory: &mut Memory, random: &mut Random) -> Option<()> {
    while_resting(memory)?;
    memory.state.new_size = 1 << random.below(5);
    Some(())
}

/// The counts together stay within the capacity.
fn resting_with_new_count(memory: &mut Memory, _: &mut Random) -> Option<()> {
    while_resting(memory)?;
    let s = &mut memory.state;
    if s.old_used == s.capacity {
        return None;
    }
    s.new_used = 1;
    Some(())
}

fn resting_with_index(memory: &mut Memory, random: &mut Random) -> Option<()> {
    while_resting(memory)?;
    memory.state.rehash_index = 1 + random.below_u32(memory.state.old_size);
    Some(())
}

fn no_new_table(memory: &mut Memory, _: &mut Random) -> Option<()> {
    while_resting(memory)?;
    memory.state.rehashing = true;
    Some(())
}
