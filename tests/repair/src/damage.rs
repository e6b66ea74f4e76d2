//! What can be wrong with a store whose state is sound: one thing in an undamaged one, and as little else as may be, so that
//! each rule is met alone where it can be.

use crate::memory::{Memory, Table};
use crate::random::Random;
use crate::store::{chain_of, push};

/// Damages a store; `None` if this one has not what it takes, and then it may be damaged in part.
pub type Damage = fn(&mut Memory, &mut Random) -> Option<()>;

pub const DAMAGES: [(&str, Damage); 28] = [
    ("link out of range", link_out_of_range),
    ("link to another chain", link_to_another_chain),
    ("link to itself", link_to_itself),
    ("link back", link_back),
    ("link to a free entry", link_to_a_free_entry),
    ("link cut", link_cut),
    ("head out of range", head_out_of_range),
    ("head of another chain", head_of_another_chain),
    ("head lost", head_lost),
    ("key out of its bucket", key_out_of_its_bucket),
    ("key twice in a chain", key_twice_in_a_chain),
    ("key twice in a table", key_twice_in_a_table),
    ("key in both tables", key_in_both_tables),
    ("entry off its chain", entry_off_its_chain),
    ("entry off the free list", entry_off_the_free_list),
    ("tail of both tables", tail_of_both_tables),
    ("tail counted twice", tail_counted_twice),
    ("free list into a bucket", free_list_into_a_bucket),
    (
        "free list's end in a bucket",
        end_of_the_free_list_in_a_bucket,
    ),
    ("free list cut", free_list_cut),
    ("free list loops", free_list_loops),
    ("free head wrong", free_head_wrong),
    ("old count false", old_count_false),
    ("new count false", new_count_false),
    ("one counted elsewhere", one_counted_elsewhere),
    ("both counts false", both_counts_false),
    ("next bucket too far", next_bucket_too_far),
    ("passed bucket filled", passed_bucket_filled),
];

struct Chain {
    table: Table,
    bucket: u32,
    entries: Vec<u32>,
}

impl Chain {
    fn last(&self) -> u32 {
        self.entries[self.entries.len() - 1]
    }
}

/// The chains of the filled buckets.
fn filled(memory: &Memory) -> Vec<Chain> {
    let chain = |(table, bucket)| Chain {
        table,
        bucket,
        entries: chain_of(memory, memory.head(table, bucket)),
    };
    let chains = memory.buckets().into_iter().map(chain);
    chains.filter(|chain| !chain.entries.is_empty()).collect()
}

fn free_list(memory: &Memory) -> Vec<u32> {
    chain_of(memory, memory.state.free_head)
}

fn one_of<T>(random: &mut Random, mut all: Vec<T>) -> Option<T> {
    match all.len() {
        0 => None,
        count => Some(all.swap_remove(random.below(count))),
    }
}

fn filled_bucket(memory: &Memory, random: &mut Random) -> Option<Chain> {
    one_of(random, filled(memory))
}

/// An entry on a bucket's chain, and that chain.
fn held_entry(memory: &Memory, random: &mut Random) -> Option<(u32, Chain)> {
    let chain = filled_bucket(memory, random)?;
    let entry = *random.pick(&chain.entries);
    Some((entry, chain))
}

/// An entry on the chain of another bucket.
fn entry_of_another(memory: &Memory, random: &mut Random, chain: &Chain) -> Option<u32> {
    let mut others = filled(memory);
    others.retain(|other| (other.table, other.bucket) != (chain.table, chain.bucket));
    let other = one_of(random, others)?;
    Some(*random.pick(&other.entries))
}

/// A chain of a bucket, of two entries or more.
fn longer_chain(memory: &Memory, random: &mut Random) -> Option<Chain> {
    let mut chains = filled(memory);
    chains.retain(|chain| chain.entries.len() > 1);
    one_of(random, chains)
}

fn any_bucket(memory: &Memory, random: &mut Random) -> (Table, u32) {
    *random.pick(&memory.buckets())
}

/// The number of no entry, and not 0.
fn out_of_range(memory: &Memory, random: &mut Random) -> u32 {
    let capacity = memory.state.capacity;
    match random.below(3) {
        0 => capacity + 1,
        1 => u32::MAX,
        _ => capacity + 1 + random.number() % (u32::MAX - capacity),
    }
}

/// Takes the first entry off the free list.
fn take_free(memory: &mut Memory) -> Option<u32> {
    let head = memory.state.free_head;
    if !(1..=memory.state.capacity).contains(&head) {
        return None;
    }
    memory.state.free_head = memory.link(head);
    Some(head)
}

fn link_out_of_range(memory: &mut Memory, random: &mut Random) -> Option<()> {
    let entry = 1 + random.below_u32(memory.state.capacity);
    let link = out_of_range(memory, random);
    memory.set_link(entry, link);
    Some(())
}

fn link_to_another_chain(memory: &mut Memory, random: &mut Random) -> Option<()> {
    let (entry, chain) = held_entry(memory, random)?;
    let other = entry_of_another(memory, random, &chain)?;
    memory.set_link(entry, other);
    Some(())
}

fn link_to_itself(memory: &mut Memory, random: &mut Random) -> Option<()> {
    let (entry, _) = held_entry(memory, random)?;
    memory.set_link(entry, entry);
    Some(())
}

fn link_back(memory: &mut Memory, random: &mut Random) -> Option<()> {
    let chain = longer_chain(memory, random)?;
    let to = chain.entries[random.below(chain.entries.len() - 1)];
    memory.set_link(chain.last(), to);
    Some(())
}

fn link_to_a_free_entry(memory: &mut Memory, random: &mut Random) -> Option<()> {
    let (entry, _) = held_entry(memory, random)?;
    let free = one_of(random, free_list(memory))?;
    memory.set_link(entry, free);
    Some(())
}

fn link_cut(memory: &mut Memory, random: &mut Random) -> Option<()> {
    let chain = longer_chain(memory, random)?;
    let entry = chain.entries[random.below(chain.entries.len() - 1)];
    memory.set_link(entry, 0);
    Some(())
}

fn head_out_of_range(memory: &mut Memory, random: &mut Random) -> Option<()> {
    let (table, bucket) = any_bucket(memory, random);
    let head = out_of_range(memory, random);
    memory.set_head(table, bucket, head);
    Some(())
}

fn head_of_another_chain(memory: &mut Memory, random: &mut Random) -> Option<()> {
    let (table, bucket) = any_bucket(memory, random);
    let chain = Chain {
        table,
        bucket,
        entries: Vec::new(),
    };
    let head = entry_of_another(memory, random, &chain)?;
    memory.set_head(table, bucket, head);
    Some(())
}

fn head_lost(memory: &mut Memory, random: &mut Random) -> Option<()> {
    let chain = filled_bucket(memory, random)?;
    memory.set_head(chain.table, chain.bucket, 0);
    Some(())
}

fn key_out_of_its_bucket(memory: &mut Memory, random: &mut Random) -> Option<()> {
    let (entry, chain) = held_entry(memory, random)?;
    let size = memory.state.size(chain.table);
    if size == 1 {
        return None;
    }
    let off = 1 + random.below_u32(size - 1);
    memory.set_key(entry, memory.key(entry).wrapping_add(off));
    Some(())
}

fn key_twice_in_a_chain(memory: &mut Memory, random: &mut Random) -> Option<()> {
    let (entry, chain) = held_entry(memory, random)?;
    let twin = take_free(memory)?;
    memory.set_key(twin, memory.key(entry));
    memory.set_value(twin, random.number());
    push(memory, random, chain.table, chain.bucket, twin);
    Some(())
}

/// In two buckets, of which only one can be the key's.
fn key_twice_in_a_table(memory: &mut Memory, random: &mut Random) -> Option<()> {
    let (entry, chain) = held_entry(memory, random)?;
    let mut others = filled(memory);
    others.retain(|other| other.table == chain.table && other.bucket != chain.bucket);
    let other = one_of(random, others)?;
    let twin = *random.pick(&other.entries);
    memory.set_key(twin, memory.key(entry));
    Some(())
}

/// The bucket of the other table where an entry's key belongs, if a key may be there.
fn bucket_elsewhere(memory: &Memory, chain: &Chain, entry: u32) -> Option<(Table, u32)> {
    if !memory.state.rehashing {
        return None;
    }
    let other = match chain.table {
        Table::Old => Table::New,
        Table::New => Table::Old,
    };
    let bucket = memory.key(entry) % memory.state.size(other);
    let has_moved = other == Table::Old && bucket < memory.state.rehash_index;
    (!has_moved).then_some((other, bucket))
}

fn key_in_both_tables(memory: &mut Memory, random: &mut Random) -> Option<()> {
    let (entry, chain) = held_entry(memory, random)?;
    let (table, bucket) = bucket_elsewhere(memory, &chain, entry)?;
    let twin = take_free(memory)?;
    memory.set_key(twin, memory.key(entry));
    memory.set_value(twin, random.number());
    push(memory, random, table, bucket, twin);
    Some(())
}

/// The counts stay true, so that nothing else is wrong.
fn entry_off_its_chain(memory: &mut Memory, random: &mut Random) -> Option<()> {
    let (entry, chain) = held_entry(memory, random)?;
    let next = memory.link(entry);
    match chain.entries.iter().position(|&other| other == entry)? {
        0 => memory.set_head(chain.table, chain.bucket, next),
        place => memory.set_link(chain.entries[place - 1], next),
    }
    let used = memory.state.used_mut(chain.table);
    *used = used.checked_sub(1)?;
    Some(())
}

fn entry_off_the_free_list(memory: &mut Memory, random: &mut Random) -> Option<()> {
    let free = free_list(memory);
    if free.is_empty() {
        return None;
    }
    let place = random.below(free.len());
    let next = memory.link(free[place]);
    match place {
        0 => memory.state.free_head = next,
        _ => memory.set_link(free[place - 1], next),
    }
    Some(())
}

/// The last entry of a chain becomes the last of one in the other table, too.
fn tail_of_both_tables(memory: &mut Memory, random: &mut Random) -> Option<()> {
    share_a_tail(memory, random).map(|_| ())
}

/// Nor do the lengths of the chains tell it: where one entry is on two chains, one is on none.
fn tail_counted_twice(memory: &mut Memory, random: &mut Random) -> Option<()> {
    let table = share_a_tail(memory, random)?;
    take_free(memory)?;
    *memory.state.used_mut(table) += 1;
    Some(())
}

fn share_a_tail(memory: &mut Memory, random: &mut Random) -> Option<Table> {
    let chain = filled_bucket(memory, random)?;
    let tail = chain.last();
    let (table, bucket) = bucket_elsewhere(memory, &chain, tail)?;
    match chain_of(memory, memory.head(table, bucket)).last() {
        None => memory.set_head(table, bucket, tail),
        Some(&last) => memory.set_link(last, tail),
    }
    Some(table)
}

fn free_list_into_a_bucket(memory: &mut Memory, random: &mut Random) -> Option<()> {
    let (entry, _) = held_entry(memory, random)?;
    let last = *free_list(memory).last()?;
    memory.set_link(last, entry);
    Some(())
}

/// The free list is as long as it was, so that nothing but the entries on it tells.
fn end_of_the_free_list_in_a_bucket(memory: &mut Memory, random: &mut Random) -> Option<()> {
    let tail = filled_bucket(memory, random)?.last();
    match free_list(memory)[..] {
        [] => return None,
        [_] => memory.state.free_head = tail,
        [.., before, _] => memory.set_link(before, tail),
    }
    Some(())
}

fn free_list_cut(memory: &mut Memory, random: &mut Random) -> Option<()> {
    let mut free = free_list(memory);
    free.pop();
    let entry = one_of(random, free)?;
    memory.set_link(entry, 0);
    Some(())
}

fn free_list_loops(memory: &mut Memory, random: &mut Random) -> Option<()> {
    let free = free_list(memory);
    let last = *free.last()?;
    memory.set_link(last, *random.pick(&free));
    Some(())
}

fn free_head_wrong(memory: &mut Memory, random: &mut Random) -> Option<()> {
    let right = memory.state.free_head;
    let others = (0..=memory.state.capacity).filter(|&head| head != right);
    memory.state.free_head = one_of(random, others.collect())?;
    Some(())
}

/// Another count, with which the state is still sound.
fn false_count(memory: &mut Memory, random: &mut Random, table: Table) -> Option<()> {
    let held = memory.state.old_used + memory.state.new_used;
    let room = memory.state.capacity.checked_sub(held)?;
    let used = memory.state.used_mut(table);
    let right = *used;
    let others = (0..=right + room).filter(|&count| count != right);
    *used = one_of(random, others.collect())?;
    Some(())
}

fn old_count_false(memory: &mut Memory, random: &mut Random) -> Option<()> {
    false_count(memory, random, Table::Old)
}

/// With no rehash the new count is 0 in every sound state.
fn new_count_false(memory: &mut Memory, random: &mut Random) -> Option<()> {
    match memory.state.rehashing {
        true => false_count(memory, random, Table::New),
        false => None,
    }
}

/// The sum of the counts is right.
fn one_counted_elsewhere(memory: &mut Memory, random: &mut Random) -> Option<()> {
    if !memory.state.rehashing {
        return None;
    }
    let (fewer, more) = match random.once_in(2) {
        true => (Table::Old, Table::New),
        false => (Table::New, Table::Old),
    };
    let used = memory.state.used_mut(fewer);
    *used = used.checked_sub(1)?;
    *memory.state.used_mut(more) += 1;
    Some(())
}

fn both_counts_false(memory: &mut Memory, random: &mut Random) -> Option<()> {
    old_count_false(memory, random)?;
    new_count_false(memory, random)
}

fn next_bucket_too_far(memory: &mut Memory, random: &mut Random) -> Option<()> {
    let mut chains = filled(memory);
    chains.retain(|chain| memory.state.rehashing && chain.table == Table::Old);
    let bucket = one_of(random, chains)?.bucket;
    memory.state.rehash_index =
        random.within(bucket as usize + 1, memory.state.old_size as usize) as u32;
    Some(())
}

/// By a key that belongs there and is nowhere else.
fn passed_bucket_filled(memory: &mut Memory, random: &mut Random) -> Option<()> {
    let passed = memory.state.rehash_index;
    if passed == 0 {
        return None;
    }
    let bucket = random.below_u32(passed);
    let entry = take_free(memory)?;
    let mut keys = (0..).map(|round| round * memory.state.old_size + bucket);
    let key = keys.find(|&key| (1..=memory.state.capacity).all(|n| memory.key(n) != key))?;
    memory.set_key(entry, key);
    push(memory, random, Table::Old, bucket, entry);
    Some(())
}
