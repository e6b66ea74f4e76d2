//! What verify and repair answer and leave, from the request and the specification alone: each rule by itself, as it is
//! said there, and none with an eye to how the store finds it out.

use crate::memory::{Memory, Table};

/// The specification's limits.
const MOST_CAPACITY: u32 = 65_536;
const MOST_SIZE: u32 = 65_536;
const MOST_SAFE_ITERATORS: u32 = 255;

/// The number of the only refusal of both calls.
pub const BAD_STATE: u32 = 1;

/// What the two calls answer on a memory, verify first, and the memory that repair leaves.
#[derive(Clone, Debug, PartialEq, Eq)]
pub struct Answer {
    pub verify: u32,
    pub undamaged: u32,
    pub repair: u32,
    pub after: Memory,
}

pub fn answer(memory: &Memory) -> Answer {
    answer_by(memory, is_undamaged, repaired)
}

/// The answer, given how the two calls do their work on a sound state.
pub fn answer_by(
    memory: &Memory,
    is_undamaged: impl Fn(&Memory) -> bool,
    repaired: impl Fn(&Memory) -> Memory,
) -> Answer {
    if !is_sound(memory) {
        return Answer {
            verify: BAD_STATE,
            undamaged: 0,
            repair: BAD_STATE,
            after: memory.clone(),
        };
    }
    Answer {
        verify: 0,
        undamaged: is_undamaged(memory).into(),
        repair: 0,
        after: repaired(memory),
    }
}

/// What a sound state keeps within, beside the buffers that are lent with it.
#[derive(Clone, Copy, Debug, PartialEq, Eq)]
pub enum Limit {
    Capacity,
    EntryBuffer,
    OldSize,
    CurrentBuffer,
    KeysHeld,
    FreeHead,
    SafeIterators,
    RestingNewSize,
    RestingNewCount,
    RestingIndex,
    NewSize,
    OtherBuffer,
    SizesDiffer,
    Index,
}

pub const LIMITS: [Limit; 14] = [
    Limit::Capacity,
    Limit::EntryBuffer,
    Limit::OldSize,
    Limit::CurrentBuffer,
    Limit::KeysHeld,
    Limit::FreeHead,
    Limit::SafeIterators,
    Limit::RestingNewSize,
    Limit::RestingNewCount,
    Limit::RestingIndex,
    Limit::NewSize,
    Limit::OtherBuffer,
    Limit::SizesDiffer,
    Limit::Index,
];

pub fn is_sound(memory: &Memory) -> bool {
    broken_limits(memory).is_empty()
}

/// The limits of "Sound state" that a state breaks.
pub fn broken_limits(memory: &Memory) -> Vec<Limit> {
    LIMITS
        .into_iter()
        .filter(|&limit| !keeps(memory, limit))
        .collect()
}

fn keeps(memory: &Memory, limit: Limit) -> bool {
    let s = &memory.state;
    let fits = |table| s.size(table) as usize <= memory.length(table);
    match limit {
        Limit::Capacity => (1..=MOST_CAPACITY).contains(&s.capacity),
        Limit::EntryBuffer => 3 * u64::from(s.capacity) <= memory.lengths.entries as u64,
        Limit::OldSize => is_legal_size(s.old_size),
        Limit::CurrentBuffer => fits(Table::Old),
        Limit::KeysHeld => u64::from(s.old_used) + u64::from(s.new_used) <= u64::from(s.capacity),
        Limit::FreeHead => s.free_head <= s.capacity,
        Limit::SafeIterators => s.safe_iterators <= MOST_SAFE_ITERATORS,
        Limit::RestingNewSize => s.rehashing || s.new_size == 0,
        Limit::RestingNewCount => s.rehashing || s.new_used == 0,
        Limit::RestingIndex => s.rehashing || s.rehash_index == 0,
        Limit::NewSize => !s.rehashing || is_legal_size(s.new_size),
        Limit::OtherBuffer => !s.rehashing || fits(Table::New),
        Limit::SizesDiffer => !s.rehashing || s.new_size != s.old_size,
        Limit::Index => !s.rehashing || s.rehash_index <= s.old_size,
    }
}

fn is_legal_size(size: u32) -> bool {
    size.is_power_of_two() && size <= MOST_SIZE
}

/// Whether a key belongs to a bucket of a table.
pub fn belongs(memory: &Memory, table: Table, bucket: u32, key: u32) -> bool {
    key % memory.state.size(table) == bucket
}

/// The rules of an undamaged store, its sound state apart: "every chain is sound; each entry is on exactly one chain, in the
/// bucket its key calls for, or on the free chain; no two entries in buckets have the same key; and the old table's buckets
/// before the next one to move are empty", and the held counts are the true ones.
#[derive(Clone, Copy, Debug, PartialEq, Eq)]
pub enum Rule {
    /// Every number on a chain is at most the capacity, every key on it belongs there, and it ends.
    ChainsEnd,
    /// No bucket's chain has more entries than its table is said to hold, nor the free list more than are said to be free.
    ChainsWithinCounts,
    OnOneChainAtLeast,
    OnOneChainAtMost,
    KeysDifferInATable,
    KeysDifferBetweenTables,
    PassedBucketsEmpty,
    OldCountTrue,
    NewCountTrue,
}

pub fn is_undamaged(memory: &Memory) -> bool {
    broken_rules(memory).is_empty()
}

/// The rules that a memory with a sound state breaks. If a chain does not end, the others are not looked at.
pub fn broken_rules(memory: &Memory) -> Vec<Rule> {
    let Some(chains) = Chains::of(memory) else {
        return vec![Rule::ChainsEnd];
    };
    let s = &memory.state;
    let [old, new] = [Table::Old, Table::New].map(|table| chains.entries_of(table));
    let [old_keys, new_keys] = [&old, &new].map(|entries| keys(memory, entries));
    let mut all = [&old[..], &new, &chains.free].concat();
    all.sort_unstable();
    let mut met = all.clone();
    met.dedup();
    // Both counts together are at most the capacity in a sound state.
    let free_count = s.capacity - s.old_used - s.new_used;
    let within_counts = chains.all_at_most(Table::Old, s.old_used)
        && chains.all_at_most(Table::New, s.new_used)
        && chains.free.len() <= free_count as usize;
    let passed = &memory.buffer(Table::Old)[..s.rehash_index as usize];
    [
        (Rule::ChainsWithinCounts, within_counts),
        (Rule::OnOneChainAtLeast, met.len() == s.capacity as usize),
        (Rule::OnOneChainAtMost, met.len() == all.len()),
        (
            Rule::KeysDifferInATable,
            are_different(&old_keys) && are_different(&new_keys),
        ),
        (
            Rule::KeysDifferBetweenTables,
            !old_keys.iter().any(|key| new_keys.contains(key)),
        ),
        (
            Rule::PassedBucketsEmpty,
            passed.iter().all(|&head| head == 0),
        ),
        (Rule::OldCountTrue, old.len() == s.old_used as usize),
        (Rule::NewCountTrue, new.len() == s.new_used as usize),
    ]
    .into_iter()
    .filter_map(|(rule, holds)| (!holds).then_some(rule))
    .collect()
}

/// The keys of different entries: an entry that two chains share counts once.
fn keys(memory: &Memory, entries: &[u32]) -> Vec<u32> {
    let mut entries = entries.to_vec();
    entries.sort_unstable();
    entries.dedup();
    entries.iter().map(|&entry| memory.key(entry)).collect()
}

fn are_different(keys: &[u32]) -> bool {
    let mut keys = keys.to_vec();
    keys.sort_unstable();
    keys.windows(2).all(|pair| pair[0] != pair[1])
}

/// The entries of a live bucket, in the order of the chain.
#[derive(Clone, Debug, PartialEq, Eq)]
pub struct Bucket {
    pub table: Table,
    pub bucket: u32,
    pub entries: Vec<u32>,
}

pub struct Chains {
    pub buckets: Vec<Bucket>,
    pub free: Vec<u32>,
}

impl Chains {
    /// All chains of the store, if each of them ends.
    pub fn of(memory: &Memory) -> Option<Chains> {
        let mut buckets = Vec::new();
        for (table, bucket) in memory.buckets() {
            let head = memory.head(table, bucket);
            let entries = chain(memory, head, |key| belongs(memory, table, bucket, key))?;
            buckets.push(Bucket {
                table,
                bucket,
                entries,
            });
        }
        let free = chain(memory, memory.state.free_head, |_| true)?;
        Some(Chains { buckets, free })
    }

    pub fn entries_of(&self, table: Table) -> Vec<u32> {
        let of_table = self.buckets.iter().filter(|bucket| bucket.table == table);
        of_table
            .flat_map(|bucket| bucket.entries.iter().copied())
            .collect()
    }

    fn all_at_most(&self, table: Table, most: u32) -> bool {
        let mut of_table = self.buckets.iter().filter(|bucket| bucket.table == table);
        of_table.all(|bucket| bucket.entries.len() <= most as usize)
    }
}

/// The chain from a head, unless a number on it is out of range, a key is not welcome, or it loops.
fn chain(memory: &Memory, head: u32, welcome: impl Fn(u32) -> bool) -> Option<Vec<u32>> {
    let mut entries = Vec::new();
    let mut at = head;
    while at != 0 {
        if at > memory.state.capacity || entries.contains(&at) || !welcome(memory.key(at)) {
            return None;
        }
        entries.push(at);
        at = memory.link(at);
    }
    Some(entries)
}

/// "It keeps, for each key, the first entry met going through the old table's buckets upwards, then the new one's, each chain
/// head to end, stopping a chain at its first link out of range, entry already met, or key out of its bucket (that entry is
/// not met there)."
pub fn repaired(memory: &Memory) -> Memory {
    rebuilt(memory, &first_of_each_key(memory, met(memory)))
}

/// The entries met, bucket by bucket. A bucket's head is its chain's first link.
pub fn met(memory: &Memory) -> Vec<Bucket> {
    met_in_order(memory, memory.buckets())
}

pub fn met_in_order(memory: &Memory, buckets: Vec<(Table, u32)>) -> Vec<Bucket> {
    let mut already = Vec::new();
    let follow = |(table, bucket): (Table, u32)| {
        let mut entries = Vec::new();
        let mut at = memory.head(table, bucket);
        while at != 0
            && at <= memory.state.capacity
            && !already.contains(&at)
            && belongs(memory, table, bucket, memory.key(at))
        {
            already.push(at);
            entries.push(at);
            at = memory.link(at);
        }
        Bucket {
            table,
            bucket,
            entries,
        }
    };
    buckets.into_iter().map(follow).collect()
}

/// Of the entries met, in this order, the first with each key. The others leave their chain, which goes on behind them.
pub fn first_of_each_key(memory: &Memory, mut met: Vec<Bucket>) -> Vec<Bucket> {
    let mut keys = Vec::new();
    for bucket in &mut met {
        bucket.entries.retain(|&entry| {
            let key = memory.key(entry);
            let is_first = !keys.contains(&key);
            keys.push(key);
            is_first
        });
    }
    met
}

/// "Each kept entry stays in its bucket, in order; every other one is freed with key and value zeroed; the free chain runs
/// upwards by number; counts are set right, and the next bucket drops to the first filled old one if that lies before it."
pub fn rebuilt(memory: &Memory, kept: &[Bucket]) -> Memory {
    let mut after = memory.clone();
    for Bucket {
        table,
        bucket,
        entries,
    } in kept
    {
        let head = link_up(&mut after, entries);
        after.set_head(*table, *bucket, head);
    }
    let is_kept = |entry: &u32| kept.iter().any(|bucket| bucket.entries.contains(entry));
    let freed: Vec<u32> = (1..=memory.state.capacity)
        .filter(|entry| !is_kept(entry))
        .collect();
    for &entry in &freed {
        after.set_key(entry, 0);
        after.set_value(entry, 0);
    }
    after.state.free_head = link_up(&mut after, &freed);
    let count = |table| {
        let of_table = kept.iter().filter(|bucket| bucket.table == table);
        of_table.map(|bucket| bucket.entries.len() as u32).sum()
    };
    after.state.old_used = count(Table::Old);
    after.state.new_used = count(Table::New);
    let filled = kept
        .iter()
        .filter(|bucket| bucket.table == Table::Old && !bucket.entries.is_empty());
    if let Some(first_filled) = filled.map(|bucket| bucket.bucket).min() {
        after.state.rehash_index = after.state.rehash_index.min(first_filled);
    }
    after
}

/// Makes a chain of the entries, and answers its head.
fn link_up(memory: &mut Memory, entries: &[u32]) -> u32 {
    let mut next = 0;
    for &entry in entries.iter().rev() {
        memory.set_link(entry, next);
        next = entry;
    }
    next
}
