//! The memories of a run: of every kind the same number, in turn.

use crate::damage::{Damage, DAMAGES};
use crate::memory::{Memory, State, Table, BUCKET_ROOM, ENTRY_ROOM, MOST_ENTRIES};
use crate::random::Random;
use crate::states::UNSOUND;
use crate::store::{bare, undamaged};

/// How many of the kinds are undamaged stores: there are many shapes of these.
const UNDAMAGED_KINDS: usize = 10;

#[derive(Clone, Copy)]
pub struct Kind {
    pub name: &'static str,
    make: Make,
}

type Whole = fn(&mut Random) -> Memory;

#[derive(Clone, Copy)]
enum Make {
    Whole(Whole),
    /// An undamaged store with this done to it.
    Damaged(Damage),
}

/// Damage of many things at once, and none that is planned.
const WHOLES: [(&str, Whole); 7] = [
    ("several damages", several_damages),
    ("any links", any_links),
    ("any heads", any_heads),
    ("any keys", any_keys),
    ("any small numbers", any_small_numbers),
    ("any numbers", any_numbers),
    ("any state", any_state),
];

pub fn kinds() -> Vec<Kind> {
    let whole = |(name, make)| Kind {
        name,
        make: Make::Whole(make),
    };
    let damaged = |(name, damage)| Kind {
        name,
        make: Make::Damaged(damage),
    };
    let sound = whole(("undamaged", undamaged));
    std::iter::repeat_n(sound, UNDAMAGED_KINDS)
        .chain(DAMAGES.map(damaged))
        .chain(WHOLES.map(whole))
        .chain(UNSOUND.map(damaged))
        .collect()
}

/// The example of the specification, "Check and mend", and then memories of all kinds, in turn. A memory does not depend on
/// how many there are.
pub fn memories(seed: u64, count: u64) -> impl Iterator<Item = (&'static str, Memory)> {
    let kinds = kinds();
    (0..count).map(move |case| {
        if case == 0 {
            return ("the specification's example", example());
        }
        let kind = kinds[(case % kinds.len() as u64) as usize];
        (kind.name, kind.memory(&mut Random::of_case(seed, case)))
    })
}

/// A rehash from 4 buckets to 8, with almost every rule broken.
pub fn example() -> Memory {
    let state = State {
        old_size: 4,
        new_size: 8,
        old_used: 3,
        new_used: 2,
        rehashing: true,
        rehash_index: 2,
        free_head: 6,
        capacity: 8,
        resize_allowed: true,
        ..State::default()
    };
    let entries = [
        [3, 5, 50],
        [4, 2, 20],
        [1, 9, 90],
        [0, 7, 70],
        [0, 5, 55],
        [12, 0, 0],
        [0, 3, 33],
        [0, 0, 0],
    ];
    Memory::lent(state, &[0, 1, 2, 0], &[0, 0, 0, 0, 0, 5, 0, 4], &entries)
}

impl Kind {
    pub fn memory(&self, random: &mut Random) -> Memory {
        match self.make {
            Make::Whole(make) => make(random),
            // Not every store has what it takes; about one in some ten has, at the least.
            Make::Damaged(damage) => loop {
                let mut memory = undamaged(random);
                if damage(&mut memory, random).is_some() {
                    break memory;
                }
            },
        }
    }
}

fn several_damages(random: &mut Random) -> Memory {
    let mut memory = undamaged(random);
    for _ in 0..random.within(2, 5) {
        let mut damaged = memory.clone();
        let (_, damage) = random.pick(&DAMAGES);
        if damage(&mut damaged, random).is_some() {
            memory = damaged;
        }
    }
    memory
}

/// The number of an entry, none, or once in a while no entry.
fn any_entry(random: &mut Random, state: &State) -> u32 {
    match random.once_in(16) {
        true => state.capacity + 1 + random.below_u32(3),
        false => random.below_u32(state.capacity + 1),
    }
}

fn any_links(random: &mut Random) -> Memory {
    let mut memory = undamaged(random);
    for entry in 1..=memory.state.capacity {
        let link = any_entry(random, &memory.state);
        memory.set_link(entry, link);
    }
    memory
}

fn any_heads(random: &mut Random) -> Memory {
    let mut memory = undamaged(random);
    for (table, bucket) in memory.buckets() {
        let head = any_entry(random, &memory.state);
        memory.set_head(table, bucket, head);
    }
    memory
}

/// Few keys, so that many come twice and many are out of their buckets.
fn any_keys(random: &mut Random) -> Memory {
    let mut memory = undamaged(random);
    let few = 1 + random.below_u32(MOST_ENTRIES);
    for entry in 1..=memory.state.capacity {
        memory.set_key(entry, random.below_u32(few));
    }
    memory
}

/// A sound state, with counts and a free head that are sound and else any.
fn any_counts(random: &mut Random, state: &mut State) {
    state.old_used = random.below_u32(state.capacity + 1);
    if state.rehashing {
        state.new_used = random.below_u32(state.capacity - state.old_used + 1);
    }
    state.free_head = random.below_u32(state.capacity + 1);
}

fn any_small_numbers(random: &mut Random) -> Memory {
    let mut memory = bare(random);
    any_counts(random, &mut memory.state);
    let state = memory.state;
    // Few keys, so that most of them belong where they are met, and many come twice.
    let keys = 1 + random.below_u32(8);
    for (table, bucket) in memory.buckets() {
        memory.set_head(table, bucket, any_entry(random, &state));
    }
    for entry in 1..=state.capacity {
        memory.set_link(entry, any_entry(random, &state));
        memory.set_key(entry, random.below_u32(keys));
        memory.set_value(entry, random.number());
    }
    memory
}

fn any_numbers(random: &mut Random) -> Memory {
    let mut memory = bare(random);
    any_counts(random, &mut memory.state);
    memory.first = [(); BUCKET_ROOM].map(|()| random.number());
    memory.second = [(); BUCKET_ROOM].map(|()| random.number());
    memory.entries = [(); ENTRY_ROOM].map(|()| random.number());
    memory
}

/// Some fields of a state as they should be, the others any small numbers. Some of these are sound.
fn any_state(random: &mut Random) -> Memory {
    let mut memory = undamaged(random);
    let s = &mut memory.state;
    for field in [
        &mut s.old_size,
        &mut s.new_size,
        &mut s.old_used,
        &mut s.new_used,
        &mut s.rehash_index,
        &mut s.free_head,
        &mut s.capacity,
        &mut s.safe_iterators,
    ] {
        if random.once_in(6) {
            *field = random.below_u32(MOST_ENTRIES + 2);
        }
    }
    if random.once_in(6) {
        s.rehashing = !s.rehashing;
    }
    if random.once_in(6) {
        *memory.length_mut(Table::Old) = random.below(BUCKET_ROOM + 1);
    }
    memory
}
