//! Random calls, with numbers that mean something to the memory which they are made on.

use crate::call::{Call, Export};
use crate::model;
use crate::model::numbers::Table;
use crate::random::Random;
use crate::slices::{Field, Slices, ANSWER_BYTES};

/// More than the list of a store of 4,096 entries needs.
const LONG_LIST: usize = 32_768;

/// The longest list that is tried.
const LONGEST_LIST: usize = 1 << 20;

/// Numbers above 1 that are no flags.
pub const NO_FLAGS: [u32; 5] = [2, 255, 256, 1 << 31, u32::MAX];

/// A call of this export.
pub fn call(random: &mut Random, slices: &Slices, export: Export) -> Call {
    match export {
        Export::Init => Call::Init {
            capacity: capacity(random, slices),
            size: start_size(random, slices),
        },
        Export::Find => Call::Find {
            key: key(random, slices),
        },
        Export::Update => Call::Update {
            key: key(random, slices),
            value: random.number(),
        },
        Export::Add => Call::Add {
            key: key(random, slices),
            value: random.number(),
        },
        Export::Delete => Call::Delete {
            key: key(random, slices),
        },
        Export::Resize => Call::Resize {
            size: size(random, slices.buffer(Table::New).numbers()),
        },
        Export::RehashStep => Call::RehashStep,
        Export::Scan => Call::Scan {
            cursor: cursor(random, slices),
        },
        Export::Iterate => Call::Iterate {
            place: place(random, slices),
        },
        Export::BeginIterator => Call::BeginIterator,
        Export::EndIterator => Call::EndIterator {
            fingerprint: fingerprint(random, slices),
        },
        Export::BeginSafe => Call::BeginSafe,
        Export::EndSafe => Call::EndSafe,
        Export::SuggestedSize => Call::SuggestedSize {
            growing: flag(random),
        },
        Export::AllowResize => Call::AllowResize {
            allowed: flag(random),
        },
    }
}

/// A key: one that an entry has, one of the same bucket, a small one, or any.
fn key(random: &mut Random, slices: &Slices) -> u32 {
    let there = slices.entries_there();
    let of_an_entry = |random: &mut Random| match there {
        0 => random.number(),
        _ => slices.entry(1 + random.below_u32(there))[1],
    };
    match random.below(10) {
        0..=4 => of_an_entry(random),
        5..=6 => {
            let sizes = slices
                .field(Field::OldSize)
                .max(slices.field(Field::NewSize));
            of_an_entry(random).wrapping_add(sizes.wrapping_mul(1 + random.below_u32(3)))
        }
        7..=8 => random.below_u32(4 + 4 * there),
        _ => random.number(),
    }
}

fn capacity(random: &mut Random, slices: &Slices) -> u32 {
    let room = (slices.entries.numbers() / 3) as u32;
    match random.below(8) {
        0 => room,
        1 => room + 1,
        2 => *random.pick(&[0, 4_096, 4_097, 65_536, 65_537, u32::MAX]),
        _ => 1 + random.below_u32(room.max(1)),
    }
}

fn start_size(random: &mut Random, slices: &Slices) -> u32 {
    size(random, slices.first.numbers())
}

/// A size for a buffer of so many numbers: mostly one that fits.
fn size(random: &mut Random, numbers: usize) -> u32 {
    let largest = numbers.max(1).ilog2();
    match random.below(8) {
        0 => *random.pick(&[0, 3, 4_095, 8_192, 65_536, 131_072, u32::MAX]),
        1 => random.below_u32(2 * numbers.max(1) as u32),
        2 => 2 << largest,
        _ => 1 << random.below_u32(largest + 1),
    }
}

fn cursor(random: &mut Random, slices: &Slices) -> u32 {
    let sizes = slices
        .field(Field::OldSize)
        .max(slices.field(Field::NewSize));
    match random.below(4) {
        0 => *random.pick(&[0, u32::MAX]),
        1 => random.number(),
        _ => random.below_u32(sizes.max(1)),
    }
}

fn place(random: &mut Random, slices: &Slices) -> u32 {
    let old_size = slices.field(Field::OldSize);
    let end = old_size.wrapping_add(slices.field(Field::NewSize));
    match random.below(8) {
        0 => *random.pick(&[0, u32::MAX]),
        1 => random.number(),
        2 => old_size.wrapping_sub(1).wrapping_add(random.below_u32(3)),
        3 => end.wrapping_sub(1).wrapping_add(random.below_u32(3)),
        _ => random.below_u32(end.max(1)),
    }
}

/// The store's fingerprint, one that is a little off, or any number.
fn fingerprint(random: &mut Random, slices: &Slices) -> u64 {
    let mut answer = [0; ANSWER_BYTES];
    let (state, first) = (slices.state.get(), slices.first.get());
    let (second, entries) = (slices.second.get(), slices.entries.get());
    model::bytes::begin_iterator(state, first, second, entries, &mut answer);
    let now = u64::from_le_bytes(answer);
    match random.below(8) {
        0 => now ^ (1 << random.below(64)),
        1 => now.rotate_left(32),
        2 => now & u64::from(u32::MAX),
        3 => random.bits(),
        _ => now,
    }
}

fn flag(random: &mut Random) -> u32 {
    match random.below(8) {
        0 => *random.pick(&NO_FLAGS),
        _ => random.below_u32(2),
    }
}

/// Lends a call its answer and, if it takes one, its list: random bytes, and of the list mostly about as many as the
/// call needs.
pub fn lend(random: &mut Random, slices: &mut Slices, call: Call) {
    let answer = random.bytes(ANSWER_BYTES);
    slices.answer.replace(random, &answer);
    let length = if call.has_a_list() {
        list_length(random, slices, call)
    } else {
        0
    };
    let list = random.bytes(length);
    slices.list.replace(random, &list);
}

fn list_length(random: &mut Random, slices: &Slices, call: Call) -> usize {
    let exact = 8 * keys_to_hand_out(slices, call);
    match random.below(16) {
        0 => 0,
        1 => exact.saturating_sub(8),
        2 => exact.saturating_sub(4),
        3 => exact.saturating_sub(1),
        4 => exact + random.within(1, 3),
        5 => exact + 4,
        6 if random.once_in(8) => LONG_LIST + 4 * random.below(64),
        7 if random.once_in(64) => random.within(LONG_LIST / 4, LONGEST_LIST / 4) * 4,
        8..=10 => exact + 4 * random.below(16),
        _ => exact,
    }
}

/// How many keys the call would hand out, which it says where the list is empty.
fn keys_to_hand_out(slices: &Slices, call: Call) -> usize {
    let mut answer = [0; ANSWER_BYTES];
    let (state, first) = (slices.state.get(), slices.first.get());
    let (second, entries) = (slices.second.get(), slices.entries.get());
    match call {
        Call::Scan { cursor } => {
            model::bytes::scan(state, first, second, entries, &mut [], &mut answer, cursor)
        }
        Call::Iterate { place } => {
            model::bytes::iterate(state, first, second, entries, &mut [], &mut answer, place)
        }
        _ => return 0,
    };
    (u64::from_le_bytes(answer) >> 32) as usize
}
