//! Damage: what a store's memory may have become, and the bytes that are no store at all.

use crate::arguments::NO_FLAGS;
use crate::model::numbers::Table;
use crate::random::Random;
use crate::slices::{
    Field, Slice, Slices, ANSWER_BYTES, FIELDS, FLAGS, MOST_BUCKET_BYTES, MOST_ENTRY_BYTES,
    STATE_BYTES,
};

/// Wrong numbers, in buffers and lengths that an export takes.
#[derive(Clone, Copy, Debug, PartialEq, Eq)]
#[repr(usize)]
pub enum Damage {
    StateOffByOne,
    StateAnyNumber,
    FalseCounts,
    NextBucket,
    PauseCount,
    OtherSizes,
    TurnedFlag,
    BucketOffByOne,
    BucketAnyNumber,
    LinkOffByOne,
    LinkAnyNumber,
    Loop,
    SharedEntries,
    KeyOffByOne,
    KeyOffItsBucket,
    DoubleKey,
    FreeHead,
    FreeLink,
    FreeEntryThatMoves,
    EmptiedBuckets,
    CutShort,
    Lengthened,
    PlausibleGarbage,
    GarbageInASlice,
    GarbageEverywhere,
}

pub const DAMAGES: [(Damage, usize); 25] = [
    (Damage::StateOffByOne, 3),
    (Damage::StateAnyNumber, 2),
    (Damage::FalseCounts, 8),
    (Damage::NextBucket, 4),
    (Damage::PauseCount, 2),
    (Damage::OtherSizes, 2),
    (Damage::TurnedFlag, 2),
    (Damage::BucketOffByOne, 3),
    (Damage::BucketAnyNumber, 6),
    (Damage::LinkOffByOne, 3),
    (Damage::LinkAnyNumber, 6),
    (Damage::Loop, 4),
    (Damage::SharedEntries, 8),
    (Damage::KeyOffByOne, 3),
    (Damage::KeyOffItsBucket, 4),
    (Damage::DoubleKey, 3),
    (Damage::FreeHead, 4),
    (Damage::FreeLink, 4),
    (Damage::FreeEntryThatMoves, 4),
    (Damage::EmptiedBuckets, 3),
    (Damage::CutShort, 2),
    (Damage::Lengthened, 1),
    (Damage::PlausibleGarbage, 3),
    (Damage::GarbageInASlice, 1),
    (Damage::GarbageEverywhere, 1),
];

/// Bytes that the first check of an export refuses, or that it only just takes.
#[derive(Clone, Copy, Debug, PartialEq, Eq)]
#[repr(usize)]
pub enum Disturbance {
    StateLength,
    AnswerLength,
    StateFlag,
    LengthNotDivisible,
    AboutTheMostBytes,
    EmptySlice,
    ListLength,
}

pub const DISTURBANCES: [Disturbance; 7] = [
    Disturbance::StateLength,
    Disturbance::AnswerLength,
    Disturbance::StateFlag,
    Disturbance::LengthNotDivisible,
    Disturbance::AboutTheMostBytes,
    Disturbance::EmptySlice,
    Disturbance::ListLength,
];

/// The longest state and answer that are tried.
const LONGEST_STATE: usize = 60;
const LONGEST_ANSWER: usize = 16;

pub fn damage(random: &mut Random, slices: &mut Slices, damage: Damage) {
    match damage {
        Damage::StateOffByOne => {
            let field = *random.pick(&FIELDS);
            let number = off_by_one(random, slices.field(field));
            slices.set_field(field, number);
        }
        Damage::StateAnyNumber => {
            let field = *random.pick(&FIELDS);
            let number = any_number(random, slices);
            slices.set_field(field, number);
        }
        Damage::FalseCounts => false_counts(random, slices),
        Damage::NextBucket => {
            let size = slices.field(Field::OldSize);
            let number = match random.below(2) {
                0 => size.saturating_sub(random.below_u32(13)),
                _ => random.below_u32(size.saturating_add(2)),
            };
            slices.set_field(Field::RehashIndex, number);
        }
        Damage::PauseCount => {
            let number = *random.pick(&[0, 1, 254, 255, 256, u32::MAX]);
            slices.set_field(Field::SafeIterators, number);
        }
        Damage::OtherSizes => {
            let field = *random.pick(&[Field::OldSize, Field::NewSize]);
            let number = match random.below(4) {
                0 => slices.field(Field::OldSize),
                1 => random.below_u32(10),
                _ => 1 << random.below_u32(14),
            };
            slices.set_field(field, number);
        }
        Damage::TurnedFlag => {
            let field = *random.pick(&FLAGS);
            slices.set_field(field, slices.field(field) ^ 1);
        }
        Damage::BucketOffByOne => change_a_bucket(random, slices, |random, _, number| {
            off_by_one(random, number)
        }),
        Damage::BucketAnyNumber => change_a_bucket(random, slices, |random, slices, _| {
            any_number(random, slices)
        }),
        Damage::LinkOffByOne => change_a_link(random, slices, |random, _, number| {
            off_by_one(random, number)
        }),
        Damage::LinkAnyNumber => change_a_link(random, slices, |random, slices, _| {
            any_number(random, slices)
        }),
        Damage::Loop => loop_a_chain(random, slices),
        Damage::SharedEntries => share_entries(random, slices),
        Damage::KeyOffByOne => {
            change_a_key(random, slices, |random, _, key| off_by_one(random, key))
        }
        Damage::KeyOffItsBucket => change_a_key(random, slices, |random, slices, key| {
            let size = *random.pick(&[slices.field(Field::OldSize), slices.field(Field::NewSize)]);
            let times = *random.pick(&[1, 2, u32::MAX]);
            match random.below(2) {
                0 => key.wrapping_add(size.wrapping_mul(times)),
                _ => random.number(),
            }
        }),
        Damage::DoubleKey => change_a_key(random, slices, |random, slices, _| {
            let entry = 1 + random.below_u32(slices.entries_there());
            slices.entry(entry)[1]
        }),
        Damage::FreeHead => {
            let number = match random.below(3) {
                0 => 0,
                1 => some_head(random, slices),
                _ => any_number(random, slices),
            };
            slices.set_field(Field::FreeHead, number);
        }
        Damage::FreeLink => {
            let head = slices.field(Field::FreeHead);
            if (1..=slices.entries_there()).contains(&head) {
                let number = any_number(random, slices);
                slices.set_link(head, number);
            }
        }
        Damage::FreeEntryThatMoves => free_entry_that_moves(random, slices),
        Damage::EmptiedBuckets => empty_buckets(random, slices),
        Damage::CutShort => {
            let buffer = some_buffer(random, slices);
            let numbers = buffer.numbers();
            let left = if random.once_in(2) {
                numbers.saturating_sub(1)
            } else {
                random.below(numbers + 1)
            };
            buffer.set_length(random, 4 * left);
        }
        Damage::Lengthened => {
            let more = 4 * random.within(1, 8);
            let buffer = some_buffer(random, slices);
            let length = buffer.len() + more;
            buffer.set_length(random, length);
        }
        Damage::PlausibleGarbage => plausible_garbage(random, slices),
        Damage::GarbageInASlice => {
            let buffer = some_buffer(random, slices);
            random.fill(buffer.get_mut());
        }
        Damage::GarbageEverywhere => {
            for slice in [
                &mut slices.state,
                &mut slices.first,
                &mut slices.second,
                &mut slices.entries,
            ] {
                random.fill(slice.get_mut());
            }
        }
    }
}

pub fn disturb(random: &mut Random, slices: &mut Slices, disturbance: Disturbance) {
    match disturbance {
        Disturbance::StateLength => {
            let about = random.within(STATE_BYTES - 4, STATE_BYTES + 4);
            let length = if random.once_in(2) {
                about
            } else {
                random.below(LONGEST_STATE + 1)
            };
            slices.state.set_length(random, length);
        }
        Disturbance::AnswerLength => {
            let about = random.within(ANSWER_BYTES - 1, ANSWER_BYTES + 1);
            let length = if random.once_in(2) {
                about
            } else {
                random.below(LONGEST_ANSWER + 1)
            };
            slices.answer.set_length(random, length);
        }
        Disturbance::StateFlag => {
            let field = *random.pick(&FLAGS);
            let number = *random.pick(&NO_FLAGS);
            slices.set_field(field, number);
        }
        Disturbance::LengthNotDivisible => {
            let more = random.within(1, 3);
            let buffer = some_buffer(random, slices);
            let length = if buffer.is_empty() || random.once_in(2) {
                buffer.len() + more
            } else {
                buffer.len() - 1
            };
            buffer.set_length(random, length);
        }
        Disturbance::AboutTheMostBytes => {
            let (buffer, most) = match random.below(3) {
                0 => (&mut slices.first, MOST_BUCKET_BYTES),
                1 => (&mut slices.second, MOST_BUCKET_BYTES),
                _ => (&mut slices.entries, MOST_ENTRY_BYTES),
            };
            let length = *random.pick(&[most - 4, most, most + 1, most + 4, most + 8, 2 * most]);
            buffer.set_length(random, length);
        }
        Disturbance::EmptySlice => {
            let slice = match random.below(6) {
                0 => &mut slices.state,
                1 => &mut slices.list,
                2 => &mut slices.answer,
                _ => some_buffer(random, slices),
            };
            slice.set_length(random, 0);
        }
        Disturbance::ListLength => {
            let length = random.below(64);
            slices.list.set_length(random, length);
        }
    }
}

fn some_buffer<'a>(random: &mut Random, slices: &'a mut Slices) -> &'a mut Slice {
    match random.below(3) {
        0 => &mut slices.first,
        1 => &mut slices.second,
        _ => &mut slices.entries,
    }
}

fn off_by_one(random: &mut Random, number: u32) -> u32 {
    if random.once_in(2) {
        number.wrapping_add(1)
    } else {
        number.wrapping_sub(1)
    }
}

/// A number that may stand in a bucket or a link: mostly an entry's.
fn any_number(random: &mut Random, slices: &Slices) -> u32 {
    let capacity = slices.field(Field::Capacity);
    match random.below(10) {
        0 => 0,
        1 => capacity,
        2 => capacity.wrapping_add(1),
        3 => *random.pick(&[65_536, 65_537, 1 << 31, u32::MAX]),
        4..=5 => some_head(random, slices),
        _ => random.below_u32(capacity.saturating_add(1)),
    }
}

fn some_table(random: &mut Random, slices: &Slices) -> Table {
    if slices.field(Field::Rehashing) != 0 && random.once_in(2) {
        Table::New
    } else {
        Table::Old
    }
}

/// A bucket of a live table: often the one that a step would move, or another filled one, since damage elsewhere is
/// seldom met. None if there is none in the buffer.
fn some_bucket(random: &mut Random, slices: &Slices) -> Option<(Table, usize)> {
    let table = some_table(random, slices);
    let there = slices.buckets_there(table) as usize;
    if there == 0 {
        return None;
    }
    let from = match random.below(4) {
        0 if table == Table::Old => slices.field(Field::RehashIndex) as usize % there,
        0 => 0,
        1..=2 => random.below(there),
        _ => return Some((table, random.below(there))),
    };
    let buffer = slices.buffer(table);
    let filled = (from..there)
        .chain(0..from)
        .find(|&bucket| buffer.number(bucket) != 0);
    Some((table, filled.unwrap_or(from)))
}

fn some_head(random: &mut Random, slices: &Slices) -> u32 {
    match some_bucket(random, slices) {
        Some((table, bucket)) => slices.buffer(table).number(bucket),
        None => 0,
    }
}

/// The entries of some chain.
fn some_chain(random: &mut Random, slices: &Slices) -> Vec<u32> {
    let head = some_head(random, slices);
    chain(slices, head)
}

/// The entries of a chain, as far as it can be read, each once.
fn chain(slices: &Slices, head: u32) -> Vec<u32> {
    let mut chain = Vec::new();
    let mut number = head;
    while (1..=slices.entries_there()).contains(&number) && !chain.contains(&number) {
        chain.push(number);
        number = slices.entry(number)[0];
    }
    chain
}

/// An entry: often one of a chain.
fn some_entry(random: &mut Random, slices: &Slices) -> Option<u32> {
    let there = slices.entries_there();
    if there == 0 {
        return None;
    }
    let chain = some_chain(random, slices);
    if chain.is_empty() || random.once_in(4) {
        Some(1 + random.below_u32(there))
    } else {
        Some(*random.pick(&chain))
    }
}

fn change_a_bucket(
    random: &mut Random,
    slices: &mut Slices,
    change: impl Fn(&mut Random, &Slices, u32) -> u32,
) {
    if let Some((table, bucket)) = some_bucket(random, slices) {
        let number = change(random, slices, slices.buffer(table).number(bucket));
        slices.buffer_mut(table).set_number(bucket, number);
    }
}

fn change_a_link(
    random: &mut Random,
    slices: &mut Slices,
    change: impl Fn(&mut Random, &Slices, u32) -> u32,
) {
    if let Some(entry) = some_entry(random, slices) {
        let link = change(random, slices, slices.entry(entry)[0]);
        slices.set_link(entry, link);
    }
}

fn change_a_key(
    random: &mut Random,
    slices: &mut Slices,
    change: impl Fn(&mut Random, &Slices, u32) -> u32,
) {
    if let Some(entry) = some_entry(random, slices) {
        let key = change(random, slices, slices.entry(entry)[1]);
        slices.set_key(entry, key);
    }
}

/// Counts that are not the true ones, mostly such that the state stays sound.
fn false_counts(random: &mut Random, slices: &mut Slices) {
    let (old, new) = (slices.field(Field::OldUsed), slices.field(Field::NewUsed));
    let moving = slices.field(Field::Rehashing) != 0;
    let (old, new) = match random.below(4) {
        0 if moving && new > 0 => (old.wrapping_add(1), new - 1),
        1 if moving && old > 0 => (old - 1, new.wrapping_add(1)),
        2 if random.once_in(4) => (old, off_by_one(random, new)),
        2 => (old.saturating_sub(1 + random.below_u32(2)), new),
        _ => {
            let capacity = slices.field(Field::Capacity);
            let full = random.once_in(4);
            let held = if full {
                capacity
            } else {
                random.below_u32(capacity.saturating_add(1))
            };
            let of_new = if moving {
                random.below_u32(held.saturating_add(1))
            } else {
                0
            };
            (held - of_new, of_new)
        }
    };
    slices.set_field(Field::OldUsed, old);
    slices.set_field(Field::NewUsed, new);
}

/// The link of an entry leads back to one before it on its chain, or to the entry itself.
fn loop_a_chain(random: &mut Random, slices: &mut Slices) {
    let chain = some_chain(random, slices);
    if !chain.is_empty() {
        let from = random.below(chain.len());
        slices.set_link(chain[from], chain[random.below(from + 1)]);
    }
}

/// One chain leads into another, or into the free chain. Where there are few buckets, both are often sound all the
/// same.
fn share_entries(random: &mut Random, slices: &mut Slices) {
    let one = some_chain(random, slices);
    let other = match random.below(5) {
        0 => chain(slices, slices.field(Field::FreeHead)),
        _ => some_chain(random, slices),
    };
    let Some(&into) = other.get(random.below(other.len().max(1))) else {
        return;
    };
    match one.last() {
        Some(&last) if !random.once_in(4) => slices.set_link(last, into),
        _ => change_a_bucket(random, slices, |_, _, _| into),
    }
}

/// The first bucket, from the next one to move on, that is filled.
fn bucket_to_move(slices: &Slices) -> Option<usize> {
    let buffer = slices.buffer(Table::Old);
    let from = slices.field(Field::RehashIndex) as usize;
    (from..slices.buckets_there(Table::Old) as usize).find(|&bucket| buffer.number(bucket) != 0)
}

/// The first free entry lies on the chain that a step would move, and often its new bucket is damaged too: behind the
/// step the number there is the entry's link.
fn free_entry_that_moves(random: &mut Random, slices: &mut Slices) {
    let Some(bucket) = bucket_to_move(slices) else {
        return;
    };
    let moves = chain(slices, slices.buffer(Table::Old).number(bucket));
    if moves.is_empty() {
        return;
    }
    let entry = *random.pick(&moves);
    slices.set_field(Field::FreeHead, entry);
    let size = slices.buckets_there(Table::New);
    if size > 0 && random.once_in(2) {
        let number = any_number(random, slices);
        let new_bucket = slices.entry(entry)[1] % size;
        slices
            .buffer_mut(Table::New)
            .set_number(new_bucket as usize, number);
    }
}

/// About as many buckets as one step passes are empty, from the next one on; often the table ends there.
fn empty_buckets(random: &mut Random, slices: &mut Slices) {
    let count = random.within(9, 12) as u32;
    let there = slices.buckets_there(Table::Old);
    if random.once_in(2) {
        slices.set_field(Field::RehashIndex, there.saturating_sub(count));
    }
    let from = slices.field(Field::RehashIndex);
    for bucket in from..from.saturating_add(count).min(there) {
        slices.buffer_mut(Table::Old).set_number(bucket as usize, 0);
    }
}

/// Other numbers in every bucket and every entry, such as a store of this capacity could have.
fn plausible_garbage(random: &mut Random, slices: &mut Slices) {
    let numbers = slices.field(Field::Capacity).saturating_add(1);
    let some_key = 1 << random.below_u32(4);
    for table in [Table::Old, Table::New] {
        for bucket in 0..slices.buckets_there(table) as usize {
            let number = if random.once_in(2) {
                0
            } else {
                random.below_u32(numbers)
            };
            slices.buffer_mut(table).set_number(bucket, number);
        }
    }
    for entry in 1..=slices.entries_there() {
        let link = if random.once_in(2) {
            0
        } else {
            random.below_u32(numbers)
        };
        slices.set_link(entry, link);
        slices.set_key(entry, random.below_u32(4) * some_key);
    }
}
