//! "Calls over bytes": the fifteen exports.

use super::numbers::{Answer, Refusal, State, Store};
use super::{store, walk};

const STATE_BYTES: usize = 44;
const ANSWER_BYTES: usize = 8;
const MOST_BUCKET_BYTES: usize = 16_384;
const MOST_ENTRY_BYTES: usize = 49_152;

/// The results of a call, as the answer has them.
enum Results {
    None,
    One(u32),
    Two(u32, u32),
    Fingerprint(u64),
}

/// What a writer is lent.
struct Lent<'a> {
    state: &'a mut [u8],
    first: &'a mut [u8],
    second: &'a mut [u8],
    entries: &'a mut [u8],
    answer: &'a mut [u8],
}

pub fn init(
    state: &mut [u8],
    first: &mut [u8],
    second: &mut [u8],
    entries: &mut [u8],
    answer: &mut [u8],
    capacity: u32,
    size: u32,
) -> u32 {
    // A start reads no state, and so the flags in it are not looked at.
    let lengths_are_good = state.len() == STATE_BYTES && buffers_are_good(first, second, entries);
    if !lengths_are_good || answer.len() != ANSWER_BYTES {
        return refuse_first(answer);
    }
    let mut first_numbers = numbers(first);
    let mut entry_numbers = numbers(entries);
    let started = store::init(&mut first_numbers, &mut entry_numbers, capacity, size);
    if let Ok(new_state) = &started {
        write_state(state, new_state);
        write_numbers(first, &first_numbers);
        write_numbers(entries, &entry_numbers);
    }
    conclude(answer, started.map(|_| Results::None))
}

pub fn find(
    state: &[u8],
    first: &[u8],
    second: &[u8],
    entries: &[u8],
    answer: &mut [u8],
    key: u32,
) -> u32 {
    read(state, first, second, entries, answer, |store| {
        store.find(key).map(Results::One)
    })
}

pub fn update(
    state: &mut [u8],
    first: &mut [u8],
    second: &mut [u8],
    entries: &mut [u8],
    answer: &mut [u8],
    key: u32,
    value: u32,
) -> u32 {
    let lent = Lent {
        state,
        first,
        second,
        entries,
        answer,
    };
    lent.write(|store| store.update(key, value).map(no_results))
}

pub fn add(
    state: &mut [u8],
    first: &mut [u8],
    second: &mut [u8],
    entries: &mut [u8],
    answer: &mut [u8],
    key: u32,
    value: u32,
) -> u32 {
    let lent = Lent {
        state,
        first,
        second,
        entries,
        answer,
    };
    lent.write(|store| store.add(key, value).map(no_results))
}

pub fn delete(
    state: &mut [u8],
    first: &mut [u8],
    second: &mut [u8],
    entries: &mut [u8],
    answer: &mut [u8],
    key: u32,
) -> u32 {
    let lent = Lent {
        state,
        first,
        second,
        entries,
        answer,
    };
    lent.write(|store| store.delete(key).map(no_results))
}

pub fn resize(
    state: &mut [u8],
    first: &mut [u8],
    second: &mut [u8],
    entries: &mut [u8],
    answer: &mut [u8],
    size: u32,
) -> u32 {
    let lent = Lent {
        state,
        first,
        second,
        entries,
        answer,
    };
    lent.write(|store| store.resize(size).map(no_results))
}

pub fn rehash_step(
    state: &mut [u8],
    first: &mut [u8],
    second: &mut [u8],
    entries: &mut [u8],
    answer: &mut [u8],
) -> u32 {
    let lent = Lent {
        state,
        first,
        second,
        entries,
        answer,
    };
    lent.write(|store| {
        let (moved, goes_on) = store.rehash_step()?;
        Ok(Results::Two(moved, u32::from(goes_on)))
    })
}

pub fn scan(
    state: &[u8],
    first: &[u8],
    second: &[u8],
    entries: &[u8],
    list: &mut [u8],
    answer: &mut [u8],
    cursor: u32,
) -> u32 {
    hand_out(
        state,
        first,
        second,
        entries,
        list,
        answer,
        |store, length| store.scan(cursor, length),
    )
}

pub fn iterate(
    state: &[u8],
    first: &[u8],
    second: &[u8],
    entries: &[u8],
    list: &mut [u8],
    answer: &mut [u8],
    place: u32,
) -> u32 {
    hand_out(
        state,
        first,
        second,
        entries,
        list,
        answer,
        |store, length| store.iterate(place, length),
    )
}

pub fn begin_iterator(
    state: &[u8],
    first: &[u8],
    second: &[u8],
    entries: &[u8],
    answer: &mut [u8],
) -> u32 {
    read(state, first, second, entries, answer, |store| {
        store.begin_iterator().map(Results::Fingerprint)
    })
}

pub fn end_iterator(
    state: &[u8],
    first: &[u8],
    second: &[u8],
    entries: &[u8],
    answer: &mut [u8],
    fingerprint: u64,
) -> u32 {
    read(state, first, second, entries, answer, |store| {
        store.end_iterator(fingerprint).map(no_results)
    })
}

pub fn begin_safe(
    state: &mut [u8],
    first: &mut [u8],
    second: &mut [u8],
    entries: &mut [u8],
    answer: &mut [u8],
) -> u32 {
    let lent = Lent {
        state,
        first,
        second,
        entries,
        answer,
    };
    lent.write(|store| store.begin_safe().map(no_results))
}

pub fn end_safe(
    state: &mut [u8],
    first: &mut [u8],
    second: &mut [u8],
    entries: &mut [u8],
    answer: &mut [u8],
) -> u32 {
    let lent = Lent {
        state,
        first,
        second,
        entries,
        answer,
    };
    lent.write(|store| store.end_safe().map(no_results))
}

pub fn suggested_size(
    state: &[u8],
    first: &[u8],
    second: &[u8],
    entries: &[u8],
    answer: &mut [u8],
    growing: u32,
) -> u32 {
    let Some(growing) = flag(growing) else {
        return refuse_first(answer);
    };
    read(state, first, second, entries, answer, |store| {
        store.suggested_size(growing).map(Results::One)
    })
}

pub fn allow_resize(
    state: &mut [u8],
    first: &mut [u8],
    second: &mut [u8],
    entries: &mut [u8],
    answer: &mut [u8],
    allowed: u32,
) -> u32 {
    let Some(allowed) = flag(allowed) else {
        return refuse_first(answer);
    };
    let lent = Lent {
        state,
        first,
        second,
        entries,
        answer,
    };
    lent.write(|store| store.allow_resize(allowed).map(no_results))
}

fn no_results((): ()) -> Results {
    Results::None
}

/// The first check is not passed: every slice stays, but for an answer of eight bytes.
fn refuse_first(answer: &mut [u8]) -> u32 {
    if answer.len() == ANSWER_BYTES {
        answer.fill(0);
    }
    Refusal::BadState.number()
}

fn buffers_are_good(first: &[u8], second: &[u8], entries: &[u8]) -> bool {
    [first, second, entries]
        .iter()
        .all(|buffer| buffer.len().is_multiple_of(4))
        && first.len() <= MOST_BUCKET_BYTES
        && second.len() <= MOST_BUCKET_BYTES
        && entries.len() <= MOST_ENTRY_BYTES
}

fn flag(number: u32) -> Option<bool> {
    match number {
        0 => Some(false),
        1 => Some(true),
        _ => None,
    }
}

fn number(bytes: &[u8]) -> u32 {
    bytes
        .iter()
        .rev()
        .fold(0, |number, &byte| number * 256 + u32::from(byte))
}

fn numbers(bytes: &[u8]) -> Vec<u32> {
    bytes.chunks_exact(4).map(number).collect()
}

fn write_numbers(bytes: &mut [u8], numbers: &[u32]) {
    for (bytes, number) in bytes.chunks_exact_mut(4).zip(numbers) {
        bytes.copy_from_slice(&number.to_le_bytes());
    }
}

/// The state that these bytes are, if they are 44 and no flag is above 1.
fn read_state(bytes: &[u8]) -> Option<State> {
    if bytes.len() != STATE_BYTES {
        return None;
    }
    let fields = numbers(bytes);
    Some(State {
        second_is_current: flag(fields[0])?,
        old_size: fields[1],
        new_size: fields[2],
        old_used: fields[3],
        new_used: fields[4],
        rehashing: flag(fields[5])?,
        rehash_index: fields[6],
        free_head: fields[7],
        capacity: fields[8],
        resize_allowed: flag(fields[9])?,
        safe_iterators: fields[10],
    })
}

/// The eleven numbers that a state is, in their order.
pub fn fields(state: &State) -> [u32; 11] {
    [
        u32::from(state.second_is_current),
        state.old_size,
        state.new_size,
        state.old_used,
        state.new_used,
        u32::from(state.rehashing),
        state.rehash_index,
        state.free_head,
        state.capacity,
        u32::from(state.resize_allowed),
        state.safe_iterators,
    ]
}

fn write_state(bytes: &mut [u8], state: &State) {
    write_numbers(bytes, &fields(state));
}

/// "The first check" of every export but a start, of everything but a list and a flag among the numbers: the store
/// that the bytes are, if it is passed.
pub fn checked(
    state: &[u8],
    first: &[u8],
    second: &[u8],
    entries: &[u8],
    answer: &[u8],
) -> Option<Store> {
    if answer.len() != ANSWER_BYTES || !buffers_are_good(first, second, entries) {
        return None;
    }
    Some(Store {
        state: read_state(state)?,
        first: numbers(first),
        second: numbers(second),
        entries: numbers(entries),
    })
}

/// The answer is written, and the call's number returned.
fn conclude(answer: &mut [u8], results: Answer<Results>) -> u32 {
    let (number, bytes) = match results {
        Ok(Results::None) => (0, 0),
        Ok(Results::One(only)) => (0, u64::from(only)),
        Ok(Results::Two(one, other)) => (0, both(one, other)),
        Ok(Results::Fingerprint(fingerprint)) => (0, fingerprint),
        Err(Refusal::Short(keys)) => (Refusal::Short(keys).number(), both(0, keys)),
        Err(refusal) => (refusal.number(), 0),
    };
    answer.copy_from_slice(&bytes.to_le_bytes());
    number
}

/// Two results as the eight bytes have them: the first result takes the first four bytes.
fn both(one: u32, other: u32) -> u64 {
    u64::from(other) << 32 | u64::from(one)
}

fn read(
    state: &[u8],
    first: &[u8],
    second: &[u8],
    entries: &[u8],
    answer: &mut [u8],
    call: impl FnOnce(&Store) -> Answer<Results>,
) -> u32 {
    match checked(state, first, second, entries, answer) {
        Some(store) => conclude(answer, call(&store)),
        None => refuse_first(answer),
    }
}

fn hand_out(
    state: &[u8],
    first: &[u8],
    second: &[u8],
    entries: &[u8],
    list: &mut [u8],
    answer: &mut [u8],
    call: impl FnOnce(&Store, usize) -> Answer<(u32, walk::Pairs)>,
) -> u32 {
    if !list.len().is_multiple_of(4) {
        return refuse_first(answer);
    }
    let Some(store) = checked(state, first, second, entries, answer) else {
        return refuse_first(answer);
    };
    let results = call(&store, list.len() / 4).map(|(next, pairs)| {
        for (place, &(key, value)) in list.chunks_exact_mut(8).zip(&pairs) {
            write_numbers(place, &[key, value]);
        }
        Results::Two(next, pairs.len() as u32)
    });
    conclude(answer, results)
}

impl Lent<'_> {
    /// What the call leaves is written back only where it is answered 0, since a refusal leaves all as it was.
    fn write(self, call: impl FnOnce(&mut Store) -> Answer<Results>) -> u32 {
        let Some(mut store) = checked(
            self.state,
            self.first,
            self.second,
            self.entries,
            self.answer,
        ) else {
            return refuse_first(self.answer);
        };
        let results = call(&mut store);
        if results.is_ok() {
            write_state(self.state, &store.state);
            write_numbers(self.first, &store.first);
            write_numbers(self.second, &store.second);
            write_numbers(self.entries, &store.entries);
        }
        conclude(self.answer, results)
    }
}
