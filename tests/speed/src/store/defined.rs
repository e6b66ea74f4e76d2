//! The calls by their definitions, slow and with copies, for a comparison on
//! random and damaged memories. In a move that no safe iterator holds up an add and
//! a delete are the step, with all that it writes, then the call alone on what it
//! leaves; behind an add comes the resize of a table that is to grow.

use super::{Error, ScanError, Scanned, State, Store};
use std::collections::BTreeMap;

mod whole;

/// All that a call may change.
#[derive(Clone, Debug, PartialEq)]
pub struct Memory {
    state: State,
    first: Vec<u32>,
    second: Vec<u32>,
    entries: Vec<u32>,
}

/// The two live tables.
#[derive(Clone, Copy, Debug, PartialEq)]
enum Side {
    Old,
    New,
}

/// A key's chain, and its place on it.
#[derive(Debug)]
struct Found {
    side: Side,
    chain: Vec<u32>,
    place: usize,
}

impl Memory {
    pub fn of(store: &Store) -> Memory {
        Memory {
            state: store.state,
            first: store.first.to_vec(),
            second: store.second.to_vec(),
            entries: store.entries.to_vec(),
        }
    }

    pub fn set_entries(&mut self, place: usize, number: u32) {
        self.entries[place] = number;
    }

    /// A call of the store on this memory.
    pub fn call<A>(&mut self, call: impl FnOnce(&mut Store) -> A) -> A {
        let mut store = Store::new(&mut self.first, &mut self.second, &mut self.entries);
        store.state = self.state;
        let answer = call(&mut store);
        self.state = store.state;
        answer
    }

    fn check_state(&self) -> Result<(), Error> {
        self.clone().call(|store| store.check_state())
    }

    fn add(&mut self, key: u32, value: u32) -> Result<(), Error> {
        self.check_state()?;
        let mut copy = self.clone();
        copy.step_if_due()?;
        copy.add_alone(key, value)?;
        if copy.is_to_grow() {
            // The add is answered, whatever the resize answers.
            let size = copy.suggested_size();
            let _ = copy.call(|store| store.resize(size));
        }
        *self = copy;
        Ok(())
    }

    /// Answers where the entry was behind the step, and the entries that this moved.
    fn delete(&mut self, key: u32) -> Result<(Found, Vec<u32>), Error> {
        self.check_state()?;
        let mut copy = self.clone();
        let moved = copy.step_if_due()?;
        let found = copy.look_up(key)?.ok_or(Error::Absent)?;
        copy.remove(&found, key);
        *self = copy;
        Ok((found, moved))
    }

    fn update(&mut self, key: u32, value: u32) -> Result<Found, Error> {
        self.check_state()?;
        let found = self.look_up(key)?.ok_or(Error::Absent)?;
        self.entry_mut(found.chain[found.place])[2] = value;
        Ok(found)
    }

    fn iterate(&self, place: u32, list: &mut [u32]) -> Result<Scanned, ScanError> {
        self.check_state()?;
        let mut places: Vec<(Side, u32)> = Vec::new();
        for side in self.sides() {
            places.extend((0..self.size(side)).map(|bucket| (side, bucket)));
        }
        let mut left = (0..places.len()).skip(place as usize);
        let filled = left.find(|&place| {
            let (side, bucket) = places[place];
            self.buckets(side)[bucket as usize] != 0
        });
        let Some(place) = filled else {
            let next = places.len() as u32;
            return Ok(Scanned { next, count: 0 });
        };
        let (side, bucket) = places[place];
        self.hand_out(self.chain(side, bucket)?, place as u32 + 1, list)
    }

    fn scan(&self, cursor: u32, list: &mut [u32]) -> Result<Scanned, ScanError> {
        self.check_state()?;
        let held = self.state.old_used + self.state.new_used;
        if held == 0 {
            return Ok(Scanned { next: 0, count: 0 });
        }
        let mut sides = self.sides();
        sides.sort_by_key(|&side| self.size(side));
        let (small, large) = (sides[0], sides[sides.len() - 1]);
        let mut met = self.chain(small, cursor % self.size(small))?;
        let mut at = next_cursor(cursor, self.size(small));
        if small != large {
            at = cursor;
            loop {
                met.extend(self.chain(large, at % self.size(large))?);
                at = next_cursor(at, self.size(large));
                let between = self.size(large) - self.size(small);
                if at & between == 0 {
                    break;
                }
            }
        }
        if met.len() as u32 > held {
            return Err(ScanError::Refused(Error::Damaged));
        }
        self.hand_out(met, at, list)
    }

    fn hand_out(&self, met: Vec<u32>, next: u32, list: &mut [u32]) -> Result<Scanned, ScanError> {
        let count = met.len() as u32;
        if list.len() < met.len() * 2 {
            return Err(ScanError::Short(count));
        }
        for (place, &entry) in met.iter().enumerate() {
            list[place * 2..][..2].copy_from_slice(&self.entry(entry)[1..]);
        }
        Ok(Scanned { next, count })
    }

    /// Answers the entries that the step moves, if there is one.
    fn step_if_due(&mut self) -> Result<Vec<u32>, Error> {
        if self.state.rehashing && self.state.safe_iterators == 0 {
            self.step()
        } else {
            Ok(Vec::new())
        }
    }

    fn is_to_grow(&self) -> bool {
        let state = self.state;
        let (keys, size) = (state.old_used + state.new_used, state.old_size);
        let is_full = state.resize_allowed && keys >= size;
        let is_overfull = keys > 5 * size;
        !state.rehashing && (is_full || is_overfull) && self.suggested_size() > size
    }

    /// To grow: the least power of two, from 4 to 65,536, with two buckets for each
    /// key, or else the last of these.
    fn suggested_size(&self) -> u32 {
        let keys = self.state.old_used + self.state.new_used;
        let mut sizes = (2..=16).map(|exponent| 1 << exponent);
        sizes.find(|&size| size >= 2 * keys).unwrap_or(65536)
    }

    fn step(&mut self) -> Result<Vec<u32>, Error> {
        let before = self.state;
        let mut moved = Vec::new();
        let mut next = before.rehash_index;
        if before.old_used > 0 {
            let mut left = next..before.old_size;
            let is_filled = |b: &u32| self.buckets(Side::Old)[*b as usize] != 0;
            if let Some(filled) = left.clone().take(10).find(is_filled) {
                moved = self.chain(Side::Old, filled)?;
                self.buckets_mut(Side::Old)[filled as usize] = 0;
                next = filled + 1;
            } else {
                next = left.nth(10).ok_or(Error::Damaged)?;
            }
        }
        for &entry in &moved {
            self.put_first(Side::New, entry);
        }
        let state = &mut self.state;
        state.rehash_index = next;
        state.old_used -= moved.len() as u32;
        state.new_used += moved.len() as u32;
        if state.old_used == 0 {
            state.second_is_current = !before.second_is_current;
            (state.old_size, state.new_size) = (before.new_size, 0);
            (state.old_used, state.new_used) = (state.new_used, 0);
            (state.rehashing, state.rehash_index) = (false, 0);
        }
        Ok(moved)
    }

    fn add_alone(&mut self, key: u32, value: u32) -> Result<(), Error> {
        let state = self.state;
        if self.look_up(key)?.is_some() {
            return Err(Error::Present);
        }
        if state.old_used + state.new_used == state.capacity {
            return Err(Error::Full);
        }
        let free = state.free_head;
        if free == 0 || self.entry(free)[0] > state.capacity {
            return Err(Error::Damaged);
        }
        self.state.free_head = self.entry(free)[0];
        self.entry_mut(free)[1..].copy_from_slice(&[key, value]);
        if state.rehashing {
            self.put_first(Side::New, free);
            self.state.new_used += 1;
        } else {
            self.put_first(Side::Old, free);
            self.state.old_used += 1;
        }
        Ok(())
    }

    /// The entry off its chain, which is linked anew without it, and onto the free
    /// chain.
    fn remove(&mut self, found: &Found, key: u32) {
        let mut chain = found.chain.clone();
        let entry = chain.remove(found.place);
        let bucket = key % self.size(found.side);
        self.buckets_mut(found.side)[bucket as usize] = chain.first().copied().unwrap_or(0);
        for (place, &left) in chain.iter().enumerate() {
            self.entry_mut(left)[0] = chain.get(place + 1).copied().unwrap_or(0);
        }
        let free = std::mem::replace(&mut self.state.free_head, entry);
        self.entry_mut(entry).copy_from_slice(&[free, 0, 0]);
        match found.side {
            Side::Old => self.state.old_used -= 1,
            Side::New => self.state.new_used -= 1,
        }
    }

    /// Where a key is first met, if the chains that a lookup reads are sound.
    fn look_up(&self, key: u32) -> Result<Option<Found>, Error> {
        let mut chains = Vec::new();
        for side in self.sides() {
            chains.push((side, self.chain(side, key % self.size(side))?));
        }
        Ok(chains.into_iter().find_map(|(side, chain)| {
            let mut entries = chain.iter();
            let place = entries.position(|&entry| self.entry(entry)[1] == key)?;
            Some(Found { side, chain, place })
        }))
    }

    /// The live tables, or the only one.
    fn sides(&self) -> Vec<Side> {
        if self.state.rehashing {
            vec![Side::Old, Side::New]
        } else {
            vec![Side::Old]
        }
    }

    /// The entries of a bucket's chain, if it is sound.
    fn chain(&self, side: Side, bucket: u32) -> Result<Vec<u32>, Error> {
        let most = match side {
            Side::Old => self.state.old_used,
            Side::New => self.state.new_used,
        };
        let mut met = Vec::new();
        let mut at = self.buckets(side)[bucket as usize];
        while at != 0 {
            if at > self.state.capacity || met.len() as u32 == most {
                return Err(Error::Damaged);
            }
            let entry = self.entry(at);
            if entry[1] % self.size(side) != bucket {
                return Err(Error::Damaged);
            }
            met.push(at);
            at = entry[0];
        }
        Ok(met)
    }

    /// An entry to the head of its key's bucket.
    fn put_first(&mut self, side: Side, entry: u32) {
        let bucket = self.entry(entry)[1] % self.size(side);
        let head = &mut self.buckets_mut(side)[bucket as usize];
        let former = std::mem::replace(head, entry);
        self.entry_mut(entry)[0] = former;
    }

    fn size(&self, side: Side) -> u32 {
        match side {
            Side::Old => self.state.old_size,
            Side::New => self.state.new_size,
        }
    }

    fn buckets(&self, side: Side) -> &[u32] {
        match (side, self.state.second_is_current) {
            (Side::Old, false) | (Side::New, true) => &self.first,
            (Side::Old, true) | (Side::New, false) => &self.second,
        }
    }

    fn buckets_mut(&mut self, side: Side) -> &mut [u32] {
        match (side, self.state.second_is_current) {
            (Side::Old, false) | (Side::New, true) => &mut self.first,
            (Side::Old, true) | (Side::New, false) => &mut self.second,
        }
    }

    fn entry(&self, number: u32) -> &[u32] {
        &self.entries[number as usize * 3 - 3..][..3]
    }

    fn entry_mut(&mut self, number: u32) -> &mut [u32] {
        &mut self.entries[number as usize * 3 - 3..][..3]
    }
}

/// The next cursor, in the specification's four steps.
fn next_cursor(cursor: u32, size: u32) -> u32 {
    let filled = cursor | !(size - 1);
    let reversed = (0..32).fold(0, |bits, place| bits << 1 | (filled >> place & 1));
    let counted: u32 = u32::wrapping_add(reversed, 1);
    (0..32).fold(0, |bits, place| bits << 1 | (counted >> place & 1))
}

/// The generator of Lehmer on 64 bits, of which the upper ones are used.
struct Random(u64);

impl Random {
    fn below(&mut self, end: u32) -> u32 {
        self.0 = self.0.wrapping_mul(0xda94_2042_e4dd_58b5);
        (((self.0 >> 32) * u64::from(end)) >> 32) as u32
    }
}

/// A store somewhere in a move, or just behind one, or in four of ten cases without
/// a resize. Its one table may have too many keys, since they were added without
/// permission, and the other buffer may be too short for it to grow. One of four has
/// safe iterators. One of four has no keys in the first ten of sixteen buckets. In
/// three of four cases some of its numbers are made others.
fn any_memory(random: &mut Random) -> Memory {
    let capacity = 2 + random.below(8);
    let old = random.below(5);
    let new = (old + 1 + random.below(4)) % 5;
    let begins = random.below(10) >= 4;
    let high = if random.below(4) == 0 { 10 } else { 0 };
    let least = if begins { 1 << new } else { 0 };
    let mut memory = Memory {
        state: State::default(),
        first: vec![7; 16],
        second: vec![7; (least + random.below(25 - least)) as usize],
        entries: vec![7; 27],
    };
    memory.call(|store| {
        assert_eq!(store.init(capacity, 1 << old), Ok(()));
        store.state.resize_allowed = false;
        for _ in 0..random.below(capacity) {
            let _ = store.add(random.below(32) | high, 0);
        }
        if begins {
            // Refused where six keys in one bucket have begun a move.
            let _ = store.resize(1 << new);
            for _ in 0..random.below(3) {
                let _ = store.add(random.below(32) | high, 0);
            }
        }
    });
    memory.state.resize_allowed = random.below(2) == 0;
    if random.below(4) == 0 {
        memory.state.safe_iterators = 1 + random.below(255);
    }
    if random.below(2) == 0 {
        std::mem::swap(&mut memory.first, &mut memory.second);
        memory.state.second_is_current ^= true;
    }
    if random.below(4) == 0 {
        return memory;
    }
    for _ in 0..1 + random.below(4) {
        let number = random.below(capacity + 2);
        match random.below(8) {
            0 => put_any(&mut memory.first, number, random),
            1 => put_any(&mut memory.second, number, random),
            2 => memory.entry_mut(1 + random.below(capacity))[0] = number,
            3 => memory.entry_mut(1 + random.below(capacity))[1] = random.below(32),
            4 => memory.state.free_head = number,
            5 => memory.state.rehash_index = random.below(memory.state.old_size + 2),
            6 => memory.state.safe_iterators = 255 + random.below(2),
            _ => {
                memory.state.old_used = random.below(5);
                memory.state.new_used = random.below(5);
            }
        }
    }
    memory
}

/// Any key, or in three of four cases the key of some entry, which often is held.
fn any_key(memory: &Memory, random: &mut Random) -> u32 {
    match random.below(4) {
        0 => random.below(32),
        _ => memory.entry(1 + random.below(memory.state.capacity))[1],
    }
}

/// A number somewhere in a buffer, which may have no place for it.
fn put_any(buffer: &mut [u32], number: u32, random: &mut Random) {
    let place = random.below(buffer.len() as u32) as usize;
    if let Some(old) = buffer.get_mut(place) {
        *old = number;
    }
}

/// The kinds of cases that a comparison has met, and how often.
#[derive(Debug, Default)]
struct Seen(BTreeMap<&'static str, u32>);

impl Seen {
    fn note(&mut self, kind: &'static str) {
        *self.0.entry(kind).or_default() += 1;
    }

    fn note_if(&mut self, is_so: bool, kind: &'static str) {
        if is_so {
            self.note(kind);
        }
    }

    fn refusal(&mut self, error: Error) {
        self.note(match error {
            Error::BadState => "bad state",
            Error::Damaged => "damaged",
            Error::Absent => "absent",
            Error::Present => "present",
            Error::Full => "full",
            _ => "another refusal",
        });
    }

    /// What came first in an answered call.
    fn step(&mut self, before: &Memory, after: State) {
        let state = before.state;
        let moved = |next: u32| before.buckets(Side::Old)[next as usize - 1] != 0;
        self.note(match state.rehashing {
            false => "no move",
            true if state.safe_iterators > 0 => "held up",
            true if state.second_is_current != after.second_is_current => "ended",
            true if moved(after.rehash_index) => "moved",
            true => "passed",
        });
    }

    fn found(&mut self, found: &Found) {
        self.note(match (found.side, found.place) {
            (Side::Old, 0) => "head of an old chain",
            (Side::Old, _) => "behind in an old chain",
            (Side::New, 0) => "head of a new chain",
            (Side::New, _) => "behind in a new chain",
        });
    }

    /// It has met just these kinds, and each of them often.
    fn expect(&self, kinds: &[&'static str]) {
        let mut expected = kinds.to_vec();
        expected.sort();
        let met: Vec<&str> = self.0.keys().copied().collect();
        assert_eq!(met, expected);
        assert!(self.0.values().all(|&count| count > 300), "{self:?}");
    }
}

/// Runs `test` on as many memories.
fn on_any_memory(seed: u64, mut test: impl FnMut(&mut Random, Memory)) {
    let mut random = Random(seed);
    for _ in 0..150_000 {
        let memory = any_memory(&mut random);
        test(&mut random, memory);
    }
}

#[test]
fn an_add_is_what_its_definition_says_on_any_memory() {
    let mut seen = Seen::default();
    on_any_memory(1, |random, before| {
        let (key, value) = (random.below(32), random.below(100));
        let (mut defined, mut added) = (before.clone(), before.clone());
        let expected = defined.add(key, value);
        let answer = added.call(|store| store.add(key, value));
        assert_eq!(answer, expected, "{before:?}");
        assert_eq!(added, defined, "{before:?}");
        if let Err(error) = answer {
            assert_eq!(added, before);
            return seen.refusal(error);
        }
        let after = added.state;
        assert_eq!(after.resize_allowed, before.state.resize_allowed);
        assert_eq!(after.safe_iterators, before.state.safe_iterators);
        seen.step(&before, after);
        let has_ended = before.state.second_is_current != after.second_is_current;
        let rested = !before.state.rehashing || has_ended;
        seen.note_if(rested && after.rehashing, "grown");
        seen.note_if(has_ended && after.rehashing, "grown at once");
        seen.note_if(added.is_to_grow(), "no room to grow");
    });
    seen.expect(&[
        "bad state",
        "damaged",
        "present",
        "full",
        "no move",
        "held up",
        "passed",
        "moved",
        "ended",
        "grown",
        "grown at once",
        "no room to grow",
    ]);
}

#[test]
fn a_delete_is_what_its_definition_says_on_any_memory() {
    let mut seen = Seen::default();
    on_any_memory(2, |random, before| {
        let key = any_key(&before, random);
        let (mut defined, mut deleted) = (before.clone(), before.clone());
        let expected = defined.delete(key);
        let answer = deleted.call(|store| store.delete(key));
        assert_eq!(answer.err(), expected.as_ref().err().copied(), "{before:?}");
        assert_eq!(deleted, defined, "{before:?}");
        let (found, moved) = match expected {
            Ok(both) => both,
            Err(error) => {
                assert_eq!(deleted, before);
                return seen.refusal(error);
            }
        };
        seen.step(&before, deleted.state);
        seen.found(&found);
        let before_it = found.chain[..found.place].last();
        let is_behind_moved = before_it.is_some_and(|entry| moved.contains(entry));
        if moved.contains(&found.chain[found.place]) {
            seen.note("moved itself");
            seen.note_if(is_behind_moved, "moved itself, and another one before it");
        } else {
            seen.note_if(is_behind_moved, "right behind those that moved");
        }
    });
    seen.expect(&[
        "bad state",
        "damaged",
        "absent",
        "no move",
        "held up",
        "passed",
        "moved",
        "ended",
        "head of an old chain",
        "behind in an old chain",
        "head of a new chain",
        "behind in a new chain",
        "moved itself",
        "moved itself, and another one before it",
        "right behind those that moved",
    ]);
}

#[test]
fn a_change_is_what_its_definition_says_on_any_memory() {
    let mut seen = Seen::default();
    on_any_memory(3, |random, before| {
        let (key, value) = (any_key(&before, random), random.below(100));
        let (mut defined, mut changed) = (before.clone(), before.clone());
        let expected = defined.update(key, value);
        let answer = changed.call(|store| store.update(key, value));
        assert_eq!(answer.err(), expected.as_ref().err().copied(), "{before:?}");
        assert_eq!(changed, defined, "{before:?}");
        // A find reads the same, and finds the same entry.
        let value = changed.call(|store| store.find(key));
        match expected {
            Err(error) => {
                assert_eq!((changed, value), (before, Err(error)));
                seen.refusal(error);
            }
            Ok(found) => {
                let entry = changed.entry(found.chain[found.place]);
                assert_eq!(value, Ok(entry[2]));
                seen.found(&found);
            }
        }
    });
    seen.expect(&[
        "bad state",
        "damaged",
        "absent",
        "head of an old chain",
        "behind in an old chain",
        "head of a new chain",
        "behind in a new chain",
    ]);
}

/// Compares a call that hands out keys, given a cursor or a place, with its
/// definition. It must only read the memory, and write to the list only where it is
/// answered.
fn compare_handing_out(
    random: &mut Random,
    seen: &mut Seen,
    before: &Memory,
    call: impl Fn(&Store, u32, &mut [u32]) -> Result<Scanned, ScanError>,
    define: impl Fn(&Memory, u32, &mut [u32]) -> Result<Scanned, ScanError>,
) -> Option<(u32, Scanned)> {
    let from = match random.below(8) {
        0 => u32::MAX - random.below(40),
        _ => random.below(20),
    };
    let room = random.below(20) as usize;
    let (mut defined, mut listed) = (vec![7; room], vec![7; room]);
    let expected = define(before, from, &mut defined);
    let mut memory = before.clone();
    let answer = memory.call(|store| call(store, from, &mut listed));
    assert_eq!(answer, expected, "{from} {room} {before:?}");
    assert_eq!(listed, defined, "{from} {before:?}");
    assert_eq!(memory, *before);
    match answer {
        Ok(scanned) => return Some((from, scanned)),
        Err(ScanError::Short(_)) => seen.note("short"),
        Err(ScanError::Refused(error)) => seen.refusal(error),
    }
    None
}

#[test]
fn a_pass_call_is_what_its_definition_says_on_any_memory() {
    let mut seen = Seen::default();
    on_any_memory(4, |random, memory| {
        let call = |store: &Store, place, list: &mut [u32]| store.iterate(place, list);
        let answer = compare_handing_out(random, &mut seen, &memory, call, Memory::iterate);
        let Some((place, Scanned { next, count })) = answer else {
            return;
        };
        let end = memory.state.old_size + memory.state.new_size;
        assert!(count > 0 || next == end);
        seen.note(match count {
            0 if place < end => "none left",
            0 => "from the end on",
            _ if next > memory.state.old_size => "keys of the new table",
            1 => "one key of the old table",
            _ => "more keys of the old table",
        });
    });
    seen.expect(&[
        "bad state",
        "damaged",
        "short",
        "none left",
        "from the end on",
        "one key of the old table",
        "more keys of the old table",
        "keys of the new table",
    ]);
}

#[test]
fn a_walk_call_is_what_its_definition_says_on_any_memory() {
    let mut seen = Seen::default();
    on_any_memory(5, |random, memory| {
        let call = |store: &Store, cursor, list: &mut [u32]| store.scan(cursor, list);
        let answer = compare_handing_out(random, &mut seen, &memory, call, Memory::scan);
        let Some((_, Scanned { next, count })) = answer else {
            return;
        };
        let state = memory.state;
        seen.note(match (state.rehashing, state.old_size < state.new_size) {
            (false, _) => "one table",
            (true, true) => "to a larger table",
            (true, false) => "to a smaller table",
        });
        seen.note(if count == 0 { "no keys" } else { "keys" });
        seen.note_if(next == 0, "the walk is over");
    });
    seen.expect(&[
        "bad state",
        "damaged",
        "short",
        "one table",
        "to a larger table",
        "to a smaller table",
        "no keys",
        "keys",
        "the walk is over",
    ]);
}

/// For every size and every bucket, and for cursors beyond the table.
#[test]
fn the_next_cursor_is_what_its_definition_says() {
    for size in (0..=16).map(|exponent| 1 << exponent) {
        for cursor in (0..size).chain((0..1000).map(|n| n * 4294967)) {
            let defined = next_cursor(cursor, size);
            assert_eq!(super::scan::next_cursor(cursor, size), defined);
        }
    }
}
