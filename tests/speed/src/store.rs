//! The store in plain Rust: the same lent buffers, read and written by index,
//! the same links and tests as the proved one, for the calls that are timed.
//!
//! What makes the comparison fair: every call tests the whole state; every
//! number is tested against the capacity, and every chain's length against the
//! keys held, before an entry is read; every key met on a bucket's chain is
//! tested to belong in that bucket of that table, in the loop that reads the
//! chain; a lookup reads both chains to their ends, even where the first entry
//! has the key; a walk call and a pass call have tested their chains, their sum
//! and their room before they write. In a move that no safe iterator holds up an
//! add and a delete take a step first: they have tested the chain that moves, and
//! the key's two as the step will leave them, before anything is written, so that
//! nothing is copied and a refusal has nothing to undo.
//! An add that leaves one table also looks whether this is to grow.
//! There is no `unsafe` (Cargo.toml forbids it), and the state is hidden from
//! the compiler (`work.rs`).
//!
//! It is the bar for the proved store, so it is tuned within that form. Inlining is
//! left to the compiler on both sides, since Rattle has no word for it.
//!
//! Some sixty shapes were built and timed, on a machine that was not idle. The figures
//! here are from runs of their own, made when the choice was over, in nanoseconds, the
//! least of 15 runs in turns, at 256 and at 65,536 keys. In those runs one program,
//! timed twice, differed from itself by up to 11 percent in an add, 7 in a find, 15 in
//! a delete, 8 in a pass and more than a third in an add in a move; so less than that
//! is no gain that these runs could show.
//!
//! Kept, and shown:
//! - what a chain is read for is given as a closure, so that each call has a loop of
//!   its own: walk call 14.9 to 11.1, 24.0 to 20.7; careful pass 7.2 to 5.3, 18.3 to
//!   16.4;
//! - answers that fit into registers where a function stays a call: walk call 7.6 to
//!   6.6, 21.9 to 20.5.
//!
//! The next cursor is the proved store's, by the quick step and half a word: walk call
//! 6.8, 21.3 (with the quick step alone 6.5, 23.3). By its highest zero bit, with no
//! reversal, it would be 4.9, 18.2. That is outside the form: the customer asked for a
//! table of reversed bytes, and so both stores reverse.
//!
//! Kept, and not shown to win by more than that: entries cut to the capacity, so that
//! the test of an index is that of a number; the tests of the state joined; an add to
//! one table apart from that in a move; the next cursor made before the list is
//! written (18.5 for 19.8 at 65,536 keys, nothing at 16 and 256); for a step, one
//! reading of the chain that moves for all that is asked of it, the heads of the key's
//! chains fetched before it, and the way to a key behind the step told from the memory
//! before it.
//!
//! Tried, and left out without a gain shown: entries viewed as arrays of three numbers,
//! tables cut to their sizes, all tests of the state in one flag, pairs written to the
//! chain's end and not by their number, and a deleted entry's link written without a
//! branch (quicker in one of two runs made to decide it).
//!
//! A walk and a pass go the same way each round. At 4,096 keys a processor learns some
//! of their branches, but not all, and where the code lies decides how many: shapes
//! with the same instructions had 5.4 to 8.9 there. So no choice rests on those rows.

mod add;
mod delete;
mod pass;
mod repair;
mod scan;
mod step;
mod verify;

#[cfg(test)]
mod defined;
#[cfg(test)]
mod tests;

pub const MAX_CAPACITY: u32 = 65536;
pub const MAX_SIZE: u32 = 65536;

/// The most safe iterators at a time.
const MOST_SAFE_ITERATORS: u32 = 255;

/// The numbers of an entry in its buffer: link, key, value.
const FIELDS: usize = 3;

#[derive(Clone, Copy, Debug, Default, PartialEq, Eq)]
pub struct State {
    pub second_is_current: bool,
    pub old_size: u32,
    pub new_size: u32,
    pub old_used: u32,
    pub new_used: u32,
    pub rehashing: bool,
    pub rehash_index: u32,
    pub free_head: u32,
    pub capacity: u32,
    pub resize_allowed: bool,
    pub safe_iterators: u32,
}

/// The specification's numbers.
#[derive(Clone, Copy, Debug, PartialEq, Eq)]
#[repr(u32)]
pub enum Error {
    BadState = 1,
    Damaged = 2,
    Absent = 3,
    Present = 4,
    Full = 5,
    BadSize = 6,
    Rehashing = 7,
    NoSafeIterator = 16,
    TooManySafeIterators = 17,
}

/// Why a call that hands out keys is refused.
#[derive(Clone, Copy, Debug, PartialEq, Eq)]
pub enum ScanError {
    Refused(Error),
    /// Its list has too little room for this many keys.
    Short(u32),
}

impl From<Error> for ScanError {
    fn from(error: Error) -> Self {
        ScanError::Refused(error)
    }
}

/// What a call that hands out keys answers beside the pairs in its list: the
/// next cursor or place, and how many keys there are.
#[derive(Clone, Copy, Debug, PartialEq, Eq)]
pub struct Scanned {
    pub next: u32,
    pub count: u32,
}

pub struct Store<'a> {
    pub state: State,
    first: &'a mut [u32],
    second: &'a mut [u32],
    entries: &'a mut [u32],
}

/// One live table: its buckets, as many as its size, and the keys it holds.
#[derive(Clone, Copy)]
struct Table<'a> {
    buckets: &'a [u32],
    size: u32,
    used: u32,
}

impl Table<'_> {
    fn head(&self, hash: u32) -> u32 {
        self.buckets[bucket(hash, self.size)]
    }

    /// Whether two hashes have the same bucket here: one mask of the bits in
    /// which they differ.
    fn share_bucket(&self, hash: u32, other: u32) -> bool {
        bucket(hash ^ other, self.size) == 0
    }
}

pub fn is_legal_size(size: u32) -> bool {
    size.is_power_of_two() & (size <= MAX_SIZE)
}

fn is_legal_capacity(capacity: u32) -> bool {
    (1..=MAX_CAPACITY).contains(&capacity)
}

/// The bucket of a key, and of a cursor too: the hash of a key is the key.
fn bucket(hash: u32, size: u32) -> usize {
    (hash & (size - 1)) as usize
}

/// An entry once it is found, and else the one that is met, if it has the key. 0 is
/// none. There is no branch, which would depend on the order of a chain.
fn first_of(found: u32, has_key: bool, met: u32) -> u32 {
    if (found == 0) & has_key {
        met
    } else {
        found
    }
}

/// Where an entry begins; they are numbered from 1.
fn start_of(entry: u32) -> usize {
    (entry as usize - 1) * FIELDS
}

impl<'a> Store<'a> {
    /// A store that is not started: every call refuses its state.
    pub fn new(first: &'a mut [u32], second: &'a mut [u32], entries: &'a mut [u32]) -> Self {
        Store {
            state: State::default(),
            first,
            second,
            entries,
        }
    }

    pub fn init(&mut self, capacity: u32, size: u32) -> Result<(), Error> {
        if !is_legal_capacity(capacity) || !is_legal_size(size) {
            return Err(Error::BadSize);
        }
        let fields = capacity as usize * FIELDS;
        if self.first.len() < size as usize || self.entries.len() < fields {
            return Err(Error::BadState);
        }
        self.first[..size as usize].fill(0);
        for (entry, link) in self.entries[..fields].chunks_exact_mut(FIELDS).zip(2..) {
            entry.copy_from_slice(&[link, 0, 0]);
        }
        self.entries[fields - FIELDS] = 0;
        self.state = State {
            old_size: size,
            free_head: 1,
            capacity,
            resize_allowed: true,
            ..State::default()
        };
        Ok(())
    }

    /// Begins a move to a table of another size.
    pub fn resize(&mut self, size: u32) -> Result<(), Error> {
        self.check_state()?;
        if self.state.rehashing {
            return Err(Error::Rehashing);
        }
        let is_present = size == self.state.old_size;
        if !is_legal_size(size) || is_present || !self.has_room(size) {
            return Err(Error::BadSize);
        }
        self.begin_move(size);
        Ok(())
    }

    /// Whether the other bucket buffer is long enough for a table of that size.
    fn has_room(&self, size: u32) -> bool {
        size as usize <= self.buffers().1.len()
    }

    fn begin_move(&mut self, size: u32) {
        let other = if self.state.second_is_current {
            &mut self.first
        } else {
            &mut self.second
        };
        other[..size as usize].fill(0);
        // With no move the new count and the next bucket are 0 already.
        self.state.new_size = size;
        self.state.rehashing = true;
    }

    pub fn find(&self, key: u32) -> Result<u32, Error> {
        self.check_state()?;
        let mut found = 0;
        self.read_chains(key, |at, met| found = first_of(found, met == key, at))?;
        match found {
            0 => Err(Error::Absent),
            entry => Ok(self.value(entry)),
        }
    }

    /// Gives a held key another value.
    pub fn update(&mut self, key: u32, value: u32) -> Result<(), Error> {
        self.check_state()?;
        let mut found = 0;
        self.read_chains(key, |at, met| found = first_of(found, met == key, at))?;
        match found {
            0 => Err(Error::Absent),
            entry => {
                self.entries[start_of(entry) + 2] = value;
                Ok(())
            }
        }
    }

    /// Reads the chains of a key, the old table's before the new one's, and hands on
    /// each entry with its key.
    fn read_chains(&self, key: u32, mut meet: impl FnMut(u32, u32)) -> Result<(), Error> {
        let old = self.old_table();
        self.read_chain(old, old.head(key), key, old.used, &mut meet)?;
        if self.state.rehashing {
            let new = self.new_table();
            self.read_chain(new, new.head(key), key, new.used, &mut meet)?;
        }
        Ok(())
    }

    /// Reads a chain to its end, and hands on each entry with its key: at most so
    /// many, and each key must belong in the bucket of `hash`. The entries are cut to
    /// the capacity, so that one test is that of a number and that of an index.
    fn read_chain(
        &self,
        table: Table,
        head: u32,
        hash: u32,
        most: u32,
        mut meet: impl FnMut(u32, u32),
    ) -> Result<(), Error> {
        let entries = &self.entries[..self.state.capacity as usize * FIELDS];
        let mut at = head;
        let mut left = most;
        while at != 0 {
            let start = start_of(at);
            let Some(&met) = entries.get(start + 1) else {
                return Err(Error::Damaged);
            };
            if (left == 0) | !table.share_bucket(met, hash) {
                return Err(Error::Damaged);
            }
            meet(at, met);
            at = entries[start];
            left -= 1;
        }
        Ok(())
    }

    fn check_state(&self) -> Result<(), Error> {
        if self.is_sound() {
            Ok(())
        } else {
            Err(Error::BadState)
        }
    }

    /// The tests are joined without branches, so that those of a state that stays
    /// leave a loop of calls as one flag; but a call makes those of one case only.
    fn is_sound(&self) -> bool {
        let state = &self.state;
        let held = u64::from(state.old_used) + u64::from(state.new_used);
        let (current, other) = self.buffers();
        let is_sound_base = is_legal_capacity(state.capacity)
            & (state.capacity as usize * FIELDS <= self.entries.len())
            & (held <= u64::from(state.capacity))
            & (state.free_head <= state.capacity)
            & (state.safe_iterators <= MOST_SAFE_ITERATORS)
            & is_legal_size(state.old_size)
            & (state.old_size as usize <= current.len());
        is_sound_base
            & if state.rehashing {
                is_legal_size(state.new_size)
                    & (state.new_size as usize <= other.len())
                    & (state.old_size != state.new_size)
                    & (state.rehash_index <= state.old_size)
            } else {
                state.new_size | state.new_used | state.rehash_index == 0
            }
    }

    /// The current bucket buffer and the other one.
    fn buffers(&self) -> (&[u32], &[u32]) {
        if self.state.second_is_current {
            (self.second, self.first)
        } else {
            (self.first, self.second)
        }
    }

    fn old_table(&self) -> Table<'_> {
        Table {
            buckets: self.buffers().0,
            size: self.state.old_size,
            used: self.state.old_used,
        }
    }

    fn new_table(&self) -> Table<'_> {
        Table {
            buckets: self.buffers().1,
            size: self.state.new_size,
            used: self.state.new_used,
        }
    }

    /// A number of the entry buffer, for a sum that tells what a call has left there.
    pub fn number_at(&self, place: usize) -> u32 {
        self.entries[place]
    }

    fn link(&self, entry: u32) -> u32 {
        self.entries[start_of(entry)]
    }

    fn key(&self, entry: u32) -> u32 {
        self.entries[start_of(entry) + 1]
    }

    fn value(&self, entry: u32) -> u32 {
        self.entries[start_of(entry) + 2]
    }
}
