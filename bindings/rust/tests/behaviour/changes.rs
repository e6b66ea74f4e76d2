//! Random changes of a store, with a plain map beside it that says what it ought to hold.

use std::collections::BTreeMap;

use suspects::{Cell, Error, Store};

/// The splitmix64 generator. The same seed always gives the same numbers.
pub struct Random(u64);

impl Random {
    pub fn new(seed: u64) -> Random {
        Random(seed)
    }

    pub fn next(&mut self) -> u64 {
        self.0 = self.0.wrapping_add(0x9e37_79b9_7f4a_7c15);
        let mut mixed = self.0;
        mixed = (mixed ^ (mixed >> 30)).wrapping_mul(0xbf58_476d_1ce4_e5b9);
        mixed = (mixed ^ (mixed >> 27)).wrapping_mul(0x94d0_49bb_1331_11eb);
        mixed ^ (mixed >> 31)
    }

    /// A number below `limit`.
    pub fn below(&mut self, limit: u32) -> u32 {
        (self.next() >> 32) as u32 % limit
    }
}

/// A change of a store.
#[derive(Clone, Copy, Debug)]
pub enum Change {
    Add(Cell, u32),
    Update(Cell, u32),
    Delete(Cell),
    Resize(u32),
    Step,
    Allow(bool),
}

impl Change {
    /// Adds outweigh deletes by `adds` to one. There are `keys` cells, of four scan chains.
    pub fn any(random: &mut Random, adds: u32, keys: u32) -> Change {
        let key = random.below(keys);
        let cell = Cell::new((key % 4) as u16, (key / 4) as u16);
        let fails = random.below(1000);
        match random.below(4 * adds + 12) {
            0..4 => Change::Delete(cell),
            4..6 => Change::Update(cell, fails),
            6..8 => Change::Step,
            // Legal sizes, some that are no powers of two, and some that are too large.
            8 => Change::Resize(1 << random.below(14)),
            9 => Change::Resize(random.below(20)),
            10..12 => Change::Allow(random.below(2) == 0),
            _ => Change::Add(cell, fails),
        }
    }
}

/// A store and the plain map that it should answer as.
pub struct Pair {
    pub store: Store,
    pub map: BTreeMap<Cell, u32>,
}

impl Pair {
    pub fn new(capacity: u32, size: u32) -> Pair {
        let store = Store::new(capacity, size).unwrap();
        let map = BTreeMap::new();
        Pair { store, map }
    }

    /// Makes a change, and sees that it is answered as it ought to be, and that a refusal changes
    /// nothing. Answers what was answered.
    pub fn change(&mut self, change: Change) -> Result<(), Error> {
        let due = self.due(change);
        let before = self.store.memory().clone();
        let answered = match change {
            Change::Add(cell, fails) => self.store.add(cell, fails),
            Change::Update(cell, fails) => self.store.update(cell, fails),
            Change::Delete(cell) => self.store.delete(cell),
            Change::Resize(size) => self.store.resize(size),
            Change::Step => self.store.rehash_step().map(|_| ()),
            Change::Allow(allowed) => self.store.allow_resize(allowed),
        };
        assert_eq!(answered, due, "{change:?} of {:?}", self.store);
        if answered.is_err() {
            assert!(*self.store.memory() == before, "{change:?} was refused");
            return answered;
        }
        match change {
            Change::Add(cell, fails) | Change::Update(cell, fails) => {
                self.map.insert(cell, fails);
            }
            Change::Delete(cell) => {
                self.map.remove(&cell);
            }
            Change::Resize(size) => assert_eq!(self.store.new_size(), Some(size)),
            Change::Step => {}
            Change::Allow(allowed) => assert_eq!(self.store.is_resize_allowed(), allowed),
        }
        assert_eq!(self.store.len() as usize, self.map.len());
        answered
    }

    /// What the specification says that the change is answered.
    fn due(&self, change: Change) -> Result<(), Error> {
        let Pair { store, map } = self;
        let refusal = match change {
            Change::Add(cell, _) if map.contains_key(&cell) => Error::Present,
            Change::Add(..) if map.len() == store.capacity() as usize => Error::Full,
            Change::Update(cell, _) | Change::Delete(cell) if !map.contains_key(&cell) => {
                Error::Absent
            }
            Change::Resize(_) if store.is_rehashing() => Error::Moving,
            Change::Resize(size)
                if !size.is_power_of_two() || size > Store::MAX_SIZE || size == store.size() =>
            {
                Error::BadSize
            }
            Change::Step if !store.is_rehashing() => Error::NotMoving,
            Change::Step if store.careful_passes() > 0 => Error::Paused,
            _ => return Ok(()),
        };
        Err(refusal)
    }
}
