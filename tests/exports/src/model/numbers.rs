//! "The memory", "Limits", "Sound state, sound chain, undamaged store" and the numbers of "Answers".

/// The most entries a store may have, and the most buckets a table may have.
pub const MOST: u32 = 65_536;

/// The most careful passes that may be under way at a time.
pub const MOST_CAREFUL_PASSES: u32 = 255;

/// A refusal: every answer but 0.
#[derive(Clone, Copy, Debug, PartialEq, Eq)]
pub enum Refusal {
    BadState,
    Damaged,
    Absent,
    Present,
    Full,
    BadSize,
    Moving,
    NotMoving,
    /// With the number of keys that were to be handed out.
    Short(u32),
    Changed,
    NoCarefulPass,
    TooManyCarefulPasses,
    Paused,
}

impl Refusal {
    pub fn number(self) -> u32 {
        match self {
            Refusal::BadState => 1,
            Refusal::Damaged => 2,
            Refusal::Absent => 3,
            Refusal::Present => 4,
            Refusal::Full => 5,
            Refusal::BadSize => 6,
            Refusal::Moving => 7,
            Refusal::NotMoving => 8,
            Refusal::Short(_) => 9,
            Refusal::Changed => 15,
            Refusal::NoCarefulPass => 16,
            Refusal::TooManyCarefulPasses => 17,
            Refusal::Paused => 18,
        }
    }
}

/// What a call answers: its results, or why it refuses.
pub type Answer<T> = Result<T, Refusal>;

#[derive(Clone, Copy, Debug, Default, PartialEq, Eq)]
pub struct State {
    pub second_is_current: bool,
    pub old_size: u32,
    pub new_size: u32,
    pub old_used: u32,
    pub new_used: u32,
    pub rehashing: bool,
    pub rehash_index: u32,
    pub free_head: u32,
    pub capacity: u32,
    pub resize_allowed: bool,
    pub safe_iterators: u32,
}

impl State {
    /// Keys held: the sum of the two counts, without overflow.
    pub fn held(&self) -> u64 {
        u64::from(self.old_used) + u64::from(self.new_used)
    }

    pub fn paused(&self) -> bool {
        self.safe_iterators > 0
    }
}

/// One of the live tables. With no move the only one is the old one.
#[derive(Clone, Copy, Debug, PartialEq, Eq)]
pub enum Table {
    Old,
    New,
}

/// A state and the three buffers that are lent with it.
#[derive(Clone, Debug, PartialEq, Eq)]
pub struct Store {
    pub state: State,
    pub first: Vec<u32>,
    pub second: Vec<u32>,
    pub entries: Vec<u32>,
}

pub fn legal_size(size: u32) -> bool {
    size.is_power_of_two() && size <= MOST
}

pub fn legal_capacity(capacity: u32) -> bool {
    (1..=MOST).contains(&capacity)
}

/// Whether a buffer of this length has at least as many numbers as are needed.
pub fn has_room(length: usize, needed: u32) -> bool {
    length as u64 >= u64::from(needed)
}

impl Store {
    pub fn buffer(&self, table: Table) -> &[u32] {
        match (table, self.state.second_is_current) {
            (Table::Old, false) | (Table::New, true) => &self.first,
            (Table::Old, true) | (Table::New, false) => &self.second,
        }
    }

    pub fn buffer_mut(&mut self, table: Table) -> &mut [u32] {
        match (table, self.state.second_is_current) {
            (Table::Old, false) | (Table::New, true) => &mut self.first,
            (Table::Old, true) | (Table::New, false) => &mut self.second,
        }
    }

    pub fn size(&self, table: Table) -> u32 {
        match table {
            Table::Old => self.state.old_size,
            Table::New => self.state.new_size,
        }
    }

    pub fn used(&self, table: Table) -> u32 {
        match table {
            Table::Old => self.state.old_used,
            Table::New => self.state.new_used,
        }
    }

    pub fn used_mut(&mut self, table: Table) -> &mut u32 {
        match table {
            Table::Old => &mut self.state.old_used,
            Table::New => &mut self.state.new_used,
        }
    }

    pub fn live_tables(&self) -> &'static [Table] {
        if self.state.rehashing {
            &[Table::Old, Table::New]
        } else {
            &[Table::Old]
        }
    }

    pub fn head(&self, table: Table, bucket: u32) -> u32 {
        self.buffer(table)[bucket as usize]
    }

    pub fn set_head(&mut self, table: Table, bucket: u32, number: u32) {
        self.buffer_mut(table)[bucket as usize] = number;
    }

    /// The index of an entry's link. Entries are numbered from 1.
    fn index(number: u32) -> usize {
        3 * (number as usize - 1)
    }

    pub fn link(&self, number: u32) -> u32 {
        self.entries[Self::index(number)]
    }

    pub fn key(&self, number: u32) -> u32 {
        self.entries[Self::index(number) + 1]
    }

    pub fn value(&self, number: u32) -> u32 {
        self.entries[Self::index(number) + 2]
    }

    pub fn set_link(&mut self, number: u32, link: u32) {
        self.entries[Self::index(number)] = link;
    }

    pub fn set_key(&mut self, number: u32, key: u32) {
        self.entries[Self::index(number) + 1] = key;
    }

    pub fn set_value(&mut self, number: u32, value: u32) {
        self.entries[Self::index(number) + 2] = value;
    }

    /// A key's bucket in a table.
    pub fn bucket(&self, table: Table, key: u32) -> u32 {
        key % self.size(table)
    }

    /// "Sound state".
    pub fn state_is_sound(&self) -> bool {
        let state = &self.state;
        let of_the_move = if state.rehashing {
            legal_size(state.new_size)
                && has_room(self.buffer(Table::New).len(), state.new_size)
                && state.new_size != state.old_size
                && state.rehash_index <= state.old_size
        } else {
            state.new_size == 0 && state.new_used == 0 && state.rehash_index == 0
        };
        legal_capacity(state.capacity)
            && has_room(self.entries.len(), 3 * state.capacity)
            && legal_size(state.old_size)
            && has_room(self.buffer(Table::Old).len(), state.old_size)
            && state.held() <= u64::from(state.capacity)
            && state.free_head <= state.capacity
            && state.safe_iterators <= MOST_CAREFUL_PASSES
            && of_the_move
    }

    pub fn require_sound_state(&self) -> Answer<()> {
        if self.state_is_sound() {
            Ok(())
        } else {
            Err(Refusal::BadState)
        }
    }

    /// "Sound chain": the entries of a bucket's chain, from head to end, if it is sound.
    pub fn chain(&self, table: Table, bucket: u32) -> Answer<Vec<u32>> {
        self.chain_of_at_most(self.used(table), table, bucket)
    }

    /// The same, where the state allows the chain so many entries.
    pub fn chain_of_at_most(&self, most: u32, table: Table, bucket: u32) -> Answer<Vec<u32>> {
        let mut met = Vec::new();
        let mut number = self.head(table, bucket);
        while number != 0 {
            let too_many = met.len() == most as usize;
            if too_many || number > self.state.capacity {
                return Err(Refusal::Damaged);
            }
            if self.bucket(table, self.key(number)) != bucket {
                return Err(Refusal::Damaged);
            }
            met.push(number);
            number = self.link(number);
        }
        Ok(met)
    }
}
