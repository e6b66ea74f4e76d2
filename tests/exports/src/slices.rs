//! The six byte slices of a call, each between two margins of random bytes that no call may write either.

use crate::model::bytes::fields;
use crate::model::numbers::{Store, Table};
use crate::random::Random;

pub const STATE_BYTES: usize = 44;
pub const ANSWER_BYTES: usize = 8;
pub const MOST_BUCKET_BYTES: usize = 16_384;
pub const MOST_ENTRY_BYTES: usize = 49_152;

/// The most bytes in front of a slice and behind it. Fewer than eight in front give the slice any alignment.
const MOST_MARGIN: usize = 8;

/// The fields of a state, by their place in it.
#[derive(Clone, Copy, Debug, PartialEq, Eq)]
#[repr(usize)]
pub enum Field {
    SecondIsCurrent,
    OldSize,
    NewSize,
    OldUsed,
    NewUsed,
    Rehashing,
    RehashIndex,
    FreeHead,
    Capacity,
    ResizeAllowed,
    SafeIterators,
}

pub const FIELDS: [Field; 11] = [
    Field::SecondIsCurrent,
    Field::OldSize,
    Field::NewSize,
    Field::OldUsed,
    Field::NewUsed,
    Field::Rehashing,
    Field::RehashIndex,
    Field::FreeHead,
    Field::Capacity,
    Field::ResizeAllowed,
    Field::SafeIterators,
];

/// The three fields that are flags.
pub const FLAGS: [Field; 3] = [
    Field::SecondIsCurrent,
    Field::Rehashing,
    Field::ResizeAllowed,
];

/// A slice of bytes, and a margin on both sides of it.
#[derive(Debug, Default, PartialEq, Eq)]
pub struct Slice {
    bytes: Vec<u8>,
    from: usize,
    to: usize,
}

impl Clone for Slice {
    fn clone(&self) -> Self {
        let mut copy = Slice::default();
        copy.clone_from(self);
        copy
    }

    /// A run copies memory for every call; this one keeps what is allocated.
    fn clone_from(&mut self, other: &Self) {
        self.bytes.clone_from(&other.bytes);
        self.from = other.from;
        self.to = other.to;
    }
}

impl Slice {
    pub fn new(random: &mut Random, content: &[u8]) -> Self {
        let mut slice = Slice::default();
        slice.replace(random, content);
        slice
    }

    pub fn random(random: &mut Random, length: usize) -> Self {
        let content = random.bytes(length);
        Slice::new(random, &content)
    }

    /// Another content, between margins of other lengths.
    pub fn replace(&mut self, random: &mut Random, content: &[u8]) {
        self.from = random.below(MOST_MARGIN);
        self.to = self.from + content.len();
        self.bytes.resize(self.to + random.below(MOST_MARGIN), 0);
        random.fill(&mut self.bytes[..self.from]);
        random.fill(&mut self.bytes[self.to..]);
        self.bytes[self.from..self.to].copy_from_slice(content);
    }

    /// As many bytes as are asked for: the front of the slice, or the slice and random bytes behind it.
    pub fn set_length(&mut self, random: &mut Random, length: usize) {
        let mut content = self.get().to_vec();
        let kept = content.len().min(length);
        content.resize(length, 0);
        random.fill(&mut content[kept..]);
        self.replace(random, &content);
    }

    pub fn get(&self) -> &[u8] {
        &self.bytes[self.from..self.to]
    }

    pub fn get_mut(&mut self) -> &mut [u8] {
        &mut self.bytes[self.from..self.to]
    }

    /// The margin behind the slice.
    pub fn behind_mut(&mut self) -> &mut [u8] {
        &mut self.bytes[self.to..]
    }

    /// The slice ends after so many bytes, which are there; what was behind that becomes a part of the margin.
    pub fn set_end(&mut self, length: usize) {
        self.to = self.from + length;
    }

    pub fn len(&self) -> usize {
        self.to - self.from
    }

    pub fn is_empty(&self) -> bool {
        self.len() == 0
    }

    /// How many whole 32-bit numbers the slice has.
    pub fn numbers(&self) -> usize {
        self.len() / 4
    }

    pub fn number(&self, index: usize) -> u32 {
        let bytes = &self.get()[4 * index..4 * index + 4];
        u32::from_le_bytes([bytes[0], bytes[1], bytes[2], bytes[3]])
    }

    pub fn set_number(&mut self, index: usize, number: u32) {
        self.get_mut()[4 * index..4 * index + 4].copy_from_slice(&number.to_le_bytes());
    }

    /// Where the first byte that differs is, counted from the beginning of the slice, and what both have there. A
    /// place below 0, or from the length on, is in a margin.
    pub fn first_difference(&self, other: &Self) -> Option<(isize, u8, u8)> {
        if self.bytes == other.bytes {
            return None;
        }
        let pairs = self.bytes.iter().zip(&other.bytes);
        let (at, (&mine, &theirs)) = pairs
            .enumerate()
            .find(|(_, (mine, theirs))| mine != theirs)?;
        Some((at as isize - self.from as isize, mine, theirs))
    }
}

/// A field of a state, 0 where the state is too short to have it.
pub fn field_of(state: &Slice, field: Field) -> u32 {
    if (field as usize) < state.numbers() {
        state.number(field as usize)
    } else {
        0
    }
}

#[derive(Debug, Default, PartialEq, Eq)]
pub struct Slices {
    pub state: Slice,
    pub first: Slice,
    pub second: Slice,
    pub entries: Slice,
    pub list: Slice,
    pub answer: Slice,
}

impl Clone for Slices {
    fn clone(&self) -> Self {
        let mut copy = Slices::default();
        copy.clone_from(self);
        copy
    }

    fn clone_from(&mut self, other: &Self) {
        for (mine, theirs) in self.all_mut().into_iter().zip(other.all()) {
            mine.clone_from(theirs.1);
        }
    }
}

impl Slices {
    /// A store as bytes, with an answer of random bytes and no list.
    pub fn of_store(random: &mut Random, store: &Store) -> Self {
        let mut slices = Slices {
            state: numbers_as_slice(random, &fields(&store.state)),
            first: numbers_as_slice(random, &store.first),
            second: numbers_as_slice(random, &store.second),
            entries: numbers_as_slice(random, &store.entries),
            list: Slice::default(),
            answer: Slice::default(),
        };
        slices.answer = Slice::random(random, ANSWER_BYTES);
        slices
    }

    pub fn all(&self) -> [(&'static str, &Slice); 6] {
        [
            ("state", &self.state),
            ("first", &self.first),
            ("second", &self.second),
            ("entries", &self.entries),
            ("list", &self.list),
            ("answer", &self.answer),
        ]
    }

    fn all_mut(&mut self) -> [&mut Slice; 6] {
        [
            &mut self.state,
            &mut self.first,
            &mut self.second,
            &mut self.entries,
            &mut self.list,
            &mut self.answer,
        ]
    }

    pub fn field(&self, field: Field) -> u32 {
        field_of(&self.state, field)
    }

    pub fn set_field(&mut self, field: Field, number: u32) {
        if (field as usize) < self.state.numbers() {
            self.state.set_number(field as usize, number);
        }
    }

    /// How many entries of the capacity lie in the entry buffer.
    pub fn entries_there(&self) -> u32 {
        let room = self.entries.numbers() / 3;
        self.field(Field::Capacity).min(room as u32)
    }

    /// An entry's numbers: its link, its key, its value. Entries are counted from 1.
    pub fn entry(&self, number: u32) -> [u32; 3] {
        let at = 3 * (number as usize - 1);
        [0, 1, 2].map(|part| self.entries.number(at + part))
    }

    pub fn set_link(&mut self, number: u32, link: u32) {
        self.entries.set_number(3 * (number as usize - 1), link);
    }

    pub fn set_key(&mut self, number: u32, key: u32) {
        self.entries.set_number(3 * (number as usize - 1) + 1, key);
    }

    pub fn buffer(&self, table: Table) -> &Slice {
        match (table, self.field(Field::SecondIsCurrent)) {
            (Table::Old, 0) | (Table::New, 1..) => &self.first,
            (Table::Old, 1..) | (Table::New, 0) => &self.second,
        }
    }

    pub fn buffer_mut(&mut self, table: Table) -> &mut Slice {
        match (table, self.field(Field::SecondIsCurrent)) {
            (Table::Old, 0) | (Table::New, 1..) => &mut self.first,
            (Table::Old, 1..) | (Table::New, 0) => &mut self.second,
        }
    }

    /// How many buckets of a table lie in its buffer.
    pub fn buckets_there(&self, table: Table) -> u32 {
        let size = match table {
            Table::Old => self.field(Field::OldSize),
            Table::New => self.field(Field::NewSize),
        };
        size.min(self.buffer(table).numbers() as u32)
    }
}

fn numbers_as_slice(random: &mut Random, numbers: &[u32]) -> Slice {
    let bytes: Vec<u8> = numbers
        .iter()
        .flat_map(|number| number.to_le_bytes())
        .collect();
    Slice::new(random, &bytes)
}
