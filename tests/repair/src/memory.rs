//! A store as the two calls are given it: the state, and three lent buffers in rooms that may be longer.

use std::fmt;

/// The rooms of the buffers, as many numbers as a record of the program has for each.
pub const BUCKET_ROOM: usize = 16;
pub const ENTRY_ROOM: usize = 48;

/// The most entries that have room.
pub const MOST_ENTRIES: u32 = (ENTRY_ROOM / 3) as u32;

pub const STATE_NUMBERS: usize = 11;

/// The state, with its fields in the order of the specification.
#[derive(Clone, Copy, Debug, Default, PartialEq, Eq)]
pub struct State {
    pub second_is_current: bool,
    pub old_size: u32,
    pub new_size: u32,
    pub old_used: u32,
    pub new_used: u32,
    pub rehashing: bool,
    pub rehash_index: u32,
    pub free_head: u32,
    pub capacity: u32,
    pub resize_allowed: bool,
    pub safe_iterators: u32,
}

pub const FIELDS: [&str; STATE_NUMBERS] = [
    "second_is_current",
    "old_size",
    "new_size",
    "old_used",
    "new_used",
    "rehashing",
    "rehash_index",
    "free_head",
    "capacity",
    "resize_allowed",
    "safe_iterators",
];

impl State {
    pub fn numbers(&self) -> [u32; STATE_NUMBERS] {
        [
            self.second_is_current.into(),
            self.old_size,
            self.new_size,
            self.old_used,
            self.new_used,
            self.rehashing.into(),
            self.rehash_index,
            self.free_head,
            self.capacity,
            self.resize_allowed.into(),
            self.safe_iterators,
        ]
    }

    pub fn size(&self, table: Table) -> u32 {
        match table {
            Table::Old => self.old_size,
            Table::New => self.new_size,
        }
    }

    pub fn used_mut(&mut self, table: Table) -> &mut u32 {
        match table {
            Table::Old => &mut self.old_used,
            Table::New => &mut self.new_used,
        }
    }
}

/// The only table counts as the old one.
#[derive(Clone, Copy, Debug, PartialEq, Eq)]
pub enum Table {
    Old,
    New,
}

/// How much of each room is lent.
#[derive(Clone, Copy, Debug, PartialEq, Eq)]
pub struct Lengths {
    pub first: usize,
    pub second: usize,
    pub entries: usize,
}

#[derive(Clone, Debug, PartialEq, Eq)]
pub struct Memory {
    pub state: State,
    pub lengths: Lengths,
    pub first: [u32; BUCKET_ROOM],
    pub second: [u32; BUCKET_ROOM],
    pub entries: [u32; ENTRY_ROOM],
}

/// An entry is three numbers: link, key, value. Entries are numbered from 1.
fn index(entry: u32) -> usize {
    3 * (entry as usize - 1)
}

/// A number that lies behind what a store needs, and must stay.
pub const BEHIND: u32 = 77;

impl Memory {
    /// All of the rooms is lent. Behind the buckets and the entries that are given lies `BEHIND`.
    pub fn lent(state: State, first: &[u32], second: &[u32], entries: &[[u32; 3]]) -> Memory {
        let mut memory = Memory {
            state,
            lengths: Lengths {
                first: BUCKET_ROOM,
                second: BUCKET_ROOM,
                entries: ENTRY_ROOM,
            },
            first: [BEHIND; BUCKET_ROOM],
            second: [BEHIND; BUCKET_ROOM],
            entries: [BEHIND; ENTRY_ROOM],
        };
        memory.first[..first.len()].copy_from_slice(first);
        memory.second[..second.len()].copy_from_slice(second);
        let entries = entries.concat();
        memory.entries[..entries.len()].copy_from_slice(&entries);
        memory
    }

    pub fn link(&self, entry: u32) -> u32 {
        self.entries[index(entry)]
    }

    pub fn key(&self, entry: u32) -> u32 {
        self.entries[index(entry) + 1]
    }

    pub fn value(&self, entry: u32) -> u32 {
        self.entries[index(entry) + 2]
    }

    pub fn set_link(&mut self, entry: u32, link: u32) {
        self.entries[index(entry)] = link;
    }

    pub fn set_key(&mut self, entry: u32, key: u32) {
        self.entries[index(entry) + 1] = key;
    }

    pub fn set_value(&mut self, entry: u32, value: u32) {
        self.entries[index(entry) + 2] = value;
    }

    /// The room of the buffer that a table lies in.
    pub fn buffer(&self, table: Table) -> &[u32; BUCKET_ROOM] {
        match self.is_in_second(table) {
            true => &self.second,
            false => &self.first,
        }
    }

    pub fn buffer_mut(&mut self, table: Table) -> &mut [u32; BUCKET_ROOM] {
        match self.is_in_second(table) {
            true => &mut self.second,
            false => &mut self.first,
        }
    }

    pub fn length(&self, table: Table) -> usize {
        match self.is_in_second(table) {
            true => self.lengths.second,
            false => self.lengths.first,
        }
    }

    pub fn length_mut(&mut self, table: Table) -> &mut usize {
        match self.is_in_second(table) {
            true => &mut self.lengths.second,
            false => &mut self.lengths.first,
        }
    }

    /// The old table lies in the current buffer, the new one in the other.
    fn is_in_second(&self, table: Table) -> bool {
        self.state.second_is_current == (table == Table::Old)
    }

    /// The live buckets in the order of the tables, each with its table and its place there. With no rehash the new table has
    /// size 0.
    pub fn buckets(&self) -> Vec<(Table, u32)> {
        [Table::Old, Table::New]
            .into_iter()
            .flat_map(|table| (0..self.state.size(table)).map(move |bucket| (table, bucket)))
            .collect()
    }

    pub fn head(&self, table: Table, bucket: u32) -> u32 {
        self.buffer(table)[bucket as usize]
    }

    pub fn set_head(&mut self, table: Table, bucket: u32, head: u32) {
        self.buffer_mut(table)[bucket as usize] = head;
    }

    /// The state and the rooms, in the order of a record.
    pub fn numbers(&self) -> Vec<u32> {
        let parts: [&[u32]; 4] = [
            &self.state.numbers(),
            &self.first,
            &self.second,
            &self.entries,
        ];
        parts.concat()
    }
}

/// In words, for a report: what is lent, and of the rooms only that.
impl fmt::Display for Memory {
    fn fmt(&self, out: &mut fmt::Formatter) -> fmt::Result {
        write!(out, "  state:")?;
        for (field, number) in FIELDS.iter().zip(self.state.numbers()) {
            write!(out, " {field} {number}")?;
        }
        let Lengths {
            first,
            second,
            entries,
        } = self.lengths;
        writeln!(out, "\n  first buffer:  {:?}", &self.first[..first])?;
        writeln!(out, "  second buffer: {:?}", &self.second[..second])?;
        write!(out, "  {entries} numbers of entries:")?;
        for (index, entry) in self.entries[..entries].chunks(3).enumerate() {
            write!(out, "\n    {}:", index + 1)?;
            for (name, number) in ["link", "key", "value"].iter().zip(entry) {
                write!(out, " {name} {number}")?;
            }
        }
        Ok(())
    }
}
