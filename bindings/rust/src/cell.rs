//! Cells, which are the store's keys, and suspects, which are its pairs.

use std::fmt;

/// A flip-flop, named by its scan chain and its position there: what the store has as a key.
///
/// Positions are counted from 0, and position 0 is the scan-out cell. Nothing here converts a
/// position that was counted from 1.
///
/// The store's own form of a key is one 32-bit number, scan chain * 65,536 + position, and every
/// 32-bit number is one. So a cell comes from a `u32` and goes back to it, and the calls of a
/// [`Store`](crate::Store) take either. Cells are ordered as these numbers are.
///
/// ```
/// use suspects::{Cell, Store};
///
/// let cell = Cell::new(1, 5);
/// assert_eq!(cell.key(), 65_541);
/// assert_eq!(Cell::from(65_541), cell);
///
/// let mut store = Store::new(8, 4)?;
/// store.add(cell, 3)?;
/// assert_eq!(store.find(65_541)?, 3);
/// # Ok::<(), suspects::Error>(())
/// ```
#[derive(Clone, Copy, Debug, PartialEq, Eq, PartialOrd, Ord, Hash)]
pub struct Cell {
    /// The scan chain.
    pub chain: u16,
    /// The position on the scan chain, from 0 at the scan-out cell.
    pub position: u16,
}

impl Cell {
    /// The cell at a position of a scan chain.
    pub const fn new(chain: u16, position: u16) -> Cell {
        Cell { chain, position }
    }

    /// The cell as one number: scan chain * 65,536 + position.
    pub const fn key(self) -> u32 {
        (self.chain as u32) << 16 | self.position as u32
    }
}

impl From<u32> for Cell {
    fn from(key: u32) -> Cell {
        Cell::new((key >> 16) as u16, key as u16)
    }
}

impl From<Cell> for u32 {
    fn from(cell: Cell) -> u32 {
        cell.key()
    }
}

impl fmt::Display for Cell {
    fn fmt(&self, f: &mut fmt::Formatter<'_>) -> fmt::Result {
        write!(f, "scan chain {}, position {}", self.chain, self.position)
    }
}

/// A suspect: a cell, and how often it has failed. This is what walks and passes hand out.
pub type Suspect = (Cell, u32);
