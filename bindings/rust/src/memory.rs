//! The bytes of a store.

use crate::Store;
use crate::raw::STATE_BYTES;

/// The bytes of a store: its state, and the three buffers that it is lent.
///
/// How they lie is in `docs/SPECIFICATION.md`, "Calls over bytes". Nothing need be true of them:
/// a store that is given other bytes, copied, read from a file or damaged, answers all its calls.
/// (For bytes that the store is not to own there are the functions of [`raw`](crate::raw).)
///
/// ```
/// use suspects::{Error, Memory, Store};
///
/// let mut store = Store::new(8, 4)?;
/// store.add(8, 40)?;
///
/// // Bucket 0 leads to the first entry, and now that one leads back to itself.
/// let mut memory = store.into_memory();
/// memory.entries[..4].copy_from_slice(&1u32.to_le_bytes());
///
/// let store = Store::from_memory(memory);
/// assert_eq!(store.find(8), Err(Error::Damaged));
/// assert_eq!(store.find(9), Err(Error::Absent), "bucket 1 is as it was");
/// # Ok::<(), Error>(())
/// ```
#[derive(Clone, Debug, PartialEq, Eq)]
pub struct Memory {
    /// The state: eleven 32-bit numbers.
    pub state: [u8; STATE_BYTES],
    /// The first bucket buffer: a 32-bit number for each bucket.
    pub first: Vec<u8>,
    /// The second bucket buffer, the same.
    pub second: Vec<u8>,
    /// The entry buffer: three 32-bit numbers for each entry.
    pub entries: Vec<u8>,
}

impl Memory {
    /// Zeros, with room for so many entries, and for tables of up to so many buckets: each at most
    /// 4,096, since the exports take no longer buffers.
    ///
    /// With a state of zeros this is no store yet. [`Store::init`] makes one in it. The shorter the
    /// buffers, the quicker its calls.
    ///
    /// ```
    /// use suspects::{Error, Memory, Store};
    ///
    /// // A store for 100 cells whose tables never have more than 64 buckets.
    /// let mut store = Store::from_memory(Memory::zeroed(100, 64));
    /// assert_eq!(store.find(8), Err(Error::BadState));
    /// store.init(100, 4)?;
    /// assert_eq!(store.resize(128), Err(Error::BadSize));
    /// # Ok::<(), Error>(())
    /// ```
    pub fn zeroed(entries: u32, buckets: u32) -> Memory {
        let entries = entries.min(Store::MAX_CAPACITY) as usize;
        let buckets = buckets.min(Store::MAX_SIZE) as usize;
        Memory {
            state: [0; STATE_BYTES],
            first: vec![0; BUCKET * buckets],
            second: vec![0; BUCKET * buckets],
            entries: vec![0; ENTRY * entries],
        }
    }
}

/// The bytes of a bucket.
pub(crate) const BUCKET: usize = 4;

/// The bytes of an entry.
pub(crate) const ENTRY: usize = 12;
