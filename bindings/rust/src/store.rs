//! The store, and its calls.

use std::fmt;
use std::iter::FusedIterator;

use crate::bytes::{self, Answer};
use crate::list::one_by_one;
use crate::memory::{BUCKET, ENTRY};
use crate::raw::{self, MAX_BUCKET_BYTES, MAX_ENTRY_BYTES};
use crate::{CarefulPass, Cell, Error, Memory, Suspect, Walk};

/// A store of suspect cells, each with its count of fails.
///
/// It owns its memory, and every call is one export over it. A call that only reads takes
/// `&Store`, one that writes `&mut Store`; so Rust's own rule for references is the store's rule
/// for calls at the same time. A store may be sent to other threads, and read by many at once.
///
/// The table grows by itself, behind an [`add`](Store::add) that leaves as many keys as it has
/// buckets. Its keys then move to the new table a bucket at a time, with each add and each
/// [`delete`](Store::delete), and with each [`rehash_step`](Store::rehash_step). Nothing shrinks
/// it but a [`resize`](Store::resize).
///
/// ```
/// use suspects::{Cell, Error, Store};
///
/// let mut store = Store::new(8, 4)?;
/// let cell = Cell::new(1, 5);
/// store.add(cell, 3)?;
/// store.update(cell, 4)?;
/// assert_eq!(store.find(cell), Ok(4));
/// assert_eq!(store.add(cell, 1), Err(Error::Present));
/// store.delete(cell)?;
/// assert_eq!(store.find(cell), Err(Error::Absent));
/// # Ok::<(), Error>(())
/// ```
///
/// # Errors of every call
///
/// Two errors are for memory that something else has written ([`Store::from_memory`]): every call
/// may answer [`Error::BadState`], and every call that reads a chain [`Error::Damaged`]. So each
/// call below names its other errors. The order of all is in the specification, "Answers".
///
/// Calls alone, behind a start, should lead to neither, but for a further start in too little
/// memory. This is what is proved of it:
///
/// - Each export answers, and leaves the memory, as the plain call below it does on the same
///   numbers.
/// - In a sequence of plain calls behind a start none answers 2, and none answers 1 but such a
///   further start.
///
/// It is not stated as a theorem yet that the two join: that in a sequence of exports each one
/// reads the numbers that the one before it left (`docs/DECISIONS.md`, "Numbers that are read and
/// written again"). The tests of this crate, and `tests/exports`, run such sequences.
#[derive(Clone)]
pub struct Store {
    memory: Memory,
}

/// What a [`rehash_step`](Store::rehash_step) has done.
#[derive(Clone, Copy, Debug, PartialEq, Eq)]
pub struct Step {
    /// How many keys it has moved: those of one bucket, or none if it only passed empty ones.
    pub moved: u32,
    /// Whether the move goes on. If not, the new table is the only one now.
    pub moving: bool,
}

/// The fields of a state that are read here, by their index.
enum Field {
    OldSize = 1,
    NewSize = 2,
    OldUsed = 3,
    NewUsed = 4,
    Rehashing = 5,
    Capacity = 8,
    ResizeAllowed = 9,
    SafeIterators = 10,
}

/// Makes the call of an export over a memory, borrowed as the export needs it, and over the call's
/// own numbers.
macro_rules! call {
    ($export:ident($memory:expr $(, $number:expr)*)) => {{
        let Memory { state, first, second, entries } = $memory;
        Answer::of(|answer| raw::$export(state, first, second, entries, answer $(, $number)*))
    }};
}

impl Store {
    /// The most cells that a store over bytes can hold: 4,096.
    pub const MAX_CAPACITY: u32 = (MAX_ENTRY_BYTES / ENTRY) as u32;

    /// The most buckets that a table over bytes can have: 4,096.
    pub const MAX_SIZE: u32 = (MAX_BUCKET_BYTES / BUCKET) as u32;

    /// An empty store for so many cells, with a table of so many buckets, at first.
    ///
    /// The buckets are a power of two. Both are at most 4,096, and the table can grow up to that
    /// by itself or by a [`resize`](Store::resize). The buffers have room for that, and each call
    /// copies them. For a store whose table is to stay smaller, and whose calls are quicker, see
    /// [`Memory::zeroed`].
    ///
    /// ```
    /// use suspects::{Error, Store};
    ///
    /// let store = Store::new(8, 4)?;
    /// assert_eq!((store.len(), store.capacity(), store.size()), (0, 8, 4));
    /// assert_eq!(Store::new(8, 3).err(), Some(Error::BadSize));
    /// # Ok::<(), Error>(())
    /// ```
    ///
    /// # Errors
    ///
    /// - [`Error::BadSize`]: the capacity or the size is 0 or more than 65,536, or the size is not
    ///   a power of two.
    /// - [`Error::BadState`]: one of them is more than 4,096, which is within the store's own
    ///   limits, but more than the exports take.
    pub fn new(capacity: u32, size: u32) -> Result<Store, Error> {
        let mut store = Store::from_memory(Memory::zeroed(capacity, Store::MAX_SIZE));
        store.init(capacity, size)?;
        Ok(store)
    }

    /// A store in memory that came from elsewhere, which may be damaged.
    ///
    /// All calls on it are safe, and each answers as the specification says, for any bytes.
    pub fn from_memory(memory: Memory) -> Store {
        Store { memory }
    }

    /// The store's bytes.
    pub fn memory(&self) -> &Memory {
        &self.memory
    }

    /// The store's bytes, to be kept or changed.
    pub fn into_memory(self) -> Memory {
        self.memory
    }

    /// Start: makes the store anew in the memory that it has, empty.
    ///
    /// No careful pass is under way then, and growth is allowed. If the call is refused, the store
    /// is what it was.
    ///
    /// # Errors
    ///
    /// - [`Error::BadState`]: a buffer has a length that the exports do not take, as it may in
    ///   memory from elsewhere.
    /// - [`Error::BadSize`], as [`Store::new`] has it.
    /// - [`Error::BadState`] again: the store's memory has too little room.
    pub fn init(&mut self, capacity: u32, size: u32) -> Result<(), Error> {
        call!(init(&mut self.memory, capacity, size)).map(drop)
    }

    /// The fail count of a cell.
    ///
    /// # Errors
    ///
    /// [`Error::Absent`]: the cell is not held.
    pub fn find(&self, cell: impl Into<Cell>) -> Result<u32, Error> {
        let key = cell.into().key();
        Ok(call!(find(&self.memory, key))?.first())
    }

    /// Change: gives a cell that is held another fail count.
    ///
    /// # Errors
    ///
    /// [`Error::Absent`]: the cell is not held.
    pub fn update(&mut self, cell: impl Into<Cell>, fails: u32) -> Result<(), Error> {
        let key = cell.into().key();
        call!(update(&mut self.memory, key, fails)).map(drop)
    }

    /// Adds a cell that is not held.
    ///
    /// During a move it takes a step first, unless a careful pass is under way. Behind it the
    /// table may begin to grow.
    ///
    /// # Errors
    ///
    /// - [`Error::Present`]: the cell is held.
    /// - [`Error::Full`]: the store holds as many cells as its capacity.
    pub fn add(&mut self, cell: impl Into<Cell>, fails: u32) -> Result<(), Error> {
        let key = cell.into().key();
        call!(add(&mut self.memory, key, fails)).map(drop)
    }

    /// Removes a cell.
    ///
    /// During a move it takes a step first, unless a careful pass is under way.
    ///
    /// # Errors
    ///
    /// [`Error::Absent`]: the cell is not held.
    pub fn delete(&mut self, cell: impl Into<Cell>) -> Result<(), Error> {
        let key = cell.into().key();
        call!(delete(&mut self.memory, key)).map(drop)
    }

    /// Begins a move of all keys to a table of another size, larger or smaller.
    ///
    /// Nothing has moved yet. Each [`rehash_step`](Store::rehash_step), each add and each delete
    /// then moves a bucket.
    ///
    /// ```
    /// use suspects::{Step, Store};
    ///
    /// let mut store = Store::new(8, 4)?;
    /// for position in [1, 5, 9] {
    ///     store.add(position, 10)?;
    /// }
    /// store.resize(8)?;
    /// assert_eq!((store.size(), store.new_size()), (4, Some(8)));
    /// assert_eq!(store.rehash_step()?, Step { moved: 3, moving: false });
    /// assert_eq!((store.size(), store.new_size()), (8, None));
    /// # Ok::<(), suspects::Error>(())
    /// ```
    ///
    /// # Errors
    ///
    /// - [`Error::Moving`]: a move is under way already.
    /// - [`Error::BadSize`]: the size is not a power of two from 1 to 65,536, or it is the present
    ///   one, or more than the store's memory has room for.
    pub fn resize(&mut self, size: u32) -> Result<(), Error> {
        call!(resize(&mut self.memory, size)).map(drop)
    }

    /// Step: moves the keys of one bucket to the new table, or passes up to ten empty buckets.
    ///
    /// # Errors
    ///
    /// - [`Error::NotMoving`]: no move is under way.
    /// - [`Error::Paused`]: one is, but a careful pass is too.
    pub fn rehash_step(&mut self) -> Result<Step, Error> {
        let answer = call!(rehash_step(&mut self.memory))?;
        Ok(Step { moved: answer.first(), moving: answer.second() != 0 })
    }

    /// A size that suits the number of keys held: to grow to, or to shrink to.
    ///
    /// It is the least power of two that is at least twice the keys held, or at least the keys
    /// held; but at least 4, and at most 65,536. It begins no move.
    ///
    /// ```
    /// # use suspects::Store;
    /// let mut store = Store::new(8, 8)?;
    /// for position in 0..5 {
    ///     store.add(position, 1)?;
    /// }
    /// assert_eq!(store.suggested_size(true)?, 16);
    /// assert_eq!(store.suggested_size(false)?, 8);
    /// # Ok::<(), suspects::Error>(())
    /// ```
    ///
    /// # Errors
    ///
    /// [`Error::BadState`] alone.
    pub fn suggested_size(&self, growing: bool) -> Result<u32, Error> {
        Ok(call!(suggested_size(&self.memory, growing.into()))?.first())
    }

    /// Says whether the table may grow as soon as it holds as many keys as it has buckets. It may
    /// at first. If not, it still grows beyond five keys for each bucket.
    ///
    /// # Errors
    ///
    /// [`Error::BadState`] alone.
    pub fn allow_resize(&mut self, allowed: bool) -> Result<(), Error> {
        call!(allow_resize(&mut self.memory, allowed.into())).map(drop)
    }

    /// Walks through the whole store, which cannot change meanwhile: each cell comes exactly once,
    /// with its fail count.
    ///
    /// A [`Walk`](crate::Walk) is for a store that does change between two calls of it.
    ///
    /// ```
    /// use std::collections::BTreeMap;
    /// use suspects::{Cell, Error, Store};
    ///
    /// let mut store = Store::new(8, 4)?;
    /// store.add(Cell::new(1, 5), 3)?;
    /// store.add(Cell::new(0, 2), 10)?;
    ///
    /// let held = store.walk().collect::<Result<BTreeMap<_, _>, _>>()?;
    /// assert!(held.into_iter().eq([(Cell::new(0, 2), 10), (Cell::new(1, 5), 3)]));
    /// # Ok::<(), Error>(())
    /// ```
    ///
    /// An item is an error where a call is refused, with [`Error::BadState`] or [`Error::Damaged`].
    /// It is the last one then.
    pub fn walk(&self) -> impl FusedIterator<Item = Result<Suspect, Error>> + '_ {
        let mut walk = Walk::new();
        one_by_one(move || Ok(walk.next(self)?.map(<[_]>::to_vec)))
    }

    /// Goes through the store by a careful pass, which has ended when this call returns, or when
    /// the visitor panics.
    ///
    /// The visitor gets the cells of one bucket after the other, and the store, to change it as it
    /// likes. Each cell that is held all the time comes exactly once. The cells of a bucket are
    /// those that it had before the visitor changed any.
    ///
    /// A [`CarefulPass`] is for one whose calls do not follow at once.
    ///
    /// ```
    /// use suspects::{Error, Store};
    ///
    /// let mut store = Store::new(8, 4)?;
    /// for position in 0..6 {
    ///     store.add(position, 10 * position)?;
    /// }
    /// store.careful_pass(|store, bucket| {
    ///     for &(cell, fails) in bucket {
    ///         if fails < 30 {
    ///             store.delete(cell)?;
    ///         }
    ///     }
    ///     Ok(())
    /// })?;
    /// assert_eq!(store.len(), 3);
    /// # Ok::<(), Error>(())
    /// ```
    ///
    /// # Errors
    ///
    /// - [`Error::TooManyCarefulPasses`]: 255 are under way.
    /// - The visitor's, which ends the pass.
    /// - [`Error::NoCarefulPass`]: the visitor has ended this one, as a start does.
    pub fn careful_pass(
        &mut self,
        mut visit: impl FnMut(&mut Store, &[Suspect]) -> Result<(), Error>,
    ) -> Result<(), Error> {
        let mut pass = CarefulPass::begin(self)?;
        let paused = Paused(self);
        while let Some(bucket) = pass.next(paused.0)? {
            visit(paused.0, bucket)?;
        }
        paused.end()
    }

    /// How many keys are held.
    pub fn len(&self) -> u32 {
        self.field(Field::OldUsed).saturating_add(self.field(Field::NewUsed))
    }

    /// Whether no key is held.
    pub fn is_empty(&self) -> bool {
        self.len() == 0
    }

    /// How many keys the store has room for.
    pub fn capacity(&self) -> u32 {
        self.field(Field::Capacity)
    }

    /// The size of the table: during a move, of the old one.
    pub fn size(&self) -> u32 {
        self.field(Field::OldSize)
    }

    /// The size of the new table, during a move.
    pub fn new_size(&self) -> Option<u32> {
        self.is_rehashing().then(|| self.field(Field::NewSize))
    }

    /// Whether a move is under way.
    pub fn is_rehashing(&self) -> bool {
        self.field(Field::Rehashing) != 0
    }

    /// Whether the table may grow as soon as it holds as many keys as it has buckets.
    pub fn is_resize_allowed(&self) -> bool {
        self.field(Field::ResizeAllowed) != 0
    }

    /// The pause count: how many careful passes are under way. While it is above 0 no key moves.
    pub fn careful_passes(&self) -> u32 {
        self.field(Field::SafeIterators)
    }

    pub(crate) fn begin_iterator(&self) -> Result<u64, Error> {
        Ok(call!(begin_iterator(&self.memory))?.fingerprint())
    }

    pub(crate) fn end_iterator(&self, fingerprint: u64) -> Result<(), Error> {
        call!(end_iterator(&self.memory, fingerprint)).map(drop)
    }

    pub(crate) fn begin_safe(&mut self) -> Result<(), Error> {
        call!(begin_safe(&mut self.memory)).map(drop)
    }

    pub(crate) fn end_safe(&mut self) -> Result<(), Error> {
        call!(end_safe(&mut self.memory)).map(drop)
    }

    fn field(&self, field: Field) -> u32 {
        bytes::number(&self.memory.state, field as usize)
    }
}

/// Says what the state says, and leaves out the buffers, which are long.
impl fmt::Debug for Store {
    fn fmt(&self, f: &mut fmt::Formatter<'_>) -> fmt::Result {
        f.debug_struct("Store")
            .field("len", &self.len())
            .field("capacity", &self.capacity())
            .field("size", &self.size())
            .field("new_size", &self.new_size())
            .field("resize_allowed", &self.is_resize_allowed())
            .field("careful_passes", &self.careful_passes())
            .finish_non_exhaustive()
    }
}

/// A store with a careful pass under way, which ends when this is dropped: on an early return, and
/// on a panic.
struct Paused<'a>(&'a mut Store);

impl Paused<'_> {
    fn end(self) -> Result<(), Error> {
        let ended = self.0.end_safe();
        std::mem::forget(self);
        ended
    }
}

impl Drop for Paused<'_> {
    fn drop(&mut self) {
        // What made the caller leave is what it will hear of. A refusal here is of no more use to
        // it: there is no pass left to end.
        let _ = self.0.end_safe();
    }
}
