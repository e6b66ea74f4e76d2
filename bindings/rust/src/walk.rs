//! Walks.

use std::iter::FusedIterator;

use crate::list::{List, one_by_one};
use crate::raw;
use crate::{Error, Store, Suspect};

/// A walk through a store that may change between two calls of it.
///
/// Each [`next`](Walk::next) is one walk call: it hands out the cells of a few buckets, with their
/// fail counts. The walk borrows nothing, and the store keeps nothing about it. Cells may be added
/// and deleted meanwhile, and the table may grow, move and shrink. It is proved of the plain calls
/// below the exports that
///
/// - every cell that is held at each call of a walk comes, by the time that the walk has ended;
/// - none comes twice as long as the table does not shrink; more exactly, as long as the smaller
///   live table is at no call smaller than at the call before;
/// - a walk ends within as many answered calls as the largest size that the smaller live table had
///   at any of them.
///
/// ```
/// use suspects::{Error, Store, Walk};
///
/// let mut store = Store::new(64, 4)?;
/// for position in 0..3 {
///     store.add(position, 1)?;
/// }
/// let mut handed_out = Vec::new();
/// let mut late = 100..110;
/// let mut walk = Walk::new();
/// while let Some(group) = walk.next(&store)? {
///     handed_out.extend(group.iter().map(|(cell, _)| cell.position));
///     if let Some(position) = late.next() {
///         store.add(position, 1)?;
///     }
/// }
/// // The three that were held throughout have come, each once, though the table has grown.
/// handed_out.retain(|&position| position < 3);
/// handed_out.sort();
/// assert_eq!(handed_out, [0, 1, 2]);
/// # Ok::<(), Error>(())
/// ```
///
/// How far a walk has come is in its cursor alone. It can be kept elsewhere, by
/// [`cursor`](Walk::cursor), and the walk gone on with by [`from_cursor`](Walk::from_cursor).
///
/// For a store that does not change, [`Store::walk`] is simpler.
#[derive(Clone, Debug)]
pub struct Walk {
    /// The cursor to be given next, as long as the walk has not ended.
    cursor: Option<u32>,
    list: List,
}

impl Walk {
    /// A walk that begins, at cursor 0.
    pub fn new() -> Walk {
        Walk::from_cursor(0)
    }

    /// A walk that goes on at a cursor. Any number will do, and none is refused.
    pub fn from_cursor(cursor: u32) -> Walk {
        Walk { cursor: Some(cursor), list: List::default() }
    }

    /// The cursor for the next call, or `None` once the walk has ended.
    pub fn cursor(&self) -> Option<u32> {
        self.cursor
    }

    /// Hands out the next cells, each with its fail count: all those of the next group of buckets,
    /// which may be none. `None` says that the walk has ended.
    ///
    /// # Errors
    ///
    /// [`Error::BadState`] and [`Error::Damaged`], which are for memory that something else has
    /// written ([`Store`]). The walk stays where it was, and may be tried again.
    pub fn next(&mut self, store: &Store) -> Result<Option<&[Suspect]>, Error> {
        let Some(cursor) = self.cursor else {
            return Ok(None);
        };
        let next = self.list.fill(store, raw::scan, cursor)?;
        self.cursor = (next != 0).then_some(next);
        Ok(Some(self.list.suspects()))
    }

    /// The cells that the walk has yet to hand out, one by one, while the store is borrowed.
    ///
    /// An item is an error where a call is refused, with [`Error::BadState`] or [`Error::Damaged`].
    /// It is the last one then.
    pub fn suspects<'a>(
        &'a mut self,
        store: &'a Store,
    ) -> impl FusedIterator<Item = Result<Suspect, Error>> + 'a {
        one_by_one(|| Ok(self.next(store)?.map(<[_]>::to_vec)))
    }
}

impl Default for Walk {
    fn default() -> Walk {
        Walk::new()
    }
}
