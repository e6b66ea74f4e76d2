//! Plain passes and careful ones.

use std::iter::FusedIterator;

use crate::list::{List, one_by_one};
use crate::raw;
use crate::{Error, Store, Suspect};

/// How far a pass has come, and what it has handed out last.
#[derive(Clone, Debug)]
struct Pass {
    place: u32,
    list: List,
}

impl Pass {
    fn at(place: u32) -> Pass {
        Pass { place, list: List::default() }
    }

    fn next(&mut self, store: &Store) -> Result<Option<&[Suspect]>, Error> {
        self.place = self.list.fill(store, raw::iterate, self.place)?;
        // A filled bucket has a key. So no keys say that no filled bucket was left.
        let bucket = self.list.suspects();
        Ok((!bucket.is_empty()).then_some(bucket))
    }

    fn suspects<'a>(
        &'a mut self,
        store: &'a Store,
    ) -> impl FusedIterator<Item = Result<Suspect, Error>> + 'a {
        one_by_one(|| Ok(self.next(store)?.map(<[_]>::to_vec)))
    }
}

/// A pass through a store that should not change meanwhile. Its end is a check on that.
///
/// Each [`next`](PlainPass::next) is one pass call: it hands out the cells of the next filled
/// bucket, with their fail counts. If no other call between begin and end has changed the store,
/// each cell comes exactly once.
///
/// The pass does not borrow the store, so that it may be left lying for as long as one likes. Its
/// [`end`](PlainPass::end) compares the store's fingerprint with that of the begin. If the two
/// differ, the store has changed. If they do not, that proves little: `docs/PASSES.md`, "What the
/// end of a plain pass says". A [`Store::walk`] holds the store by a borrow, and needs no check.
///
/// ```
/// use suspects::{Error, PlainPass, Store};
///
/// let mut store = Store::new(8, 4)?;
/// store.add(8, 40)?;
///
/// let mut pass = PlainPass::begin(&store)?;
/// let mut fails = 0;
/// while let Some(bucket) = pass.next(&store)? {
///     fails += bucket.iter().map(|(_, fails)| fails).sum::<u32>();
/// }
/// assert_eq!((fails, pass.end(&store)), (40, Ok(())));
///
/// let pass = PlainPass::begin(&store)?;
/// store.add(9, 1)?;
/// assert_eq!(pass.end(&store), Err(Error::Changed));
/// # Ok::<(), Error>(())
/// ```
///
/// A pass that is dropped without its end leaves nothing behind.
#[derive(Clone, Debug)]
pub struct PlainPass {
    pass: Pass,
    fingerprint: u64,
}

impl PlainPass {
    /// Begins a pass, at place 0, with the store's fingerprint.
    ///
    /// # Errors
    ///
    /// [`Error::BadState`] alone.
    pub fn begin(store: &Store) -> Result<PlainPass, Error> {
        Ok(PlainPass::resume(0, store.begin_iterator()?))
    }

    /// A pass that goes on at a place, with the fingerprint of its begin. Any numbers will do.
    pub fn resume(place: u32, fingerprint: u64) -> PlainPass {
        PlainPass { pass: Pass::at(place), fingerprint }
    }

    /// The place for the next call.
    pub fn place(&self) -> u32 {
        self.pass.place
    }

    /// The store's fingerprint at the begin.
    pub fn fingerprint(&self) -> u64 {
        self.fingerprint
    }

    /// Hands out the cells of the next filled bucket, each with its fail count. `None` says that
    /// there is none: the pass has come to the end.
    ///
    /// # Errors
    ///
    /// [`Error::BadState`] and [`Error::Damaged`], which are for memory that something else has
    /// written ([`Store`]). The pass stays where it was, and may be tried again.
    pub fn next(&mut self, store: &Store) -> Result<Option<&[Suspect]>, Error> {
        self.pass.next(store)
    }

    /// The cells that the pass has yet to hand out, one by one, while the store is borrowed.
    ///
    /// ```
    /// # use suspects::{Error, PlainPass, Store};
    /// # let mut store = Store::new(8, 4)?;
    /// # store.add(8, 40)?;
    /// let mut pass = PlainPass::begin(&store)?;
    /// for suspect in pass.suspects(&store) {
    ///     let (cell, fails) = suspect?;
    ///     println!("{cell}: {fails}");
    /// }
    /// pass.end(&store)?;
    /// # Ok::<(), Error>(())
    /// ```
    ///
    /// An item is an error where a call is refused, with [`Error::BadState`] or [`Error::Damaged`].
    /// It is the last one then.
    pub fn suspects<'a>(
        &'a mut self,
        store: &'a Store,
    ) -> impl FusedIterator<Item = Result<Suspect, Error>> + 'a {
        self.pass.suspects(store)
    }

    /// Ends the pass, wherever it has come to.
    ///
    /// # Errors
    ///
    /// [`Error::Changed`]: the store has another fingerprint than at the begin.
    pub fn end(self, store: &Store) -> Result<(), Error> {
        store.end_iterator(self.fingerprint)
    }
}

/// A pass through a store that may change meanwhile, but in which no key moves until the pass is
/// ended.
///
/// Each [`next`](CarefulPass::next) is one pass call: it hands out the cells of the next filled
/// bucket, with their fail counts. Between two calls cells may be added and deleted, and a move may
/// begin, but it stands still. It is proved of the plain calls below the exports that every cell
/// that is held all the time comes exactly once, and that none comes twice unless it was deleted
/// and added again.
///
/// ```
/// use suspects::{CarefulPass, Error, Store};
///
/// let mut store = Store::new(8, 4)?;
/// for position in [1, 3, 6] {
///     store.add(position, 10)?;
/// }
/// let mut pass = CarefulPass::begin(&mut store)?;
/// assert_eq!(pass.next(&store)?.unwrap(), [(1.into(), 10)]);
///
/// // The table begins to grow, but nothing moves.
/// store.add(9, 10)?;
/// assert!(store.is_rehashing());
/// assert_eq!(store.rehash_step(), Err(Error::Paused));
///
/// assert_eq!(pass.next(&store)?.unwrap(), [(6.into(), 10)]);
/// assert_eq!(pass.next(&store)?.unwrap(), [(3.into(), 10)]);
/// assert_eq!(pass.next(&store)?, None);
/// pass.end(&mut store)?;
/// assert!(store.rehash_step()?.moving);
/// # Ok::<(), Error>(())
/// ```
///
/// # It must be ended
///
/// A careful pass that is dropped without its [`end`](CarefulPass::end) stays under way, since it
/// does not hold the store: no key moves any more, both tables stay in use, and chains become long.
/// The store answers rightly all the same. `CarefulPass::resume(0).end(&mut store)` ends a pass
/// that was lost, for the store counts its careful passes and does not tell them apart; and so one
/// end too many ends the pause of another pass.
///
/// [`Store::careful_pass`] ends its pass by itself.
#[derive(Debug)]
#[must_use = "no key moves in the store until the pass is ended by `end`"]
pub struct CarefulPass {
    pass: Pass,
}

impl CarefulPass {
    /// Begins a pass, at place 0. From now on no key moves in the store.
    ///
    /// # Errors
    ///
    /// [`Error::TooManyCarefulPasses`]: 255 are under way.
    pub fn begin(store: &mut Store) -> Result<CarefulPass, Error> {
        store.begin_safe()?;
        Ok(CarefulPass::resume(0))
    }

    /// A pass that has begun, and goes on at a place. Any number will do.
    pub fn resume(place: u32) -> CarefulPass {
        CarefulPass { pass: Pass::at(place) }
    }

    /// The place for the next call.
    pub fn place(&self) -> u32 {
        self.pass.place
    }

    /// Hands out the cells of the next filled bucket, each with its fail count. `None` says that
    /// there is none: the pass has come to the end. (If a move begins then, and cells are added to
    /// the new table, which lies behind that end, a further call hands these out.)
    ///
    /// # Errors
    ///
    /// [`Error::BadState`] and [`Error::Damaged`], which are for memory that something else has
    /// written ([`Store`]). The pass stays where it was, and may be tried again.
    pub fn next(&mut self, store: &Store) -> Result<Option<&[Suspect]>, Error> {
        self.pass.next(store)
    }

    /// The cells that the pass has yet to hand out, one by one, while the store is borrowed.
    ///
    /// ```
    /// # use suspects::{Error, CarefulPass, Store};
    /// # let mut store = Store::new(8, 4)?;
    /// # store.add(8, 40)?;
    /// let mut pass = CarefulPass::begin(&mut store)?;
    /// for suspect in pass.suspects(&store) {
    ///     let (cell, fails) = suspect?;
    ///     println!("{cell}: {fails}");
    /// }
    /// pass.end(&mut store)?;
    /// # Ok::<(), Error>(())
    /// ```
    ///
    /// An item is an error where a call is refused, with [`Error::BadState`] or [`Error::Damaged`].
    /// It is the last one then.
    pub fn suspects<'a>(
        &'a mut self,
        store: &'a Store,
    ) -> impl FusedIterator<Item = Result<Suspect, Error>> + 'a {
        self.pass.suspects(store)
    }

    /// Ends the pass, wherever it has come to. Unless another is under way, keys may move again.
    ///
    /// # Errors
    ///
    /// [`Error::NoCarefulPass`]: none is under way. The store was started anew, or as many ends as
    /// begins came before this one.
    pub fn end(self, store: &mut Store) -> Result<(), Error> {
        store.end_safe()
    }
}
