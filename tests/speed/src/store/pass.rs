//! Passes with a safe iterator: the calls that begin and end one, and the call
//! that hands out the next bucket, to an iterator of either kind.

use super::{Error, ScanError, Scanned, Store, Table, MOST_SAFE_ITERATORS};

impl Table<'_> {
    /// The first filled bucket from one on, with its head.
    fn first_filled(&self, from: u32) -> Option<(u32, u32)> {
        let mut bucket = from;
        while bucket < self.size {
            let head = self.buckets[bucket as usize];
            if head != 0 {
                return Some((bucket, head));
            }
            bucket += 1;
        }
        None
    }
}

impl Store<'_> {
    pub fn begin_safe(&mut self) -> Result<(), Error> {
        self.check_state()?;
        if self.state.safe_iterators == MOST_SAFE_ITERATORS {
            return Err(Error::TooManySafeIterators);
        }
        self.state.safe_iterators += 1;
        Ok(())
    }

    pub fn end_safe(&mut self) -> Result<(), Error> {
        self.check_state()?;
        if self.state.safe_iterators == 0 {
            return Err(Error::NoSafeIterator);
        }
        self.state.safe_iterators -= 1;
        Ok(())
    }

    /// The first filled bucket from a place on, to the front of `list`. The places
    /// are the old table's buckets and then, in a move, the new one's. With none
    /// left nothing is handed out, and the place behind the last bucket answered.
    pub fn iterate(&self, place: u32, list: &mut [u32]) -> Result<Scanned, ScanError> {
        self.check_state()?;
        let old = self.old_table();
        if let Some((bucket, head)) = old.first_filled(place) {
            return self.hand_out(old, head, bucket, list, || bucket + 1);
        }
        if !self.state.rehashing {
            let next = old.size;
            return Ok(Scanned { next, count: 0 });
        }
        let new = self.new_table();
        let from = place.saturating_sub(old.size);
        if let Some((bucket, head)) = new.first_filled(from) {
            return self.hand_out(new, head, bucket, list, || old.size + bucket + 1);
        }
        let next = old.size + new.size;
        Ok(Scanned { next, count: 0 })
    }
}
