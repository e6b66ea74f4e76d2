//! Walk calls, and how a bucket is handed out.

use super::{start_of, Error, ScanError, Scanned, Store, Table, FIELDS};

/// The cursor after `cursor` in a table of `size` buckets, a power of two up to
/// 65,536: the bucket's number counted up in reverse, from its highest bit down.
/// Where that bit is 0 it becomes 1, and nothing is carried or reversed. Else half
/// a word is reversed, counted up and reversed back, its bits above the table's
/// set to one so that the carry runs through them.
///
/// It reverses, as the proved one does by the table of bytes that the customer
/// asked for. The highest 0 bit gives the same with no reversal (`ilog2`); a store
/// that leaves the form so far has a quicker walk call (docs/changes/cr14.md).
pub(super) fn next_cursor(cursor: u32, size: u32) -> u32 {
    let top = size / 2;
    let bucket = cursor & (size - 1);
    if bucket < top {
        return bucket + top;
    }
    let filled = (cursor | !(size - 1)) as u16;
    u32::from(filled.reverse_bits().wrapping_add(1).reverse_bits())
}

impl Store<'_> {
    /// One walk call. The pairs go to the front of `list`.
    pub fn scan(&self, cursor: u32, list: &mut [u32]) -> Result<Scanned, ScanError> {
        self.check_state()?;
        let state = &self.state;
        if state.old_used + state.new_used == 0 {
            return Ok(Scanned { next: 0, count: 0 });
        }
        let old = self.old_table();
        if !state.rehashing {
            let head = old.head(cursor);
            return self.hand_out(old, head, cursor, list, || next_cursor(cursor, old.size));
        }
        let new = self.new_table();
        let (small, large) = if old.size < new.size {
            (old, new)
        } else {
            (new, old)
        };
        let count = self.hand_out_group(small, large, cursor, list)?;
        Ok(Scanned {
            next: next_cursor(cursor, small.size),
            count,
        })
    }

    /// The bucket of `hash`, whole, whose head is known. The caller says what comes
    /// next, a cursor or a place: before the list is written, so that a processor can
    /// go on to the next bucket meanwhile.
    pub(super) fn hand_out(
        &self,
        table: Table,
        head: u32,
        hash: u32,
        list: &mut [u32],
        next: impl FnOnce() -> u32,
    ) -> Result<Scanned, ScanError> {
        let count = self.chain_length(table, head, hash, table.used)?;
        let Some(room) = list.get_mut(..count as usize * 2) else {
            return Err(ScanError::Short(count));
        };
        let next = next();
        self.fill_room(head, room);
        Ok(Scanned { next, count })
    }

    /// The group of a cursor, which has so many keys. All chains together may have no
    /// more entries than the tables hold keys, so each is counted no further than those
    /// before it have left.
    fn hand_out_group(
        &self,
        small: Table,
        large: Table,
        cursor: u32,
        list: &mut [u32],
    ) -> Result<u32, ScanError> {
        let held = small.used + large.used;
        let mut count = self.chain_length(small, small.head(cursor), cursor, small.used)?;
        let mut at = cursor;
        loop {
            let most = large.used.min(held - count);
            count += self.chain_length(large, large.head(at), at, most)?;
            at = next_cursor(at, large.size);
            if at < small.size {
                break;
            }
        }
        if list.len() < count as usize * 2 {
            return Err(ScanError::Short(count));
        }

        let mut written = self.write_chain(small.head(cursor), list);
        let mut at = cursor;
        loop {
            written += self.write_chain(large.head(at), &mut list[written..]);
            at = next_cursor(at, large.size);
            if at < small.size {
                break;
            }
        }
        Ok(count)
    }

    /// The length of the chain in the bucket of `hash`: at most so many
    /// entries, each with a key that belongs there.
    fn chain_length(&self, table: Table, head: u32, hash: u32, most: u32) -> Result<u32, Error> {
        let mut count = 0;
        self.read_chain(table, head, hash, most, |_, _| count += 1)?;
        Ok(count)
    }

    /// The pairs of a tested chain to the front of `list`; answers how many
    /// places they take.
    fn write_chain(&self, head: u32, list: &mut [u32]) -> usize {
        let mut at = head;
        let mut to = 0;
        while at != 0 {
            list[to] = self.key(at);
            list[to + 1] = self.value(at);
            to += 2;
            at = self.link(at);
        }
        to
    }

    /// The same where there is just room for the pairs: their number is known, and
    /// each is copied at once.
    fn fill_room(&self, head: u32, room: &mut [u32]) {
        let mut at = head;
        for pair in room.chunks_exact_mut(2) {
            let start = start_of(at);
            let entry = &self.entries[start..start + FIELDS];
            pair.copy_from_slice(&entry[1..]);
            at = entry[0];
        }
    }
}
