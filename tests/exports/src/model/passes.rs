//! "Passes".

use super::numbers::{Answer, Refusal, Store, Table, MOST_CAREFUL_PASSES};
use super::walk::Pairs;

/// The mixing of "The fingerprint".
pub fn mixed(numbers: [u32; 6]) -> u64 {
    let mut h: u64 = 0;
    for number in numbers {
        h = h.wrapping_add(u64::from(number));
        h = (!h).wrapping_add(h << 21);
        h ^= h >> 24;
        h = h.wrapping_add(h << 3).wrapping_add(h << 8);
        h ^= h >> 14;
        h = h.wrapping_add(h << 2).wrapping_add(h << 4);
        h ^= h >> 28;
        h = h.wrapping_add(h << 31);
    }
    h
}

impl Store {
    /// "Places": the place past the last bucket.
    fn end_place(&self) -> u32 {
        self.live_tables()
            .iter()
            .map(|&table| self.size(table))
            .sum()
    }

    /// The bucket that a place below the end names.
    fn bucket_at(&self, place: u32) -> (Table, u32) {
        if place < self.state.old_size {
            (Table::Old, place)
        } else {
            (Table::New, place - self.state.old_size)
        }
    }

    /// "The pass call": the next place, and the pairs that it hands out to a list of so many numbers.
    pub fn iterate(&self, place: u32, list_length: usize) -> Answer<(u32, Pairs)> {
        self.require_sound_state()?;
        let end = self.end_place();
        for place in place..end {
            let (table, bucket) = self.bucket_at(place);
            if self.head(table, bucket) != 0 {
                let chain = self.chain(table, bucket)?;
                return Ok((place + 1, self.pairs(&chain, list_length)?));
            }
        }
        Ok((end, Vec::new()))
    }

    /// "The fingerprint" of the store as it is.
    fn fingerprint(&self) -> u64 {
        let state = &self.state;
        mixed([
            u32::from(state.second_is_current),
            state.old_size,
            state.old_used,
            u32::from(!state.second_is_current),
            state.new_size,
            state.new_used,
        ])
    }

    /// "A plain pass": its begin.
    pub fn begin_iterator(&self) -> Answer<u64> {
        self.require_sound_state()?;
        Ok(self.fingerprint())
    }

    /// "A plain pass": its end.
    pub fn end_iterator(&self, fingerprint: u64) -> Answer<()> {
        self.require_sound_state()?;
        if fingerprint == self.fingerprint() {
            Ok(())
        } else {
            Err(Refusal::Changed)
        }
    }

    /// "A careful pass": its begin.
    pub fn begin_safe(&mut self) -> Answer<()> {
        self.require_sound_state()?;
        if self.state.safe_iterators == MOST_CAREFUL_PASSES {
            return Err(Refusal::TooManyCarefulPasses);
        }
        self.state.safe_iterators += 1;
        Ok(())
    }

    /// "A careful pass": its end.
    pub fn end_safe(&mut self) -> Answer<()> {
        self.require_sound_state()?;
        if self.state.safe_iterators == 0 {
            return Err(Refusal::NoCarefulPass);
        }
        self.state.safe_iterators -= 1;
        Ok(())
    }
}
