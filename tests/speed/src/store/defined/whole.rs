//! Check and mend by their definitions, over lists of entries.

use super::*;
use std::collections::BTreeSet;

/// What a mend has met: so many entries, of which so many are kept.
struct Mended {
    met: usize,
    kept: usize,
}

impl Memory {
    /// Every chain is sound, each table has as many keys as it counts, no two of them
    /// the same, the buckets before the next one are empty, and every entry is on one
    /// chain, the free one or a bucket's.
    fn verify(&self) -> Result<bool, Error> {
        self.check_state()?;
        let Some(mut all) = self.held().ok().flatten() else {
            return Ok(false);
        };
        let keys: BTreeSet<u32> = all.iter().map(|&entry| self.entry(entry)[1]).collect();
        let has_doubles = keys.len() < all.len();
        let Some(free) = self.free_chain() else {
            return Ok(false);
        };
        all.extend(free);
        all.sort();
        let moved = &self.buckets(Side::Old)[..self.state.rehash_index as usize];
        let has_moved = moved.iter().all(|&head| head == 0);
        Ok(!has_doubles && has_moved && all.into_iter().eq(1..=self.state.capacity))
    }

    /// The entries of all buckets, if each table has as many as it counts.
    fn held(&self) -> Result<Option<Vec<u32>>, Error> {
        let mut held = Vec::new();
        for side in self.sides() {
            let before = held.len();
            for bucket in 0..self.size(side) {
                held.extend(self.chain(side, bucket)?);
            }
            let used = match side {
                Side::Old => self.state.old_used,
                Side::New => self.state.new_used,
            };
            if (held.len() - before) as u32 != used {
                return Ok(None);
            }
        }
        Ok(Some(held))
    }

    /// The free chain, if it comes to an end.
    fn free_chain(&self) -> Option<Vec<u32>> {
        let mut met = Vec::new();
        let mut at = self.state.free_head;
        while at != 0 {
            if at > self.state.capacity || met.contains(&at) {
                return None;
            }
            met.push(at);
            at = self.entry(at)[0];
        }
        Some(met)
    }

    /// Of the entries met, through the buckets upwards, the first with each key is kept,
    /// in its bucket and in its order. All others are freed, upwards.
    fn repair(&mut self) -> Result<Mended, Error> {
        self.check_state()?;
        let before = self.clone();
        let (mut met, mut kept) = (Vec::new(), Vec::new());
        let mut keys = BTreeSet::new();
        for side in self.sides() {
            let others = kept.len();
            for bucket in 0..self.size(side) {
                let mut chain = before.follow(side, bucket, &mut met);
                chain.retain(|&entry| keys.insert(before.entry(entry)[1]));
                self.buckets_mut(side)[bucket as usize] = self.link_up(&chain);
                kept.extend(chain);
            }
            let used = (kept.len() - others) as u32;
            match side {
                Side::Old => self.state.old_used = used,
                Side::New => self.state.new_used = used,
            }
        }
        let free: Vec<u32> = (1..=self.state.capacity)
            .filter(|entry| !kept.contains(entry))
            .collect();
        for &entry in &free {
            self.entry_mut(entry).fill(0);
        }
        self.state.free_head = self.link_up(&free);
        let moved = &self.buckets(Side::Old)[..self.state.rehash_index as usize];
        if let Some(filled) = moved.iter().position(|&head| head != 0) {
            self.state.rehash_index = filled as u32;
        }
        Ok(Mended {
            met: met.len(),
            kept: kept.len(),
        })
    }

    /// The entries met on a bucket's chain, until 0, a number out of range, an entry met
    /// before, or a key out of the bucket.
    fn follow(&self, side: Side, bucket: u32, met: &mut Vec<u32>) -> Vec<u32> {
        let mut chain = Vec::new();
        let mut at = self.buckets(side)[bucket as usize];
        while at != 0 && at <= self.state.capacity && !met.contains(&at) {
            let [link, key, _] = *self.entry(at) else {
                panic!("an entry has three numbers");
            };
            if key % self.size(side) != bucket {
                break;
            }
            met.push(at);
            chain.push(at);
            at = link;
        }
        chain
    }

    /// Links these entries, and answers the first.
    fn link_up(&mut self, chain: &[u32]) -> u32 {
        let mut head = 0;
        for &entry in chain.iter().rev() {
            self.entry_mut(entry)[0] = head;
            head = entry;
        }
        head
    }
}

#[test]
fn a_check_is_what_its_definition_says_on_any_memory() {
    let mut seen = Seen::default();
    on_any_memory(6, |_, before| {
        let mut memory = before.clone();
        let answer = memory.call(|store| store.verify());
        assert_eq!(answer, before.verify(), "{before:?}");
        assert_eq!(memory, before);
        match answer {
            Err(error) => seen.refusal(error),
            Ok(true) if before.state.rehashing => seen.note("undamaged, in a move"),
            Ok(true) => seen.note("undamaged"),
            Ok(false) => seen.note("damaged"),
        }
    });
    seen.expect(&["bad state", "undamaged", "undamaged, in a move", "damaged"]);
}

/// What it leaves is undamaged, and another mend changes nothing.
#[test]
fn a_mend_is_what_its_definition_says_on_any_memory() {
    let mut seen = Seen::default();
    on_any_memory(7, |_, before| {
        let (mut defined, mut mended) = (before.clone(), before.clone());
        let expected = defined.repair();
        let answer = mended.call(|store| store.repair());
        assert_eq!(answer.err(), expected.as_ref().err().copied(), "{before:?}");
        assert_eq!(mended, defined, "{before:?}");
        let Mended { met, kept } = match expected {
            Ok(mended) => mended,
            Err(error) => {
                assert_eq!(mended, before);
                return seen.refusal(error);
            }
        };
        assert_eq!(mended.verify(), Ok(true));
        let mut twice = mended.clone();
        assert_eq!(twice.call(|store| store.repair()), Ok(()));
        assert_eq!(twice, mended);

        let (old, new) = (before.state, mended.state);
        let was_undamaged = before.verify() == Ok(true);
        seen.note(match (was_undamaged, old.rehashing) {
            (true, _) => "undamaged before",
            (false, false) => "damaged before",
            (false, true) => "damaged before, in a move",
        });
        let counted = old.old_used + old.new_used;
        assert!(!was_undamaged || (met, kept as u32) == (kept, counted));
        seen.note_if(kept < met, "a key twice");
        seen.note_if((kept as u32) < counted, "fewer keys than were counted");
        seen.note_if((kept as u32) > counted, "more keys than were counted");
        seen.note_if(
            new.rehash_index < old.rehash_index,
            "a next bucket set back",
        );
    });
    seen.expect(&[
        "bad state",
        "undamaged before",
        "damaged before",
        "damaged before, in a move",
        "a key twice",
        "fewer keys than were counted",
        "more keys than were counted",
        "a next bucket set back",
    ]);
}
