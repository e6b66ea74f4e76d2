//! The cases of a run: histories of stores, damaged memory, and bytes that are no store.

use crate::arguments::{self, lend};
use crate::call::{Call, Export, EXPORTS};
use crate::compare::{Comparison, Difference};
use crate::damage::{damage, disturb, Damage, Disturbance, DAMAGES, DISTURBANCES};
use crate::plant::{plant, Room};
use crate::random::Random;
use crate::slices::{Slice, Slices, STATE_BYTES};

/// What a case is made of.
#[derive(Clone, Copy, Debug, PartialEq, Eq)]
pub enum Kind {
    /// Calls of all kinds one after the other, and now and then some on a damaged copy.
    History,
    /// Calls on one damaged memory.
    Damaged,
    /// Calls on a small memory during a move that is not paused, damaged where a step comes and goes.
    Moving,
    /// Calls whose bytes are at odds with the first check, or only just not.
    Bytes,
    /// Nothing but random bytes, in slices of random lengths.
    Noise,
}

const KINDS: [(Kind, usize); 5] = [
    (Kind::History, 10),
    (Kind::Damaged, 10),
    (Kind::Moving, 10),
    (Kind::Bytes, 6),
    (Kind::Noise, 2),
];

/// Most memory is small, since it is there that damage meets damage, and calls are quick.
const ROOMS: [(Room, usize); 4] = [
    (Room::Tiny, 12),
    (Room::Small, 10),
    (Room::Middle, 3),
    (Room::Largest, 2),
];

const ROOMS_OF_A_MOVE: [(Room, usize); 2] = [(Room::Tiny, 4), (Room::Small, 1)];

/// Where damage is met by the step that comes first, and by what comes behind it.
const DAMAGES_OF_A_MOVE: [Damage; 9] = [
    Damage::FalseCounts,
    Damage::FalseCounts,
    Damage::SharedEntries,
    Damage::SharedEntries,
    Damage::FreeEntryThatMoves,
    Damage::EmptiedBuckets,
    Damage::BucketAnyNumber,
    Damage::LinkAnyNumber,
    Damage::KeyOffItsBucket,
];

/// A case has about so many calls.
const CALLS_OF_A_CASE: usize = 96;

/// What a part of a history is mostly made of.
const PHASES: [&[(Export, usize)]; 7] = [
    // The store fills,
    &[
        (Export::Add, 14),
        (Export::Find, 1),
        (Export::Scan, 1),
        (Export::AllowResize, 1),
    ],
    // it empties,
    &[
        (Export::Delete, 14),
        (Export::Find, 1),
        (Export::Scan, 1),
        (Export::SuggestedSize, 1),
    ],
    // keys come and go,
    &[
        (Export::Add, 4),
        (Export::Delete, 3),
        (Export::Update, 2),
        (Export::Find, 2),
        (Export::Iterate, 1),
    ],
    // it moves,
    &[
        (Export::Resize, 4),
        (Export::RehashStep, 8),
        (Export::Add, 1),
        (Export::Delete, 1),
    ],
    // it is read,
    &[
        (Export::Scan, 8),
        (Export::Iterate, 8),
        (Export::BeginIterator, 1),
        (Export::EndIterator, 2),
        (Export::BeginSafe, 2),
        (Export::Add, 1),
    ],
    // its careful passes end,
    &[
        (Export::EndSafe, 8),
        (Export::RehashStep, 2),
        (Export::Delete, 1),
    ],
    // and anything.
    &[
        (Export::Init, 1),
        (Export::Find, 2),
        (Export::Update, 2),
        (Export::Add, 2),
        (Export::Delete, 2),
        (Export::Resize, 2),
        (Export::RehashStep, 2),
        (Export::Scan, 2),
        (Export::Iterate, 2),
        (Export::BeginIterator, 2),
        (Export::EndIterator, 2),
        (Export::BeginSafe, 1),
        (Export::EndSafe, 2),
        (Export::SuggestedSize, 2),
        (Export::AllowResize, 2),
    ],
];

/// What has been done to memory, and how often.
#[derive(Clone, Debug, Default)]
pub struct Done {
    pub damages: [u64; DAMAGES.len()],
    pub disturbances: [u64; DISTURBANCES.len()],
    pub in_largest_buffers: u64,
}

/// A run over cases, until at least so many calls have been compared.
pub fn run(seed: u64, calls: u64, comparison: &mut Comparison) -> Result<Done, Difference> {
    let mut done = Done::default();
    for number in 0.. {
        if comparison.calls() >= calls {
            break;
        }
        let mut random = Random::of_case(seed, number);
        let kind = random.weighted(&KINDS);
        let room = match kind {
            Kind::Moving => random.weighted(&ROOMS_OF_A_MOVE),
            _ => random.weighted(&ROOMS),
        };
        let before = comparison.calls();
        let mut case = Case {
            random,
            room,
            comparison,
            done: &mut done,
        };
        match kind {
            Kind::History => case.history()?,
            Kind::Damaged => case.damaged()?,
            Kind::Moving => case.moving()?,
            Kind::Bytes => case.bytes()?,
            Kind::Noise => case.noise()?,
        }
        if room == Room::Largest {
            done.in_largest_buffers += comparison.calls() - before;
        }
    }
    Ok(done)
}

struct Case<'a, 'b> {
    random: Random,
    room: Room,
    comparison: &'a mut Comparison<'b>,
    done: &'a mut Done,
}

impl Case<'_, '_> {
    fn planted(&mut self) -> Slices {
        let store = plant(&mut self.random, self.room);
        Slices::of_store(&mut self.random, &store)
    }

    /// A start on memory of random bytes.
    fn started(&mut self) -> Result<Slices, Difference> {
        let random = &mut self.random;
        let capacity = self.room.capacity(random);
        let size = self.room.size(random);
        let first = self.room.bucket_numbers(random, size);
        let second = self.room.bucket_numbers(random, 0);
        let entries = self.room.entry_numbers(random, capacity);
        let mut slices = Slices {
            state: Slice::random(random, STATE_BYTES),
            first: Slice::random(random, 4 * first),
            second: Slice::random(random, 4 * second),
            entries: Slice::random(random, 4 * entries),
            list: Slice::default(),
            answer: Slice::default(),
        };
        self.make(&mut slices, Call::Init { capacity, size })?;
        Ok(slices)
    }

    fn make(&mut self, slices: &mut Slices, call: Call) -> Result<u32, Difference> {
        lend(&mut self.random, slices, call);
        self.comparison.make(call, slices)
    }

    fn make_some(&mut self, slices: &mut Slices, export: Export) -> Result<u32, Difference> {
        let call = arguments::call(&mut self.random, slices, export);
        self.make(slices, call)
    }

    fn some_export(&mut self) -> Export {
        self.random.pick(&EXPORTS).0
    }

    fn damage(&mut self, slices: &mut Slices) {
        let kind = self.random.weighted(&DAMAGES);
        self.damage_so(slices, kind);
    }

    fn damage_so(&mut self, slices: &mut Slices, kind: Damage) {
        self.done.damages[kind as usize] += 1;
        damage(&mut self.random, slices, kind);
    }

    fn history(&mut self) -> Result<(), Difference> {
        let mut slices = if self.random.once_in(2) {
            self.started()?
        } else {
            self.planted()
        };
        let mut copy = Slices::default();
        // How far a walk and a pass have come, each the one that is under way.
        let (mut cursor, mut place) = (0, 0);
        let mut left = CALLS_OF_A_CASE;
        while left > 0 {
            let phase = *self.random.pick(&PHASES);
            let calls = self.random.within(1, left.min(32));
            left -= calls;
            for _ in 0..calls {
                let export = self.random.weighted(phase);
                let mut call = arguments::call(&mut self.random, &slices, export);
                match &mut call {
                    Call::Scan { cursor: given } if self.random.once_in(2) => *given = cursor,
                    Call::Iterate { place: given } if self.random.once_in(2) => *given = place,
                    _ => (),
                }
                let number = self.make(&mut slices, call)?;
                match (call, number) {
                    (Call::Scan { .. }, 0) => cursor = slices.answer.number(0),
                    (Call::Iterate { .. }, 0) => place = slices.answer.number(0),
                    _ => (),
                }
                if self.random.once_in(8) {
                    copy.clone_from(&slices);
                    self.damage(&mut copy);
                    let export = self.some_export();
                    self.make_some(&mut copy, export)?;
                }
            }
        }
        Ok(())
    }

    fn damaged(&mut self) -> Result<(), Difference> {
        let mut copy = Slices::default();
        let mut left = CALLS_OF_A_CASE;
        while left > 0 {
            let mut slices = self.planted();
            for _ in 0..self.random.below(5) {
                self.damage(&mut slices);
            }
            // A larger memory takes longer to plant than a call on it, and so has more calls.
            let calls = if self.room == Room::Tiny { 12 } else { 24 }.min(left);
            left -= calls;
            copy.clone_from(&slices);
            for _ in 0..calls {
                let export = self.export_on_damage();
                self.make_some(&mut copy, export)?;
                // The next call finds the damage as this one leaves it, or as it was.
                if !self.random.once_in(3) {
                    copy.clone_from(&slices);
                }
            }
        }
        Ok(())
    }

    /// The exports that read chains or change them come more often.
    fn export_on_damage(&mut self) -> Export {
        let reads_chains = [
            Export::Add,
            Export::Delete,
            Export::RehashStep,
            Export::Scan,
            Export::Iterate,
            Export::Find,
            Export::Update,
        ];
        if self.random.once_in(4) {
            self.some_export()
        } else {
            *self.random.pick(&reads_chains)
        }
    }

    fn moving(&mut self) -> Result<(), Difference> {
        let exports = [
            (Export::Add, 4),
            (Export::Delete, 4),
            (Export::RehashStep, 2),
            (Export::Scan, 3),
        ];
        let mut copy = Slices::default();
        for _ in 0..CALLS_OF_A_CASE / 6 {
            let mut slices = self.planted_during_a_move();
            for _ in 0..self.random.within(1, 3) {
                let kind = *self.random.pick(&DAMAGES_OF_A_MOVE);
                self.damage_so(&mut slices, kind);
            }
            for _ in 0..6 {
                copy.clone_from(&slices);
                let export = self.random.weighted(&exports);
                self.make_some(&mut copy, export)?;
            }
        }
        Ok(())
    }

    /// A store during a move that is not paused, seldom with nothing left to move.
    fn planted_during_a_move(&mut self) -> Slices {
        loop {
            let store = plant(&mut self.random, self.room);
            let to_be_moved = store.state.old_used > 0 || self.random.once_in(8);
            if store.state.rehashing && !store.state.paused() && to_be_moved {
                return Slices::of_store(&mut self.random, &store);
            }
        }
    }

    fn bytes(&mut self) -> Result<(), Difference> {
        let slices = self.planted();
        let mut copy = Slices::default();
        for _ in 0..CALLS_OF_A_CASE {
            copy.clone_from(&slices);
            let export = self.some_export();
            let call = arguments::call(&mut self.random, &copy, export);
            lend(&mut self.random, &mut copy, call);
            for _ in 0..self.random.within(1, 2) {
                let kind: Disturbance = *self.random.pick(&DISTURBANCES);
                self.done.disturbances[kind as usize] += 1;
                disturb(&mut self.random, &mut copy, kind);
            }
            self.comparison.make(call, &mut copy)?;
        }
        Ok(())
    }

    fn noise(&mut self) -> Result<(), Difference> {
        let most = 4 * self.room.most() as usize;
        for _ in 0..CALLS_OF_A_CASE / 4 {
            let random = &mut self.random;
            let mut slice = |most: usize| {
                let length = random.below(most + 1);
                let odd = random.once_in(8);
                Slice::random(random, if odd { length } else { length / 4 * 4 })
            };
            let (first, second, entries, list) =
                (slice(most), slice(most), slice(3 * most), slice(most));
            let state = Slice::random(random, STATE_BYTES);
            let mut slices = Slices {
                state,
                first,
                second,
                entries,
                list,
                answer: Slice::default(),
            };
            for _ in 0..4 {
                let export = self.some_export();
                self.make_some(&mut slices, export)?;
            }
        }
        Ok(())
    }
}
