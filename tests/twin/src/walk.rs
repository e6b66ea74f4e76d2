//! A witness that follows a run from outside, knowing only the commands and
//! their replies, and says when a promise of the request is broken: demand 3,
//! how often a walk hands out a key and which of the keys that come meanwhile
//! it must hand out, of each walk call demand 2, and how many steps a move takes.
//!
//! It has nothing in common with the store but the most empty buckets of a step
//! and the smallest size that is suggested, two numbers that the cases written by
//! hand fix for both. The program's limits and the numbers of the answers stand
//! here once more, from the specification; the plain map, the live sizes and which
//! keys are in the new table it learns from calls and answers; when a table grows
//! by itself, which no answer tells, it works out from the keys held and the sizes;
//! and where a walk goes it reads off the line of `line.rs`. Left to the store is only in which order a bucket's own keys
//! come.

use crate::line::{self, number_at, part, place};
use crate::program::{Command, Exchange, Reply};
use crate::store::{EMPTY_VISITS, LEAST_SUGGESTION};
use std::collections::{BTreeMap, BTreeSet};
use std::ops::AddAssign;

/// The numbers of the answers.
const DONE: u32 = 0;
const BAD_STATE: u32 = 1;
const ABSENT: u32 = 3;
const PRESENT: u32 = 4;
const FULL: u32 = 5;
const BAD_SIZE: u32 = 6;
const MOVING: u32 = 7;
const NOT_MOVING: u32 = 8;
const BAD_LINE: u32 = 10;

/// The largest capacity that a script may ask for, whatever the library allows.
const LARGEST_CAPACITY: u32 = 4096;

/// All sizes that a script may ask for, and that its tables can have.
const SIZES: [u32; 13] = [1, 2, 4, 8, 16, 32, 64, 128, 256, 512, 1024, 2048, 4096];

/// More walks than this are not followed at one time. Any choice of a run's
/// walk calls is fair, and a script of many thousand `C 0` lines stays cheap.
const MAX_WALKS: usize = 64;

/// The sizes of the live tables.
#[derive(Clone, Copy, PartialEq, Eq)]
struct Live {
    old: u32,
    /// During a move.
    new: Option<u32>,
}

impl Live {
    fn smaller(self) -> u32 {
        self.new.map_or(self.old, |new| new.min(self.old))
    }

    /// The size of the table that a key is in.
    fn size_for(self, held: &Held) -> u32 {
        self.new.filter(|_| held.in_new).unwrap_or(self.old)
    }
}

/// A key that is held.
struct Held {
    key: u32,
    value: u32,
    /// During a move: whether it was moved yet, or added since the move began.
    in_new: bool,
}

/// How far the move under way has come.
#[derive(Default)]
struct Progress {
    /// The old table's buckets before this one are empty.
    next: u32,
    /// How many steps were answered since the move began, those inside other calls
    /// too, and how many may be.
    steps: u32,
    most: u32,
}

/// The sizes that the smaller live table had at the calls of a walk.
struct Sizes {
    last: u32,
    largest: u32,
    least: u32,
    /// At how many calls it was smaller than at the call before.
    shrinks: u32,
}

/// A walk that began at cursor 0 and was handed each cursor it was answered.
struct Walk {
    /// The cursor that its next call is to be given.
    due: u32,
    calls: u32,
    sizes: Sizes,
    /// The places of the keys handed out so far, sorted. A key that came more
    /// than once stands there as often.
    handed: Vec<u64>,
    /// The places of the keys that are still to be handed out, sorted: from one
    /// of its calls on, whose cursor the key was not behind, it was held at
    /// each call and handed out by none.
    owed: Vec<u64>,
    /// How many of the adds the walk has looked through.
    heard: usize,
    /// How many keys came to be owed after its first call.
    late: usize,
    /// The tables of its first call, and whether a later call saw others.
    first: Live,
    resized: bool,
}

/// How many walks and moves were seen through to their end, and what they met.
#[derive(Clone, Copy, Debug, Default)]
pub struct Tally {
    /// Walks.
    pub ended: usize,
    /// Those of them whose calls did not all see the same tables.
    pub resized: usize,
    /// Those with a call at which the smaller live table was smaller than at
    /// the call before.
    pub shrunk: usize,
    /// How many keys these handed out twice or more.
    pub repeated: usize,
    /// How many keys were added ahead of a walk, and owed from then on.
    pub late: usize,
    /// Moves.
    pub moves: usize,
    /// Those of them that an add or a delete ended.
    pub ended_inside: usize,
    /// Steps that only passed empty buckets, of moves that a start broke off too.
    pub passing: usize,
    /// Steps inside an add or a delete, of such moves too.
    pub inside: usize,
    /// Moves that an add began: the table grew by itself.
    pub grown: usize,
    /// Those of them begun by an add whose step had ended the move before.
    pub grown_at_once: usize,
    /// Adds behind which a table would have grown, had the other buffer been long
    /// enough.
    pub cramped: usize,
}

impl AddAssign for Tally {
    fn add_assign(&mut self, other: Tally) {
        self.ended += other.ended;
        self.resized += other.resized;
        self.shrunk += other.shrunk;
        self.repeated += other.repeated;
        self.late += other.late;
        self.moves += other.moves;
        self.ended_inside += other.ended_inside;
        self.passing += other.passing;
        self.inside += other.inside;
        self.grown += other.grown;
        self.grown_at_once += other.grown_at_once;
        self.cramped += other.cramped;
    }
}

#[derive(Default)]
pub struct Witness {
    capacity: u32,
    /// The plain map, in the order of the keys' places on the line.
    held: BTreeMap<u64, Held>,
    /// The places of all keys added so far, in the order of the adds.
    added: Vec<u64>,
    /// `None` before the first start that was answered.
    live: Option<Live>,
    /// Of the last move, if none is under way.
    progress: Progress,
    walks: Vec<Walk>,
    tally: Tally,
}

impl Witness {
    pub fn tally(&self) -> Tally {
        self.tally
    }

    /// Takes note of one line; an error tells the promise that is broken.
    pub fn observe(&mut self, exchange: &Exchange) -> Result<(), String> {
        let reply = &exchange.reply;
        let Some(command) = exchange.command else {
            return expect(reply, BAD_LINE, &[]);
        };
        if let Command::Start { capacity, size } = command {
            return self.start(capacity, size, reply);
        }
        let Some(live) = self.live else {
            return expect(reply, BAD_STATE, &[]);
        };
        match command {
            Command::Start { .. } => unreachable!("seen above"),
            Command::Add { key, value } => self.add(live, key, value, reply),
            Command::Update { key, value } => match self.held.get_mut(&place(key)) {
                Some(held) => {
                    held.value = value;
                    expect(reply, DONE, &[])
                }
                None => expect(reply, ABSENT, &[]),
            },
            Command::Delete { key } => self.delete(live, key, reply),
            Command::Find { key } => match self.held.get(&place(key)) {
                Some(held) => expect(reply, DONE, &[held.value]),
                None => expect(reply, ABSENT, &[]),
            },
            Command::Resize { size } => self.resize(live, size, reply),
            Command::Step => self.step(live, reply),
            Command::Scan { cursor } => self.scan(live, cursor, reply),
        }
    }

    fn start(&mut self, capacity: u32, size: u32, reply: &Reply) -> Result<(), String> {
        if capacity == 0 || capacity > LARGEST_CAPACITY || !SIZES.contains(&size) {
            return expect(reply, BAD_SIZE, &[]);
        }
        self.capacity = capacity;
        self.held.clear();
        self.live = Some(Live {
            old: size,
            new: None,
        });
        expect(reply, DONE, &[])
    }

    fn add(&mut self, live: Live, key: u32, value: u32, reply: &Reply) -> Result<(), String> {
        if self.held.contains_key(&place(key)) {
            return expect(reply, PRESENT, &[]);
        }
        if self.held.len() as u64 == u64::from(self.capacity) {
            return expect(reply, FULL, &[]);
        }
        // Behind its step there may be one table only.
        let in_new = self.step_first(live)?;
        self.held.insert(place(key), Held { key, value, in_new });
        self.added.push(place(key));
        if !in_new {
            self.grow(live);
        }
        expect(reply, DONE, &[])
    }

    /// Behind an add that leaves one table, of those that were live before it. With
    /// a key for each of its buckets it grows: no script takes the permission away.
    /// It is to have two buckets for each key then, if there is room for so many.
    fn grow(&mut self, before: Live) {
        let only = before.new.unwrap_or(before.old);
        let held = self.held.len() as u32;
        if held < only {
            return;
        }
        let least = LEAST_SUGGESTION.max(2 * held);
        match SIZES.into_iter().find(|&size| size >= least) {
            Some(size) => {
                self.begin_move(only, size);
                self.tally.grown += 1;
                self.tally.grown_at_once += usize::from(before.new.is_some());
            }
            None => self.tally.cramped += 1,
        }
    }

    fn delete(&mut self, live: Live, key: u32, reply: &Reply) -> Result<(), String> {
        if !self.held.contains_key(&place(key)) {
            return expect(reply, ABSENT, &[]);
        }
        self.step_first(live)?;
        self.held.remove(&place(key));
        expect(reply, DONE, &[])
    }

    /// The step that an add or a delete takes first during a move, unless it is
    /// refused: whether a move is under way behind it. The call's answer does not
    /// tell of the step, but the step is one of the move's answered ones: behind it
    /// the next bucket is another, or the move is over.
    fn step_first(&mut self, live: Live) -> Result<bool, String> {
        let Some(new) = live.new else {
            return Ok(false);
        };
        let (_, moving) = self.advance(live.old, new);
        self.progress.count(moving)?;
        self.tally.inside += 1;
        self.tally.ended_inside += usize::from(!moving);
        Ok(moving)
    }

    fn resize(&mut self, live: Live, size: u32, reply: &Reply) -> Result<(), String> {
        if live.new.is_some() {
            return expect(reply, MOVING, &[]);
        }
        if !SIZES.contains(&size) || size == live.old {
            return expect(reply, BAD_SIZE, &[]);
        }
        self.begin_move(live.old, size);
        expect(reply, DONE, &[])
    }

    fn begin_move(&mut self, old: u32, new: u32) {
        self.live = Some(Live {
            old,
            new: Some(new),
        });
        let filled: BTreeSet<u32> = self.held.values().map(|held| held.key % old).collect();
        self.progress = Progress::begin(old, filled.len() as u32);
    }

    fn step(&mut self, live: Live, reply: &Reply) -> Result<(), String> {
        let Some(new) = live.new else {
            return expect(reply, NOT_MOVING, &[]);
        };
        let goes_on = matches!(told(reply), (DONE, [_, 1]));
        self.progress.count(goes_on)?;
        let (moved, moving) = self.advance(live.old, new);
        expect(reply, DONE, &[moved, u32::from(moving)])
    }

    /// A step moves the keys of the lowest bucket that a key still in the old
    /// table calls for, or only comes nearer to it if it is too far off. With
    /// none left there, before the step or behind it, the new table is the only
    /// one. Told are the number of keys moved, and whether the move goes on.
    fn advance(&mut self, old: u32, new: u32) -> (u32, bool) {
        let left = self.held.values().filter(|held| !held.in_new);
        let mut moved = 0;
        if let Some(lowest) = left.map(|held| held.key % old).min() {
            if lowest - self.progress.next < EMPTY_VISITS {
                for held in self.held.values_mut() {
                    if !held.in_new && held.key % old == lowest {
                        held.in_new = true;
                        moved += 1;
                    }
                }
                self.progress.next = lowest + 1;
            } else {
                self.progress.next += EMPTY_VISITS;
                self.tally.passing += 1;
            }
        }
        let moving = self.held.values().any(|held| !held.in_new);
        if !moving {
            self.held.values_mut().for_each(|held| held.in_new = false);
            self.live = Some(Live {
                old: new,
                new: None,
            });
            self.tally.moves += 1;
        }
        (moved, moving)
    }

    fn scan(&mut self, live: Live, cursor: u32, reply: &Reply) -> Result<(), String> {
        let (DONE, [next, count, pairs @ ..]) = told(reply) else {
            return Err(format!("a walk call answers {reply:?}"));
        };
        if pairs.len() as u64 != 2 * u64::from(*count) {
            return Err("a walk call miscounts its keys".to_string());
        }
        let mut handed = Vec::new();
        let mut last_bucket = (0, 0);
        for pair in pairs.chunks_exact(2) {
            let (key, value) = (pair[0], pair[1]);
            let at = place(key);
            let held = self.held.get(&at).filter(|held| held.value == value);
            let Some(held) = held else {
                return Err(format!("key {key} with {value} is handed out but not held"));
            };
            // Buckets come one after another: the smaller table's first, and
            // those of the larger one along the line.
            let size = live.size_for(held);
            let bucket = (size, part(at, size).start);
            if bucket < last_bucket {
                return Err(format!("key {key} is handed out in another order"));
            }
            last_bucket = bucket;
            handed.push(at);
        }
        handed.sort_unstable();
        if let Some(twice) = handed.windows(2).find(|pair| pair[0] == pair[1]) {
            let key = number_at(twice[0]);
            return Err(format!("key {key} is handed out twice in one call"));
        }
        self.advance_walks(live, cursor, *next, &handed)?;
        self.check_group(live, cursor, *next, &handed)
    }

    /// The keys of a call are those from its cursor's part on, as the table
    /// that they are in cuts the line, to the end of the cursor's part in the
    /// smaller table. The next cursor has its place at that end. With no keys
    /// the walk is at the line's end.
    fn check_group(
        &self,
        live: Live,
        cursor: u32,
        next: u32,
        handed: &[u64],
    ) -> Result<(), String> {
        let at = place(cursor);
        let whole = part(at, live.smaller());
        let end = if self.held.is_empty() {
            line::LENGTH
        } else {
            whole.end
        };
        let due: Vec<u64> = self
            .held
            .range(whole)
            .filter(|(place, held)| part(at, live.size_for(held)).start <= **place)
            .map(|(&place, _)| place)
            .collect();
        if let Some(key) = beyond(handed, &due) {
            return Err(format!("key {key} is not of the group of cursor {cursor}"));
        }
        if let Some(key) = beyond(&due, handed) {
            return Err(format!(
                "key {key} is missing from the group of cursor {cursor}"
            ));
        }
        if next != number_at(end) {
            let wanted = number_at(end);
            return Err(format!("after cursor {cursor} comes {wanted}, not {next}"));
        }
        Ok(())
    }

    /// Moves every walk on whose next cursor was called, a new one at 0 too.
    fn advance_walks(
        &mut self,
        live: Live,
        cursor: u32,
        next: u32,
        handed: &[u64],
    ) -> Result<(), String> {
        if cursor == 0 && self.walks.len() < MAX_WALKS {
            // No key is behind cursor 0.
            let owed = self.held.keys().copied().collect();
            self.walks.push(Walk::begin(live, owed, self.added.len()));
        }
        for walk in self.walks.iter_mut().filter(|walk| walk.due == cursor) {
            walk.due = next;
            walk.calls += 1;
            walk.resized |= walk.first != live;
            walk.sizes.meet(live.smaller());
            walk.owe(place(cursor), &self.held, &self.added);
            walk.settle(handed, &self.held);
            walk.count(handed)?;
            walk.check()?;
        }
        // No walk that goes on is due at 0.
        for ended in self.walks.iter().filter(|walk| walk.due == 0) {
            self.tally += ended.tally();
        }
        self.walks.retain(|walk| walk.due != 0);
        Ok(())
    }
}

impl Progress {
    /// That of a move from a table of this size, so many of whose buckets are
    /// filled. Each of these takes one step at most, and the empty ones take one
    /// for as many as a step may pass. A move of no keys has a step too.
    fn begin(size: u32, filled: u32) -> Self {
        Progress {
            next: 0,
            steps: 0,
            most: (filled + (size - filled) / EMPTY_VISITS).max(1),
        }
    }

    /// Counts a step, and looks that there were not too many.
    fn count(&mut self, goes_on: bool) -> Result<(), String> {
        self.steps += 1;
        // A move that goes on needs one more step at least.
        let least = self.steps + u32::from(goes_on);
        if least > self.most {
            let most = self.most;
            return Err(format!(
                "a move needs {least} steps or more, with {most} as its bound"
            ));
        }
        Ok(())
    }
}

impl Sizes {
    /// Those of a walk whose first call is to see this one.
    fn begin(size: u32) -> Self {
        Sizes {
            last: size,
            largest: size,
            least: size,
            shrinks: 0,
        }
    }

    fn meet(&mut self, size: u32) {
        self.shrinks += u32::from(size < self.last);
        self.last = size;
        self.largest = self.largest.max(size);
        self.least = self.least.min(size);
    }

    /// How often a walk may have handed out a key. Two promises bound it: once
    /// and once more for each call that shrank, and once and once more for each
    /// halving that leads from the largest size to the least. A third, at most
    /// once where no call shrank, is a case of the first.
    fn most(&self) -> usize {
        let halvings = self.largest.ilog2() - self.least.ilog2();
        1 + self.shrinks.min(halvings) as usize
    }
}

impl Walk {
    /// A walk whose first call is to see these tables.
    fn begin(first: Live, owed: Vec<u64>, heard: usize) -> Self {
        Walk {
            due: 0,
            calls: 0,
            sizes: Sizes::begin(first.smaller()),
            handed: Vec::new(),
            owed,
            heard,
            late: 0,
            first,
            resized: false,
        }
    }

    /// The walk owes each held key that is not behind the cursor of its call.
    ///
    /// Only the keys added since its last call are looked at. The calls before
    /// this one have passed `check_group`: none went back along the line, and
    /// none handed out a key from its next cursor on. So a key that is ahead
    /// now, and was held at the last call, was ahead then and is owed already.
    fn owe(&mut self, cursor: u64, held: &BTreeMap<u64, Held>, added: &[u64]) {
        let is_due = |place: &&u64| cursor <= **place && held.contains_key(place);
        for place in added[self.heard..].iter().filter(is_due) {
            if let Err(spot) = self.owed.binary_search(place) {
                self.owed.insert(spot, *place);
                self.late += 1;
            }
        }
        self.heard = added.len();
    }

    /// A key that the call hands out, or that is not held at it, is owed no more.
    fn settle(&mut self, handed: &[u64], held: &BTreeMap<u64, Held>) {
        self.owed
            .retain(|place| handed.binary_search(place).is_err() && held.contains_key(place));
    }

    /// Counts the call's keys, and looks that none has come too often.
    fn count(&mut self, handed: &[u64]) -> Result<(), String> {
        let Some(first) = handed.first() else {
            return Ok(());
        };
        // The walk goes along the line. So few of the keys handed out before
        // lie further on than this call's first, and only there one can have
        // come again. The bound never falls: the others need no second look.
        let from = self.handed.partition_point(|place| place < first);
        self.handed.extend(handed);
        let end = &mut self.handed[from..];
        end.sort();
        let most = self.sizes.most();
        if let Some(same) = end.windows(most + 1).find(|keys| keys[0] == keys[most]) {
            let (key, times) = (number_at(same[0]), same.len());
            return Err(format!(
                "key {key} comes {times} times or more in a walk, with {most} as its bound"
            ));
        }
        Ok(())
    }

    /// That nothing is owed at the end is the promise of the keys held at each
    /// call, and that of the keys that come later. With what `count` looks at,
    /// it is also "exactly once": a key held at each call has come, and where
    /// no call shrank it has not come twice.
    fn check(&self) -> Result<(), String> {
        let ended = self.due == 0;
        if ended && !self.owed.is_empty() {
            let keys: Vec<u32> = self.owed.iter().copied().map(number_at).collect();
            return Err(format!("a walk ends without keys {keys:?}"));
        }
        // A walk that goes on needs one more call at least.
        let least = if ended { self.calls } else { self.calls + 1 };
        let bound = self.sizes.largest;
        if least > bound {
            return Err(format!(
                "a walk needs {least} calls or more, with {bound} as its bound"
            ));
        }
        Ok(())
    }

    /// What the walk counts for once it has ended.
    fn tally(&self) -> Tally {
        let keys = self.handed.chunk_by(|place, next| place == next);
        Tally {
            ended: 1,
            resized: usize::from(self.resized),
            shrunk: usize::from(self.sizes.shrinks > 0),
            repeated: keys.filter(|times| times.len() > 1).count(),
            late: self.late,
            ..Tally::default()
        }
    }
}

/// The first key, by its place, that the other places do not have. Both are
/// sorted.
fn beyond(places: &[u64], others: &[u64]) -> Option<u32> {
    if places == others {
        return None;
    }
    let is_new = |place: &&u64| others.binary_search(place).is_err();
    places.iter().find(is_new).copied().map(number_at)
}

/// A reply's number, and the numbers that follow it.
fn told(reply: &Reply) -> (u32, &[u32]) {
    match reply {
        Ok(results) => (DONE, results),
        Err(refusal) => (*refusal as u32, &[]),
    }
}

fn expect(reply: &Reply, number: u32, results: &[u32]) -> Result<(), String> {
    if told(reply) == (number, results) {
        Ok(())
    } else {
        Err(format!(
            "{number} {results:?} is to be answered, and the store answers {reply:?}"
        ))
    }
}

#[cfg(test)]
mod tests {
    use super::*;
    use crate::program::replies;
    use crate::store::Refusal;

    /// Shows the witness a script whose last reply is a forged one.
    fn forged(script: &str, last: Reply) -> Result<(), String> {
        let mut exchanges: Vec<Exchange> = replies(script.as_bytes()).collect();
        exchanges.last_mut().unwrap().reply = last;
        let mut witness = Witness::default();
        exchanges
            .iter()
            .try_for_each(|exchange| witness.observe(exchange))
    }

    /// A walk call at the end of the script is fine with the first numbers,
    /// and with each of the others the witness says what is wrong.
    fn expect_noticed(script: &str, right: &[u32], wrong: &[(&[u32], &str)]) {
        assert_eq!(forged(script, Ok(right.to_vec())), Ok(()), "{script}");
        for (numbers, message) in wrong {
            let error = forged(script, Ok(numbers.to_vec())).unwrap_err();
            assert!(error.contains(message), "{numbers:?}: {error}");
        }
    }

    /// The witness of a script that the model answers.
    fn witness(script: &str) -> Witness {
        let mut witness = Witness::default();
        for exchange in replies(script.as_bytes()) {
            witness.observe(&exchange).unwrap();
        }
        witness
    }

    /// Behind a script come walk calls that are not looked at for themselves.
    /// Each has the size of the only live table, its cursor, the next cursor
    /// and its keys.
    fn walked(script: &str, calls: &[(u32, u32, u32, &[u32])]) -> Result<(), String> {
        let mut witness = witness(script);
        calls.iter().try_for_each(|&(old, cursor, next, keys)| {
            let live = Live { old, new: None };
            let mut handed: Vec<u64> = keys.iter().copied().map(place).collect();
            handed.sort_unstable();
            witness.advance_walks(live, cursor, next, &handed)
        })
    }

    /// The calls before the last break no promise, and the last one does.
    fn expect_broken(script: &str, calls: &[(u32, u32, u32, &[u32])], message: &str) {
        let (_, before) = calls.split_last().unwrap();
        assert_eq!(walked(script, before), Ok(()), "{script}");
        let error = walked(script, calls).unwrap_err();
        assert!(error.contains(message), "{script}: {error}");
    }

    #[test]
    fn the_model_keeps_its_promises() {
        let script = "N 8 4\nA 1 10\nA 6 60\nC 0\nR 8\nC 2\nS\nC 1\nS\nC 3\nC 7\n";
        let tally = witness(script).tally();
        assert_eq!((tally.ended, tally.resized, tally.shrunk), (1, 1, 0));
        assert_eq!((tally.moves, tally.passing), (1, 0));
        // The second call of this walk sees a smaller table, and hands out key 0
        // again. Key 3 comes ahead of the walk, key 4 behind it, and key 7 has
        // gone by the next call.
        let script = "N 8 8\nA 0 10\nC 0\nR 4\nS\nA 3 30\nC 4\nA 7 70\nD 7\nA 4 40\n";
        let script = script.to_string() + "C 2\nC 1\nC 3\n";
        let tally = witness(&script).tally();
        assert_eq!((tally.ended, tally.resized, tally.shrunk), (1, 1, 1));
        assert_eq!((tally.repeated, tally.late), (1, 1));
        // Two steps pass empty buckets, and a start breaks the move off; one
        // more, and the next step ends the move.
        let script = "N 8 32\nA 20 20\nR 4\nS\nS\nN 8 32\nA 19 19\nR 4\nS\nS\n";
        let tally = witness(script).tally();
        assert_eq!((tally.moves, tally.passing), (1, 3));
        assert_eq!((tally.ended_inside, tally.inside), (0, 0));
        // An add's step passes empty buckets, a step moves key 12, and a delete's
        // moves key 14 and ends the move. None comes with a refused call, nor with
        // one behind the end.
        let script = "N 3 16\nA 12 0\nA 14 0\nR 4\nA 1 0\nA 2 0\nD 3\nS\nD 1\nA 1 0\nD 1\n";
        let tally = witness(script).tally();
        assert_eq!((tally.moves, tally.passing), (1, 1));
        assert_eq!((tally.ended_inside, tally.inside), (1, 2));
        assert_eq!(tally.grown, 0);
    }

    #[test]
    fn tables_that_grow_are_counted() {
        // With its second key a table of two, and with the fourth, whose step ends
        // that move, one of four. Behind a move to 2 the fifth makes it grow again.
        let grown = |script: &str| {
            let tally = witness(script).tally();
            (tally.grown, tally.grown_at_once, tally.cramped)
        };
        let two = "N 8 2\nA 0 0\nA 1 0\n";
        assert_eq!(grown(two), (1, 0, 0));
        let four = format!("{two}A 2 0\nA 3 0\n");
        assert_eq!(grown(&four), (2, 1, 0));
        let shrunk = format!("{four}S\nS\nS\nS\nR 2\nS\nS\nS\nS\nA 4 0\n");
        assert_eq!(grown(&shrunk), (3, 1, 0));
        // Refused adds begin nothing, nor do those to fewer keys than buckets.
        let refused = format!("{two}A 1 0\nN 2 4\nA 0 0\nA 1 0\nA 2 0\n");
        assert_eq!(grown(&refused), (1, 0, 0));
        // As many buckets as there is room for.
        let full = format!("N 4096 4096\n{}D 1\nA 1 0\n", adds(0..4096));
        assert_eq!(grown(&full), (0, 0, 2));
    }

    /// Lines that add keys, each with the value 0.
    fn adds(keys: std::ops::Range<u32>) -> String {
        keys.map(|key| format!("A {key} 0\n")).collect()
    }

    /// A table that grows one key too early or too late, to another size, behind
    /// another call than an answered add, or where there is no room for it. Each
    /// script's last line has the first answer, and the others are noticed.
    #[test]
    fn wrong_growth_is_noticed() {
        use Refusal::{BadSize, Moving, NotMoving};
        let done = || Ok(vec![]);
        let expect_only = |script: &str, right: Reply, wrong: &[Reply]| {
            assert_eq!(forged(script, right), Ok(()), "{script}");
            for reply in wrong {
                assert!(forged(script, reply.clone()).is_err(), "{script}{reply:?}");
            }
        };
        let three = format!("N 8 4\n{}", adds(0..3));
        expect_only(&format!("{three}S\n"), Err(NotMoving), &[Ok(vec![1, 1])]);
        expect_only(&format!("{three}R 8\n"), done(), &[Err(Moving)]);
        let four = format!("{three}A 3 0\n");
        let (none, all) = (Err(NotMoving), Ok(vec![4, 0]));
        expect_only(&format!("{four}S\n"), Ok(vec![1, 1]), &[none, all]);
        expect_only(
            &format!("{four}R 8\n"),
            Err(Moving),
            &[done(), Err(BadSize)],
        );
        // Once it has grown to 8.
        let grown = format!("{four}S\nS\nS\nS\n");
        expect_only(
            &format!("{grown}R 8\n"),
            Err(BadSize),
            &[done(), Err(Moving)],
        );
        expect_only(&format!("{grown}R 16\n"), done(), &[Err(BadSize)]);
        // One bucket makes four at once, and not two.
        let one = "N 8 1\nA 5 0\nS\n";
        expect_only(&format!("{one}R 4\n"), Err(BadSize), &[done()]);
        expect_only(&format!("{one}R 2\n"), done(), &[Err(BadSize)]);
        // By five keys in two buckets, and not by the four before.
        let five = "N 8 8\nA 0 0\nA 2 0\nA 4 0\nA 6 0\nR 2\nS\nS\nS\nS\n";
        expect_only(&format!("{five}S\n"), Err(NotMoving), &[Ok(vec![4, 0])]);
        let five = format!("{five}A 1 0\nS\nS\n");
        expect_only(&format!("{five}R 16\n"), Err(BadSize), &[done()]);
        expect_only(&format!("{five}R 8\n"), done(), &[Err(BadSize)]);
        // Calls between, in two buckets with four keys of four.
        let full = "N 4 8\nA 0 0\nA 2 0\nA 4 0\nA 6 0\nR 2\nS\nS\nS\nS\n";
        for line in ["A 0 0", "A 1 0", "D 0", "D 1", "V 0 1", "F 0", "C 0", "R 2"] {
            let script = format!("{full}{line}\nS\n");
            expect_only(&script, Err(NotMoving), &[Ok(vec![4, 0]), Ok(vec![3, 0])]);
        }
        // In the add whose step ends a move, and the next move begins at bucket 0.
        let eight = format!("N 16 4\n{}", adds(0..8));
        let wrong = [Err(NotMoving), Ok(vec![1, 0])];
        expect_only(&format!("{eight}S\n"), Ok(vec![1, 1]), &wrong);
        let delete = "N 8 8\nA 0 0\nA 1 0\nA 2 0\nR 1\nS\nS\nD 0\nS\n";
        expect_only(delete, Err(NotMoving), &[Ok(vec![2, 0])]);
        // No table has 8,192 buckets.
        let most = format!("N 4096 4096\n{}S\n", adds(0..4096));
        expect_only(&most, Err(NotMoving), &[Ok(vec![1, 1])]);
    }

    #[test]
    fn a_key_that_a_whole_walk_lost_is_noticed() {
        expect_noticed(
            "N 8 4\nA 1 10\nA 6 60\nR 1\nS\nS\nC 0\n",
            &[0, 2, 6, 60, 1, 10],
            &[(&[0, 1, 6, 60], "without keys [1]")],
        );
        // The first call leaves key 2 out, and the second one ends the walk.
        expect_broken(
            "N 8 2\nA 2 20\n",
            &[(2, 0, 1, &[]), (2, 1, 0, &[])],
            "without keys [2]",
        );
    }

    /// Where no call of a walk sees a smaller table than the call before, no
    /// key comes twice, and at the end each key held throughout has come.
    #[test]
    fn a_key_that_did_not_come_exactly_once_is_noticed() {
        let script = "N 8 4\nA 0 10\nA 1 11\nR 2\nS\nS\n";
        assert_eq!(walked(script, &[(2, 0, 1, &[0]), (2, 1, 0, &[1])]), Ok(()));
        let never = [(2, 0, 1, &[0][..]), (2, 1, 0, &[])];
        expect_broken(script, &never, "without keys [1]");
        let due = "key 0 comes 2 times or more in a walk, with 1 as its bound";
        let again = [(2, 0, 1, &[0][..]), (2, 1, 0, &[0, 1])];
        expect_broken(script, &again, due);
        // In one call, by a call that does not end the walk, in a table that has
        // grown, and once the key was deleted and added again.
        expect_broken(script, &[(2, 0, 1, &[0, 0])], due);
        let kept = "N 8 4\nA 0 10\nC 0\n";
        expect_broken(kept, &[(4, 2, 1, &[0])], due);
        expect_broken(kept, &[(8, 2, 6, &[0])], due);
        let renewed = "N 8 4\nA 0 10\nC 0\nD 0\nA 0 11\n";
        expect_broken(renewed, &[(4, 2, 1, &[0])], due);
        // With two live tables the smaller one counts: of 4 and 8 it is still 4,
        // of 4 and 2 it is 2, and there the key may come again.
        let mut growing = witness(kept);
        let live = |new| Live {
            old: 4,
            new: Some(new),
        };
        let error = growing.advance_walks(live(8), 2, 1, &[0]).unwrap_err();
        assert!(error.contains(due), "{error}");
        let mut shrinking = witness(kept);
        assert_eq!(shrinking.advance_walks(live(2), 2, 1, &[0]), Ok(()));
    }

    /// A key comes at most once more for each call that shrank, and for each
    /// halving between the largest size and the least.
    #[test]
    fn a_key_that_came_too_often_is_noticed() {
        let script = "N 8 8\nA 0 10\n";
        let due = "key 0 comes 3 times or more in a walk, with 2 as its bound";
        // One call shrank, by three halvings.
        let one = [
            (8, 0, 4, &[0][..]),
            (1, 4, 2, &[0]),
            (1, 2, 6, &[]),
            (1, 6, 0, &[0]),
        ];
        expect_broken(script, &one, due);
        // Two calls shrank, between sizes that one halving lies between. With
        // one more halving the key may come three times.
        let two = |least| {
            [
                (8, 0, 4, &[0][..]),
                (4, 4, 2, &[0]),
                (8, 2, 6, &[]),
                (least, 6, 0, &[0]),
            ]
        };
        expect_broken(script, &two(4), due);
        assert_eq!(walked(script, &two(2)), Ok(()));
        // Where a table has grown back, what came before still counts.
        let grown = [(8, 0, 4, &[0][..]), (4, 4, 2, &[0]), (8, 2, 6, &[0])];
        expect_broken(script, &grown, due);
    }

    /// Both bounds are attained: at sizes 4, 2 and 1 key 0 comes three times.
    #[test]
    fn a_key_may_come_once_more_for_each_halving() {
        let script = "N 4 4\nA 0 7\nC 0\nR 2\nS\nC 2\nR 1\nS\nC 1\n";
        let tally = witness(script).tally();
        assert_eq!((tally.ended, tally.shrunk, tally.repeated), (1, 1, 1));
        let sizes = [(4, 0, 2, &[0][..]), (2, 2, 1, &[0]), (1, 1, 3, &[0])];
        let due = "key 0 comes 4 times or more in a walk, with 3 as its bound";
        let more = [&sizes[..], &[(1, 3, 0, &[0])]].concat();
        expect_broken("N 4 4\nA 0 7\n", &more, due);
    }

    /// A key that is held from one of the calls on, and is not behind the
    /// cursor of that call, comes by the end.
    #[test]
    fn a_later_key_that_was_passed_over_is_noticed() {
        expect_noticed(
            "N 8 4\nA 0 7\nC 0\nA 3 30\nC 2\nC 1\nC 3\n",
            &[0, 1, 3, 30],
            &[(&[0, 0], "without keys [3]")],
        );
        // The rest of a walk that is due at 2, with nothing handed out.
        let rest = [(4, 2, 1, &[][..]), (4, 1, 3, &[]), (4, 3, 0, &[])];
        let added = |key: u32| format!("N 8 4\nA 0 7\nC 0\nA {key} 70\n");
        // The first place that is not behind the cursor, and the last that is.
        expect_broken(&added(2), &rest, "without keys [2]");
        assert_eq!(walked(&added(4_294_967_292), &rest), Ok(()));
        assert_eq!(place(4_294_967_292) + 1, place(2));
        // More than one, and one that was added during a move.
        let more = "N 8 4\nA 0 7\nC 0\nA 3 30\nA 2 20\n";
        expect_broken(more, &rest, "without keys [2, 3]");
        let moving = "N 8 4\nA 0 7\nA 1 10\nR 8\nC 0\nA 3 30\n";
        expect_broken(moving, &rest, "without keys [1, 3]");
        // Deleted and added again between two calls, or with a call between.
        let renewed = "N 8 4\nA 0 7\nA 3 30\nC 0\nD 3\nA 3 31\n";
        expect_broken(renewed, &rest, "without keys [3]");
        let back = "N 8 4\nA 0 7\nA 3 30\nC 0\nD 3\nC 2\nA 3 31\n";
        expect_broken(back, &rest[1..], "without keys [3]");
        // In a store that was started anew only its own keys are owed.
        let anew = "N 8 4\nA 0 7\nA 3 30\nC 0\nN 8 4\nA 1 10\n";
        expect_broken(anew, &rest, "without keys [1]");
    }

    #[test]
    fn a_later_key_is_owed_no_longer_than_it_is_held() {
        let rest = [(4, 1, 3, &[][..]), (4, 3, 0, &[])];
        let deleted = "N 8 4\nA 0 7\nC 0\nA 3 30\nC 2\nD 3\n";
        assert_eq!(walked(deleted, &rest), Ok(()));
        // Back again, but behind the cursor by then.
        let back = "N 8 4\nA 0 7\nA 2 20\nC 0\nD 2\nC 2\nA 2 21\n";
        assert_eq!(walked(back, &rest), Ok(()));
    }

    /// That one walk has handed a later key out does not serve another.
    #[test]
    fn a_later_key_is_owed_by_each_walk() {
        let script = "N 8 4\nA 0 7\nC 0\nC 2\nC 0\nA 3 30\n";
        let calls = [
            // The walk that is due at 1, to its end.
            (4, 1, 3, &[][..]),
            (4, 3, 0, &[3]),
            // The walk that is due at 2.
            (4, 2, 1, &[]),
            (4, 1, 3, &[]),
            (4, 3, 0, &[]),
        ];
        expect_broken(script, &calls, "without keys [3]");
    }

    #[test]
    fn a_walk_of_too_many_calls_is_noticed() {
        expect_noticed(
            "N 8 2\nA 1 10\nR 1\nS\nC 0\n",
            &[0, 1, 1, 10],
            &[(&[1, 1, 1, 10], "2 calls or more, with 1 as its bound")],
        );
        expect_noticed(
            "N 8 2\nA 1 10\nC 0\nC 1\n",
            &[0, 1, 1, 10],
            &[(&[3, 1, 1, 10], "3 calls or more, with 2 as its bound")],
        );
        // The bound is that of the smaller table, and of the largest at any call.
        expect_noticed(
            "N 8 2\nA 1 10\nR 8\nC 0\nC 1\n",
            &[0, 1, 1, 10],
            &[(&[5, 1, 1, 10], "3 calls or more, with 2 as its bound")],
        );
        expect_noticed(
            "N 8 4\nA 3 30\nC 0\nC 2\nR 2\nC 1\n",
            &[0, 1, 3, 30],
            &[
                (&[0, 0], "without keys [3]"),
                (&[3, 1, 3, 30], "after cursor 1"),
            ],
        );
    }

    #[test]
    fn keys_out_of_place_are_noticed() {
        expect_noticed(
            "N 8 8\nA 1 10\nA 2 20\nA 4 40\nR 2\nS\nS\nS\nC 0\n",
            &[1, 2, 4, 40, 2, 20],
            &[
                (&[1, 3, 4, 40, 2, 20, 1, 10], "key 1 is not of the group"),
                (&[1, 3, 1, 10, 4, 40, 2, 20], "another order"),
                (&[1, 1, 1, 10], "key 1 is not of the group"),
                (&[1, 1, 2, 20], "key 4 is missing"),
                (&[1, 2, 4, 40, 2, 21], "key 2 with 21"),
                (&[1, 2, 4, 40, 6, 20], "key 6 with 20"),
                (&[1, 3, 4, 40, 2, 20, 2, 20], "key 2 is handed out twice"),
                (&[1, 2, 2, 20], "miscounts"),
                (&[1], "a walk call answers"),
            ],
        );
    }

    /// The groups of two tables, here of 8 and 32 buckets, both ways round. The
    /// adds during the move take a step each, and these move keys of the lower
    /// buckets. Behind them 71 and 38 are in the smaller table, and 9 and the four
    /// keys of the other adds in the larger one.
    #[test]
    fn keys_out_of_a_group_are_noticed() {
        let small = "A 71 1\nA 38 2\n";
        let large = "A 7 6\nA 15 7\nA 23 8\nA 31 9\n";
        let low = "A 0 3\nA 9 4\nA 2 5\nA 3 5\n";
        let growing = format!("N 16 8\n{small}{low}R 32\n{large}C 23\n");
        let shrinking = format!("N 16 32\n{large}{low}R 8\n{small}C 23\n");
        for script in [growing, shrinking] {
            expect_noticed(
                &script,
                &[0, 4, 71, 1, 23, 8, 15, 7, 31, 9],
                &[
                    // The larger table's buckets counted upwards: 23 and 31.
                    (&[0, 3, 71, 1, 23, 8, 31, 9], "key 15 is missing"),
                    // A bucket that was passed, and others than the cursor's.
                    (&[0, 5, 71, 1, 7, 6, 23, 8, 15, 7, 31, 9], "key 7 is not"),
                    (&[0, 5, 71, 1, 9, 4, 23, 8, 15, 7, 31, 9], "key 9 is not"),
                    (&[0, 5, 38, 2, 71, 1, 23, 8, 15, 7, 31, 9], "key 38 is not"),
                    // The smaller table's bucket left out, or behind the others.
                    (&[0, 3, 23, 8, 15, 7, 31, 9], "key 71 is missing"),
                    (&[0, 4, 23, 8, 15, 7, 31, 9, 71, 1], "another order"),
                    (&[0, 4, 71, 1, 15, 7, 23, 8, 31, 9], "another order"),
                ],
            );
        }
    }

    #[test]
    fn wrong_next_cursors_are_noticed() {
        // One bucket up, an empty one passed, the end too early, the same again.
        let one = "N 8 4\nA 0 10\nA 3 30\nC 0\nC 2\n";
        let due = "after cursor 2 comes 1";
        expect_noticed(
            one,
            &[1, 0],
            &[(&[3, 0], due), (&[2, 0], due), (&[5, 0], due)],
        );
        expect_noticed(one, &[1, 0], &[(&[0, 0], "without keys [3]")]);
        let ended = "N 8 4\nA 0 10\nC 0\nC 2\n";
        expect_noticed(ended, &[1, 0], &[(&[0, 0], due)]);
        // Taken from the larger size.
        let two = "N 8 4\nA 0 10\nA 2 20\nR 8\nA 6 60\nC 2\n";
        expect_noticed(
            two,
            &[1, 2, 2, 20, 6, 60],
            &[(&[6, 2, 2, 20, 6, 60], due), (&[5, 2, 2, 20, 6, 60], due)],
        );
        // Without keys a walk is at its end, whatever the cursor.
        let none = "after cursor 1 comes 0";
        expect_noticed("N 8 4\nC 1\n", &[0, 0], &[(&[3, 0], none)]);
        // Cursors from no walk: any bits above the table.
        let high = "after cursor 4294967293 comes 3";
        expect_noticed("N 8 4\nA 0 10\nC 4294967293\n", &[3, 0], &[(&[7, 0], high)]);
    }

    #[test]
    fn wrong_steps_are_noticed() {
        let script = "N 8 8\nA 0 0\nA 1 10\nA 9 90\nA 3 30\nR 16\nA 17 170\nS\n";
        let due = "0 [2, 1] is to be answered";
        expect_noticed(
            script,
            &[2, 1],
            &[
                (&[0, 0], due),
                (&[0, 1], due),
                (&[3, 1], due),
                (&[2, 0], due),
            ],
        );
        // The last keys of the old table, moved and deleted. Other keys are in
        // the new one.
        let ending = "N 8 16\nA 0 0\nA 1 10\nR 8\nA 2 20\nS\n";
        let due = "0 [1, 0] is to be answered";
        expect_noticed(
            ending,
            &[1, 0],
            &[
                (&[1, 1], due),
                (&[0, 0], due),
                (&[0, 1], due),
                (&[2, 0], due),
            ],
        );
        let deleted = "N 8 16\nA 0 0\nA 1 10\nR 8\nD 1\nS\n";
        let due = "0 [0, 0] is to be answered";
        expect_noticed(deleted, &[0, 0], &[(&[0, 1], due), (&[1, 0], due)]);
        // Nine empty buckets before a filled one, ten, and after these none.
        let due = "0 [1, 1] is to be answered";
        let nine = "N 8 64\nA 9 90\nA 60 600\nR 8\nS\n";
        expect_noticed(nine, &[1, 1], &[(&[0, 1], due), (&[1, 0], due)]);
        let passed = "N 8 64\nA 10 100\nA 60 600\nR 8\nS\nS\n";
        expect_noticed(passed, &[1, 1], &[(&[0, 1], due), (&[1, 0], due)]);
        let due = "0 [0, 1] is to be answered";
        let ten = "N 8 64\nA 10 100\nA 60 600\nR 8\nS\n";
        expect_noticed(ten, &[0, 1], &[(&[1, 1], due), (&[0, 0], due)]);
    }

    #[test]
    fn a_move_of_too_many_steps_is_noticed() {
        // One bucket is filled, and fewer than ten are empty.
        expect_noticed(
            "N 8 8\nA 7 70\nR 1\nS\n",
            &[1, 0],
            &[(&[1, 1], "2 steps or more, with 1 as its bound")],
        );
        // Ten are empty, and all of them come first.
        expect_noticed(
            "N 8 16\nA 10 100\nR 1\nS\nS\n",
            &[1, 0],
            &[(&[1, 1], "3 steps or more, with 2 as its bound")],
        );
        // Of 63 empty ones three take no step of their own.
        expect_noticed(
            &("N 8 64\nA 63 630\nR 1\n".to_string() + &"S\n".repeat(7)),
            &[1, 0],
            &[(&[1, 1], "8 steps or more, with 7 as its bound")],
        );
        // The filled buckets are those that the move began with, and the steps of
        // adds and deletes count too: both keys of bucket 1, key 2, and none.
        expect_noticed(
            "N 8 8\nA 1 10\nA 2 20\nA 9 90\nA 4 40\nR 1\nA 3 30\nD 4\nS\n",
            &[0, 0],
            &[(&[0, 1], "4 steps or more, with 3 as its bound")],
        );
        // A refused one's does not: the move goes on with its second step of two.
        expect_noticed(
            "N 4 16\nA 15 0\nR 1\nA 1 0\nA 1 0\nD 2\nS\n",
            &[1, 0],
            &[(&[1, 1], "3 steps or more, with 2 as its bound")],
        );
        // Another move has its own, behind an end and behind a start.
        expect_noticed(
            "N 8 8\nA 1 10\nA 2 20\nR 1\nS\nS\nR 2\nS\n",
            &[2, 0],
            &[(&[2, 1], "2 steps or more, with 1 as its bound")],
        );
        expect_noticed(
            "N 8 8\nA 1 10\nA 2 20\nR 1\nS\nN 8 4\nA 1 10\nR 1\nS\n",
            &[1, 0],
            &[(&[1, 1], "2 steps or more, with 1 as its bound")],
        );
    }

    /// What a script would be answered if its adds and deletes took no step, or a
    /// refused one did, or another call.
    #[test]
    fn wrong_steps_inside_other_calls_are_noticed() {
        // One key in bucket 0, two in bucket 1, three in bucket 2 and one in bucket 3.
        let begin = "N 8 8\nA 0 0\nA 1 0\nA 9 0\nA 2 0\nA 10 0\nA 18 0\nA 3 0\nR 16\n";
        for (lines, moved, wrong) in [
            ("A 4 0\n", 2, 1),
            ("D 2\n", 2, 1),
            ("D 0\nD 1\n", 3, 1),
            ("A 4 0\nA 5 0\n", 2, 3),
            ("A 3 0\n", 1, 2),
            ("D 4\n", 1, 2),
            ("F 0\nV 0 0\nC 0\n", 1, 2),
        ] {
            let due = format!("0 [{moved}, 1] is to be answered");
            let script = format!("{begin}{lines}S\n");
            expect_noticed(&script, &[moved, 1], &[(&[wrong, 1], &due)]);
        }
        // Behind the end that an add's step has made, and before one that a refused
        // delete's has not.
        let ended = "N 2 2\nA 1 0\nR 4\nA 3 0\nC 1\n";
        expect_noticed(
            ended,
            &[3, 1, 1, 0],
            &[(&[0, 2, 1, 0, 3, 0], "key 3 is not")],
        );
        let moving = "N 2 2\nA 1 0\nR 4\nD 3\nC 1\n";
        expect_noticed(moving, &[0, 1, 1, 0], &[(&[3, 1, 1, 0], "after cursor 1")]);
    }

    #[test]
    fn answers_unlike_the_plain_map_are_noticed() {
        for (script, wrong) in [
            ("S\n", Err(Refusal::NotMoving)),
            ("N 1 1\n", Err(Refusal::BadSize)),
            ("N 1 1\nA 1 1\nA 1 2\n", Err(Refusal::Full)),
            ("N 1 1\nA 1 1\nA 2 2\n", Ok(vec![])),
            ("N 1 1\nA 1 1\nF 1\n", Ok(vec![2])),
            ("N 1 1\nA 1 1\nF 1\n", Err(Refusal::Absent)),
            ("N 1 1\nD 1\n", Ok(vec![])),
            ("N 1 1\nV 1 1\n", Ok(vec![])),
            ("N 1 1\nR 2\n", Err(Refusal::BadSize)),
            ("N 1 1\nR 2\nS\n", Ok(vec![0, 1])),
            ("N 1 1\n\n", Ok(vec![])),
        ] {
            assert!(forged(script, wrong).is_err(), "{script}");
        }
    }

    #[test]
    fn wrong_limits_are_noticed() {
        for (script, wrong) in [
            ("N 4096 4096\n", Err(Refusal::BadSize)),
            ("N 4097 4096\n", Ok(vec![])),
            ("N 65536 4096\n", Ok(vec![])),
            ("N 0 4096\n", Ok(vec![])),
            ("N 1 8192\n", Ok(vec![])),
            ("N 1 65536\n", Ok(vec![])),
            ("N 1 4095\n", Ok(vec![])),
            ("N 1 0\n", Ok(vec![])),
            ("N 1 1\nR 4096\n", Err(Refusal::BadSize)),
            ("N 1 1\nR 8192\n", Ok(vec![])),
            ("N 1 1\nR 65536\n", Ok(vec![])),
            ("N 1 1\nR 3\n", Ok(vec![])),
            ("N 1 1\nR 1\n", Ok(vec![])),
            // What comes before a size that is too large.
            ("R 8192\n", Err(Refusal::BadSize)),
            ("N 1 1\nR 2\nR 8192\n", Err(Refusal::BadSize)),
        ] {
            assert!(forged(script, wrong).is_err(), "{script}");
        }
    }
}
