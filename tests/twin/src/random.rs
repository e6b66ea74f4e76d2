//! Random scripts. The same seed always gives the same script.
//!
//! The generator runs the model beside the script that it writes, because a
//! walk has to be handed the cursors that its calls are answered.

use crate::program::{Command, Program, MAX_SCRIPT, ROOM};
use crate::store::{Aim, Store, MAX_SIZE};

/// The splitmix64 generator: small, quick, and good enough for scripts.
pub struct Random(u64);

impl Random {
    pub fn new(seed: u64) -> Self {
        Random(seed)
    }

    pub fn next(&mut self) -> u64 {
        self.0 = self.0.wrapping_add(0x9e37_79b9_7f4a_7c15);
        let mut mixed = self.0;
        mixed = (mixed ^ (mixed >> 30)).wrapping_mul(0xbf58_476d_1ce4_e5b9);
        mixed = (mixed ^ (mixed >> 27)).wrapping_mul(0x94d0_49bb_1331_11eb);
        mixed ^ (mixed >> 31)
    }

    fn any(&mut self) -> u32 {
        (self.next() >> 32) as u32
    }

    /// A number below `limit`.
    pub fn below(&mut self, limit: u32) -> u32 {
        self.any() % limit
    }

    fn one_in(&mut self, times: u32) -> bool {
        self.below(times) == 0
    }

    fn index(&mut self, length: usize) -> usize {
        self.below(length as u32) as usize
    }

    pub fn pick<T: Copy>(&mut self, choices: &[T]) -> T {
        choices[self.index(choices.len())]
    }
}

/// The seed of one script of a run, so that scripts do not hang together.
pub fn script_seed(seed: u64, number: u64) -> u64 {
    Random::new(seed).next() ^ Random::new(!number).next()
}

#[derive(Clone, Copy)]
enum Action {
    Start,
    Add,
    Update,
    Delete,
    Find,
    Resize,
    Step,
    /// The next call of a walk from 0.
    Walk,
    /// A cursor that came from no walk.
    Forge,
    Wrong,
    /// An add or a delete in the middle of a move.
    Carry,
}

const ACTIONS: [Action; 11] = {
    use Action::*;
    [
        Start, Add, Update, Delete, Find, Resize, Step, Walk, Forge, Wrong, Carry,
    ]
};

/// How often each action comes up in a stretch of a script, in their order.
type Mood = [u32; 11];

const MOODS: [Mood; 6] = [
    // Fill.
    [1, 200, 6, 6, 6, 6, 12, 12, 2, 6, 6],
    // Drain.
    [1, 12, 6, 160, 6, 6, 12, 12, 2, 6, 6],
    // Walk through resizes.
    [1, 20, 4, 16, 2, 30, 50, 120, 6, 4, 20],
    // Look things up.
    [1, 20, 60, 20, 60, 10, 20, 10, 20, 6, 10],
    // Anything, wrong lines above all.
    [8, 20, 10, 10, 10, 20, 20, 20, 20, 60, 20],
    // Carry moves on.
    [1, 6, 6, 6, 6, 6, 12, 20, 2, 6, 100],
];

/// Those of a script whose tables are sparse.
const SPARSE_MOODS: [Mood; 4] = [
    // Step on.
    [1, 8, 2, 4, 2, 16, 400, 16, 2, 8, 8],
    // Do anything between two steps.
    [1, 40, 10, 20, 10, 20, 120, 40, 10, 30, 20],
    // Walk on with the steps.
    [0, 8, 2, 8, 2, 16, 100, 100, 2, 4, 8],
    // Carry moves on.
    [0, 4, 4, 4, 4, 4, 20, 10, 2, 4, 200],
];

/// Those of a script whose tables grow by themselves.
const GROWING_MOODS: [Mood; 3] = [
    // Fill.
    [0, 200, 4, 4, 4, 4, 20, 20, 2, 4, 40],
    // Carry moves on.
    [1, 20, 4, 4, 4, 4, 12, 20, 2, 4, 200],
    // Walk on as tables grow.
    [0, 60, 2, 8, 2, 8, 20, 100, 2, 4, 60],
];

/// The least size of a table that few keys leave sparse.
const LARGE: u32 = 64;

/// The largest table that is walked from end to end behind a refused call.
const SMALL: u32 = 16;

/// Capacities and sizes that the program has no room for. Some are legal for the
/// library: a program that forgot its own limit would be found out by them.
const BEYOND: [u32; 9] = [
    ROOM + 1,
    5000,
    2 * ROOM,
    MAX_SIZE / 2,
    MAX_SIZE,
    MAX_SIZE + 1,
    2 * MAX_SIZE,
    1 << 31,
    u32::MAX,
];

/// The keys of a script: few, and often of the same buckets.
struct Keys {
    base: u32,
    stride: u32,
    count: u32,
}

impl Keys {
    fn choose(random: &mut Random) -> Self {
        let any = random.any();
        Keys {
            base: random.pick(&[0, 0, 1, 65_536, u32::MAX - 40, any]),
            stride: random.pick(&[1, 1, 1, 2, 4, 8, 16, 64, 4096, 65_536, 65_537, any | 1]),
            count: random.pick(&[3, 6, 12, 24, 24, 60, 200]),
        }
    }

    /// Of buckets far from each other, or so far that one bucket more or less
    /// between two of them decides whether a step comes from one to the other.
    fn scattered(random: &mut Random) -> Self {
        let any = random.any();
        Keys {
            base: random.pick(&[0, 9, 10, any]),
            stride: random.pick(&[10, 11, 12, 20, 21, 22, 101, any | 1]),
            count: random.pick(&[1, 3, 6, 12, 24, 60]),
        }
    }

    /// Of all buckets, or of so few of a small table that a move of it passes many
    /// empty ones, however many keys there are.
    fn crowding(random: &mut Random) -> Self {
        let any = random.any();
        Keys {
            base: random.pick(&[0, 15, 31, 63, any]),
            stride: random.pick(&[1, 3, 8, 16, 16, 32, 64]),
            count: random.pick(&[6, 12, 24, 40, 80]),
        }
    }

    fn at(&self, place: u32) -> u32 {
        self.base.wrapping_add(self.stride.wrapping_mul(place))
    }

    fn key(&self, random: &mut Random) -> u32 {
        self.at(random.below(self.count))
    }
}

/// What is special about a script.
#[derive(Clone, Copy, PartialEq, Eq)]
enum Kind {
    Common,
    /// Thousands of lines, without restarts so that the store can fill up.
    Long,
    /// Few keys in large tables, and steps that only pass empty buckets.
    Sparse,
    /// Tables that get more keys than buckets, and grow by themselves.
    Growing,
    /// About as many keys as the largest table is suggested for. One more, and a
    /// smaller table has no room to grow.
    Cramped,
}

impl Kind {
    fn choose(random: &mut Random) -> Self {
        if random.one_in(60) {
            Kind::Long
        } else if random.one_in(8) {
            Kind::Sparse
        } else if random.one_in(6) {
            Kind::Growing
        } else if random.one_in(150) {
            Kind::Cramped
        } else {
            Kind::Common
        }
    }
}

struct Generator {
    random: Random,
    kind: Kind,
    keys: Keys,
    program: Program,
    script: Vec<u8>,
    /// The cursors that the walks under way are to be given next.
    walks: Vec<u32>,
}

/// Writes one script of at most the longest length.
pub fn script(seed: u64) -> Vec<u8> {
    let mut random = Random::new(seed);
    let kind = Kind::choose(&mut random);
    let keys = match kind {
        Kind::Common | Kind::Long => Keys::choose(&mut random),
        Kind::Sparse => Keys::scattered(&mut random),
        Kind::Growing => Keys::crowding(&mut random),
        // All of one bucket, and near the beginning, so that each move is short.
        Kind::Cramped => Keys {
            base: random.below(20),
            stride: ROOM,
            count: ROOM,
        },
    };
    let mut generator = Generator {
        random,
        kind,
        keys,
        program: Program::default(),
        script: Vec::new(),
        walks: Vec::new(),
    };
    generator.write();
    generator.script
}

impl Generator {
    fn write(&mut self) {
        let mut lines = self.begin();
        let moods = match self.kind {
            Kind::Common | Kind::Long => &MOODS[..],
            Kind::Sparse => &SPARSE_MOODS,
            Kind::Growing | Kind::Cramped => &GROWING_MOODS,
        };
        while lines > 0 {
            let mood = self.random.pick(moods);
            let stretch = lines.min(10 + self.random.below(2 + lines / 3));
            for _ in 0..stretch {
                match self.choose(&mood) {
                    Action::Start if matches!(self.kind, Kind::Long | Kind::Cramped) => {}
                    Action::Step if self.kind == Kind::Sparse => self.step_on(),
                    action => self.act(action),
                }
            }
            lines -= stretch;
        }
        self.finish_walks();
        if self.random.one_in(4) {
            self.script.pop();
        }
    }

    /// Writes the first lines, and answers how many are to follow.
    fn begin(&mut self) -> u32 {
        match self.kind {
            Kind::Common => {
                if !self.random.one_in(10) {
                    self.act(Action::Start);
                }
                20 + self.random.below(200)
            }
            Kind::Long => {
                self.keys.count = 5000;
                self.push(b"N 4096 64");
                5000
            }
            Kind::Sparse => {
                let near = 1 + self.random.below(self.keys.count);
                let capacity = self.random.pick(&[near, ROOM]);
                let size = self.large_size();
                self.push(format!("N {capacity} {size}").as_bytes());
                for _ in 0..self.keys.count {
                    self.act(Action::Add);
                }
                100 + self.random.below(500)
            }
            Kind::Growing => {
                let near = 1 + self.random.below(self.keys.count);
                let capacity = self.random.pick(&[near, near, 16, 32, ROOM]);
                let size = 1 << self.random.below(6);
                self.push(format!("N {capacity} {size}").as_bytes());
                100 + self.random.below(200)
            }
            Kind::Cramped => {
                self.push(format!("N {ROOM} {ROOM}").as_bytes());
                for place in 0..ROOM / 2 {
                    let key = self.keys.at(place);
                    self.push(format!("A {key} {}", place % 10).as_bytes());
                }
                // Most of these stay, and a few come and go.
                self.keys.base = self.keys.at(ROOM / 2 - 10);
                self.keys.count = 20;
                50 + self.random.below(50)
            }
        }
    }

    /// A step of the move under way. With none a resize mostly: where so many
    /// steps come, nearly all behind a move's end would be refused.
    fn step_on(&mut self) {
        let rests = self.program.store().is_some_and(|store| !store.is_moving());
        if rests && !self.random.one_in(4) {
            self.act(Action::Resize);
        } else {
            self.act(Action::Step);
        }
    }

    fn choose(&mut self, mood: &Mood) -> Action {
        let mut ticket = self.random.below(mood.iter().sum());
        for (action, &weight) in ACTIONS.into_iter().zip(mood) {
            if ticket < weight {
                return action;
            }
            ticket -= weight;
        }
        unreachable!("the ticket is below the sum of the weights")
    }

    fn act(&mut self, action: Action) {
        match action {
            Action::Walk => self.walk(),
            Action::Carry => self.carry_on(),
            _ => {
                let line = self.line(action);
                self.push(&line);
            }
        }
    }

    /// Appends a line, if it still fits, and runs it on the model.
    fn push(&mut self, line: &[u8]) -> Option<Vec<u32>> {
        if self.script.len() + line.len() + 1 > MAX_SCRIPT {
            return None;
        }
        self.script.extend(line);
        self.script.push(b'\n');
        let command = Command::parse(line)?;
        self.program.run(command).ok()
    }

    fn is_moving(&self) -> bool {
        self.program.store().is_some_and(Store::is_moving)
    }

    /// Calls a walk under way with its next cursor, or begins a new one.
    fn walk(&mut self) {
        if self.walks.is_empty() || (self.walks.len() < 4 && self.random.one_in(6)) {
            self.walks.push(0);
        }
        let index = self.random.index(self.walks.len());
        let line = format!("C {}", self.number(self.walks[index]));
        // A refused call leaves the walk at the cursor that it gave.
        if let Some(results) = self.push(line.as_bytes()) {
            self.walks[index] = results[0];
            if results[0] == 0 {
                self.walks.swap_remove(index);
            }
        }
    }

    /// An add or a delete in the middle of a move; with none a resize comes first,
    /// or what makes a table grow by itself. A refused one must not have kept the
    /// step that it would have taken, so all is looked at behind it.
    fn carry_on(&mut self) {
        if !self.is_moving() {
            let grows = matches!(self.kind, Kind::Growing | Kind::Cramped);
            if grows && !self.random.one_in(4) {
                self.outgrow();
            } else {
                self.act(Action::Resize);
            }
        }
        let line = match self.random.below(9) {
            0 => format!("A {} {}", self.key_that_is(true), self.value()),
            1 => format!("D {}", self.key_that_is(false)),
            2 | 3 => format!("D {}", self.last_to_move()),
            4 | 5 => format!("D {}", self.key_that_is(true)),
            _ => format!("A {} {}", self.key_that_is(false), self.value()),
        };
        if self.push(line.as_bytes()).is_none() {
            self.look_round();
        }
    }

    /// Moves the keys to a table with no more buckets than keys, if the one that
    /// there is has more, and adds one more.
    fn outgrow(&mut self) {
        let Some(store) = self.program.store() else {
            return;
        };
        let keys = store.held() as u32 + 1;
        if keys < store.size() {
            let largest = keys.ilog2();
            let any = self.random.below(largest + 1);
            let size = 1 << self.random.pick(&[any, largest]);
            self.push(format!("R {size}").as_bytes());
            while self.is_moving() && self.push(b"S").is_some() {}
        }
        let line = format!("A {} {}", self.key_that_is(false), self.value());
        self.push(line.as_bytes());
    }

    /// A key that is held, or one that is not, if a few draws come to one.
    fn key_that_is(&mut self, held: bool) -> u32 {
        let mut key = self.key();
        for _ in 0..10 {
            let found = self.program.store().map(|store| store.find(key).is_ok());
            if found == Some(held) {
                break;
            }
            key = self.key();
        }
        key
    }

    /// The key that the move under way would come to last. Deleted again and again,
    /// it leaves a move that has not come to its end without a key to move.
    fn last_to_move(&mut self) -> u32 {
        let store = self.program.store();
        let last = store.and_then(|store| store.unmoved().last());
        last.unwrap_or_else(|| self.key())
    }

    /// A whole walk, or in a larger table the call that hands out the bucket that
    /// a step would move next.
    fn look_round(&mut self) {
        let Some(store) = self.program.store() else {
            return;
        };
        if store.size() > SMALL {
            let next = store.unmoved().next();
            if let Some(key) = next {
                self.push(format!("C {key}").as_bytes());
            }
            return;
        }
        let mut cursor = 0;
        loop {
            let results = self.push(format!("C {cursor}").as_bytes());
            cursor = results.map_or(0, |results| results[0]);
            if cursor == 0 {
                return;
            }
        }
    }

    /// Most walks should reach their end, or their promise is never tested.
    fn finish_walks(&mut self) {
        for _ in 0..200 {
            if self.walks.is_empty() {
                return;
            }
            if self.random.one_in(4) {
                let action = self
                    .random
                    .pick(&[Action::Step, Action::Carry, Action::Resize]);
                self.act(action);
            }
            self.walk();
        }
    }

    /// A line of its own for an action; a walk's line comes from its cursor, and one
    /// that carries a move on from the keys held.
    fn line(&mut self, action: Action) -> Vec<u8> {
        let (letter, numbers) = match action {
            Action::Start => ("N", vec![self.capacity(), self.start_size()]),
            Action::Add => ("A", vec![self.key(), self.value()]),
            Action::Update => ("V", vec![self.key(), self.value()]),
            Action::Delete => ("D", vec![self.key()]),
            Action::Find => ("F", vec![self.key()]),
            Action::Resize => ("R", vec![self.new_size()]),
            Action::Step => ("S", vec![]),
            Action::Forge => ("C", vec![self.forged_cursor()]),
            Action::Wrong => return self.wrong_line(),
            Action::Walk | Action::Carry => unreachable!("written by `act`"),
        };
        let mut line = letter.to_string();
        for number in numbers {
            line.push(' ');
            line += &self.number(number);
        }
        line.into_bytes()
    }

    /// A number's digits, at times with legal zeros in front.
    fn number(&mut self, number: u32) -> String {
        let width = if self.random.one_in(40) {
            self.random.index(11)
        } else {
            0
        };
        format!("{number:0width$}")
    }

    fn key(&mut self) -> u32 {
        if self.random.one_in(50) {
            return self.random.any();
        }
        self.keys.key(&mut self.random)
    }

    fn value(&mut self) -> u32 {
        let any = self.random.any();
        self.random.pick(&[any % 10, any % 1000, any, u32::MAX])
    }

    fn capacity(&mut self) -> u32 {
        if self.random.one_in(48) {
            return 0;
        }
        if self.random.one_in(16) {
            return self.random.pick(&BEYOND);
        }
        let near = 1 + self.random.below(self.keys.count);
        self.random
            .pick(&[1, 2, 5, near, near, near, ROOM - 1, ROOM, ROOM])
    }

    fn start_size(&mut self) -> u32 {
        if self.random.one_in(12) {
            return self.illegal_size();
        }
        self.legal_size()
    }

    fn legal_size(&mut self) -> u32 {
        if self.kind == Kind::Sparse && !self.random.one_in(4) {
            return self.large_size();
        }
        // Small tables mostly: a walk of a large one fills a whole script.
        let largest = if self.random.one_in(12) { ROOM } else { 32 };
        1 << self.random.below(largest.ilog2() + 1)
    }

    fn large_size(&mut self) -> u32 {
        LARGE << self.random.below((ROOM / LARGE).ilog2() + 1)
    }

    fn illegal_size(&mut self) -> u32 {
        if self.random.one_in(2) {
            return self.random.pick(&BEYOND);
        }
        let any = self.random.any();
        self.random.pick(&[0, 3, 5, 6, 12, ROOM - 1, any])
    }

    /// A size for a resize, by the size and the keys of the present store.
    fn new_size(&mut self) -> u32 {
        let legal = self.legal_size();
        let illegal = self.illegal_size();
        let Some(store) = self.program.store() else {
            return self.random.pick(&[legal, illegal]);
        };
        let size = store.size();
        // A sparse script mostly goes back to a large table.
        if self.kind == Kind::Sparse && size < LARGE {
            return self.random.pick(&[legal, legal, legal, illegal]);
        }
        let doubled = (2 * size).min(ROOM);
        let choices = [
            legal,
            legal,
            doubled,
            doubled,
            (4 * size).min(ROOM),
            (size / 2).max(1),
            (size / 2).max(1),
            (size / 4).max(1),
            store.suggested_size(Aim::Grow).min(ROOM),
            store.suggested_size(Aim::Shrink),
            size,
            illegal,
        ];
        self.random.pick(&choices)
    }

    fn forged_cursor(&mut self) -> u32 {
        let any = self.random.any();
        self.random.pick(&[
            any % 8,
            any % 64,
            any % 4096,
            any,
            1 << (any % 32),
            u32::MAX,
        ])
    }

    /// A good line with something done to it. At times it is still a good one.
    fn wrong_line(&mut self) -> Vec<u8> {
        use Action::*;
        let action = self
            .random
            .pick(&[Start, Add, Update, Delete, Find, Resize, Step, Forge]);
        let mut line = self.line(action);
        let place = self.random.index(line.len());
        let stray = match self.random.any() as u8 {
            // A line feed would make two lines of it.
            b'\n' => b'\r',
            byte => byte,
        };
        match self.random.below(14) {
            0 => line.clear(),
            1 => line.insert(0, b' '),
            2 => line.push(b' '),
            3 => line.push(b'\r'),
            4 => line.insert(place, b' '),
            5 => line.insert(place, stray),
            6 => line[place] = stray,
            7 => line.truncate(place),
            8 => line.make_ascii_lowercase(),
            9 => line.extend(b" 1"),
            10 => {
                // A last number that is too large by a bit or by a lot.
                let last = line.iter().rposition(|&byte| byte == b' ');
                line.truncate(last.unwrap_or(line.len()));
                let excess = self.random.pick(&[0, 1, 4, u32::MAX]);
                line.extend(format!(" {}", (1 << 32) + u64::from(excess)).bytes());
            }
            11 => line.extend(b"00000000000"),
            12 => line[place] = b'\t',
            _ => drop(line.remove(place)),
        }
        line
    }
}

#[cfg(test)]
mod tests {
    use super::*;
    use crate::program::{lines, replies};
    use crate::store::{is_legal_capacity, is_legal_size, Refusal, Step};
    use crate::walk::{Tally, Witness};
    use std::collections::BTreeMap;
    use std::sync::OnceLock;

    #[test]
    fn scripts_are_repeatable_and_unlike() {
        assert_eq!(script(script_seed(1, 2)), script(script_seed(1, 2)));
        assert_ne!(script(script_seed(1, 2)), script(script_seed(1, 3)));
        assert_ne!(script(script_seed(1, 2)), script(script_seed(2, 2)));
        assert_ne!(script(script_seed(1, 2)), script(script_seed(2, 1)));
    }

    /// Many, since most keys that come more than once are those of a few long scripts.
    fn thousand_scripts() -> &'static [Vec<u8>] {
        static SCRIPTS: OnceLock<Vec<Vec<u8>>> = OnceLock::new();
        let seeds = (0..1000).map(|number| script_seed(1, number));
        SCRIPTS.get_or_init(|| seeds.map(script).collect())
    }

    /// Lazy scripts would agree with any program: every answer that a script
    /// can bring about has to come up often, and so do walks through resizes,
    /// with keys that come again as a table shrinks or are added ahead, and moves
    /// to their end, with steps that only pass empty buckets, and with steps inside
    /// adds and deletes, and tables that grow by themselves, or have no room to.
    #[test]
    fn scripts_reach_every_answer() {
        let mut answers: BTreeMap<u32, usize> = BTreeMap::new();
        let mut sum = Tally::default();
        let mut longest = 0;
        for script in thousand_scripts() {
            longest = longest.max(script.len());
            let mut witness = Witness::default();
            for exchange in replies(script) {
                witness.observe(&exchange).unwrap();
                let answer = exchange.reply.map_or_else(|refusal| refusal as u32, |_| 0);
                *answers.entry(answer).or_default() += 1;
            }
            sum += witness.tally();
        }
        assert_eq!(
            answers.keys().copied().collect::<Vec<_>>(),
            [0, 1, 3, 4, 5, 6, 7, 8, 10]
        );
        assert!(answers.values().all(|&count| count > 700), "{answers:?}");
        assert!(sum.ended > 3000 && sum.resized > 1000, "{sum:?}");
        assert!(sum.shrunk > 1000 && sum.repeated > 1000, "{sum:?}");
        assert!(sum.late > 3000, "{sum:?}");
        assert!(sum.moves > 2000 && sum.passing > 5000, "{sum:?}");
        assert!(sum.inside > 10_000 && sum.ended_inside > 2000, "{sum:?}");
        assert!(sum.grown > 2000 && sum.grown_at_once > 700, "{sum:?}");
        assert!(sum.cramped > 50, "{sum:?}");
        assert!(longest <= MAX_SCRIPT && longest > 20_000, "{longest}");
    }

    /// A step that only passed empty buckets has to be followed by calls of every
    /// kind before its move is over, and by steps of every outcome.
    #[test]
    fn scripts_do_everything_behind_a_passing_step() {
        let mut seen: BTreeMap<String, usize> = BTreeMap::new();
        for script in thousand_scripts() {
            let mut passed = false;
            let mut program = Program::default();
            for line in lines(script) {
                let command = Command::parse(line);
                let letter = command.map_or('?', |_| line[0].into());
                let reply = command.map_or(Err(Refusal::BadLine), |command| program.run(command));
                let answer = match reply {
                    Ok(step) if letter == 'S' => format!("{} {}", step[0].min(1), step[1]),
                    Ok(_) => "done".to_string(),
                    Err(refusal) => (refusal as u32).to_string(),
                };
                let what = format!("{letter} {answer}");
                let moving = program.store().is_some_and(Store::is_moving);
                let begins = what == "S 0 1";
                if passed {
                    *seen.entry(what).or_default() += 1;
                }
                passed = moving && (begins || passed);
            }
        }
        let all = [
            "? 10", "A 4", "A 5", "A done", "C done", "D 3", "D done", "F 3", "F done", "N 6",
            "N done", "R 7", "S 0 0", "S 0 1", "S 1 0", "S 1 1", "V 3", "V done",
        ];
        assert!(seen.keys().eq(all.iter()), "{seen:?}");
        assert!(seen.values().all(|&count| count > 10), "{seen:?}");
    }

    /// What a step of the move under way would answer, before an add or a delete.
    fn step_of(store: &Store, command: Command) -> Option<Step> {
        let carries = matches!(command, Command::Add { .. } | Command::Delete { .. });
        (carries && store.is_moving()).then(|| store.clone().step().unwrap())
    }

    /// Adds and deletes have to come up in the middle of moves to a larger table, to
    /// a smaller one, and of those that an add began by itself, and be answered and
    /// refused, each where a step moves a bucket, where it only passes empty ones,
    /// and where it ends the move with the last keys or with none left. Only a full
    /// store always has one left: a delete would have made room, and an add behind
    /// it have ended the move.
    #[test]
    fn scripts_carry_moves_on_in_every_way() {
        let mut seen: BTreeMap<String, usize> = BTreeMap::new();
        let mut emptied = 0;
        for script in thousand_scripts() {
            let mut program = Program::default();
            let mut way = "";
            for line in lines(script) {
                let Some(command) = Command::parse(line) else {
                    continue;
                };
                let step = program.store().and_then(|store| step_of(store, command));
                let number = program
                    .run(command)
                    .map_or_else(|refusal| refusal as u32, |_| 0);
                let Some(store) = program.store() else {
                    continue;
                };
                let letter = char::from(line[0]);
                if let Some(Step { moved, moving }) = &step {
                    let (moved, moving) = (moved.min(&1), u32::from(*moving));
                    let what = format!("{way} {letter} {number}, {moved} {moving}");
                    *seen.entry(what).or_default() += 1;
                    let left = store.is_moving() && store.unmoved().next().is_none();
                    emptied += usize::from(letter == 'D' && number == 0 && left);
                }
                let goes_on = step.is_some_and(|step| step.moving);
                match command {
                    Command::Resize { size } if number == 0 => {
                        way = if size > store.size() { "up" } else { "down" };
                    }
                    Command::Add { .. } if number == 0 && store.is_moving() && !goes_on => {
                        way = "by itself";
                    }
                    _ => {}
                }
            }
        }
        let mut all = Vec::new();
        for way in ["by itself", "down", "up"] {
            for call in ["A 0", "A 4", "A 5", "D 0", "D 3"] {
                let steps = ["0 0", "0 1", "1 0", "1 1"];
                let possible = steps.iter().skip(usize::from(call == "A 5"));
                all.extend(possible.map(|step| format!("{way} {call}, {step}")));
            }
        }
        assert!(seen.keys().eq(all.iter()), "{seen:?}");
        assert!(seen.values().all(|&count| count > 20), "{seen:?}");
        assert!(emptied > 200, "{emptied}");
    }

    /// Whether the program's own limit is all that speaks against the line.
    fn lacks_room(command: Command) -> bool {
        match command {
            Command::Start { capacity, size } => {
                is_legal_capacity(capacity) && is_legal_size(size) && capacity.max(size) > ROOM
            }
            Command::Resize { size } => is_legal_size(size) && size > ROOM,
            _ => false,
        }
    }

    /// Such lines have to come up with no store yet, at rest and during a move,
    /// or no script would tell the program's limit from the library's.
    #[test]
    fn scripts_ask_for_more_than_the_room_in_every_state() {
        let mut refusals: BTreeMap<(Option<bool>, u8, u32), usize> = BTreeMap::new();
        for script in thousand_scripts() {
            let mut program = Program::default();
            for line in lines(script) {
                let Some(command) = Command::parse(line) else {
                    continue;
                };
                let moving = program.store().map(Store::is_moving);
                let reply = program.run(command);
                if lacks_room(command) {
                    let refusal = reply.unwrap_err() as u32;
                    *refusals.entry((moving, line[0], refusal)).or_default() += 1;
                }
            }
        }
        assert_eq!(
            refusals.keys().copied().collect::<Vec<_>>(),
            [
                (None, b'N', 6),
                (None, b'R', 1),
                (Some(false), b'N', 6),
                (Some(false), b'R', 6),
                (Some(true), b'N', 6),
                (Some(true), b'R', 7),
            ]
        );
        assert!(refusals.values().all(|&count| count > 10), "{refusals:?}");
    }
}
