//! Two sides answer the same memories, and every number is compared.

use std::collections::BTreeMap;
use std::fmt;

use crate::memories::memories;
use crate::memory::{Memory, BUCKET_ROOM, ENTRY_ROOM, FIELDS, STATE_NUMBERS};
use crate::rules::{self, Answer, Chains};

/// The three numbers of an answer that stand before the state.
const FRONT: usize = 3;

/// The numbers of a record, and of its answer.
pub const NUMBERS: usize = FRONT + STATE_NUMBERS + 2 * BUCKET_ROOM + ENTRY_ROOM;

/// An answer as it is written: verify's number, 1 if the store is undamaged, repair's number, the state that repair hands back,
/// and the rooms of the buffers behind it.
pub type Numbers = Vec<u32>;

/// Whoever answers memories: the program, the rules, or rules with a fault.
pub trait Side {
    /// The answers, of which there may be too few or too many.
    fn answers(&self, memories: &[Memory]) -> Result<Vec<Numbers>, Failure>;
}

/// A side that answers each memory by itself.
impl<F: Fn(&Memory) -> Answer> Side for F {
    fn answers(&self, memories: &[Memory]) -> Result<Vec<Numbers>, Failure> {
        Ok(memories
            .iter()
            .map(|memory| numbers(&self(memory)))
            .collect())
    }
}

pub fn numbers(answer: &Answer) -> Numbers {
    let front = [answer.verify, answer.undamaged, answer.repair];
    [&front[..], &answer.after.numbers()].concat()
}

/// A record: the lengths of the lent buffers stand where an answer has its front.
pub fn record(memory: &Memory) -> Numbers {
    let lengths = [
        memory.lengths.first as u32,
        memory.lengths.second as u32,
        memory.lengths.entries as u32,
    ];
    [&lengths[..], &memory.numbers()].concat()
}

pub enum Failure {
    Differs(Box<Difference>),
    /// The rules themselves break a promise of the request.
    Broken(String),
    /// The other side could not be asked, or did not answer as many memories as it should.
    Unanswered(String),
}

impl fmt::Display for Failure {
    fn fmt(&self, out: &mut fmt::Formatter) -> fmt::Result {
        match self {
            Failure::Differs(difference) => difference.fmt(out),
            Failure::Broken(text) => write!(out, "the rules themselves are wrong: {text}"),
            Failure::Unanswered(text) => out.write_str(text),
        }
    }
}

/// A memory that is answered otherwise than it should be, and the first number that tells.
pub struct Difference {
    memory: Memory,
    /// Which of the memories it is.
    which: String,
    place: usize,
    expected: u32,
    found: u32,
}

impl fmt::Display for Difference {
    fn fmt(&self, out: &mut fmt::Formatter) -> fmt::Result {
        writeln!(out, "{} is answered otherwise", self.which)?;
        writeln!(
            out,
            "  {}: expected {}, found {}",
            name_of(self.place),
            self.expected,
            self.found
        )?;
        writeln!(out, "  the memory before:")?;
        self.memory.fmt(out)
    }
}

/// What stands at a place of an answer.
fn name_of(place: usize) -> String {
    let state = FRONT + STATE_NUMBERS;
    let [second, entries] = [state + BUCKET_ROOM, state + 2 * BUCKET_ROOM];
    match place {
        0 => "verify's number".to_string(),
        1 => "whether verify says that the store is undamaged".to_string(),
        2 => "repair's number".to_string(),
        _ if place < state => format!("{} after the repair", FIELDS[place - FRONT]),
        _ if place < second => format!("bucket {} of the first buffer", place - state),
        _ if place < entries => format!("bucket {} of the second buffer", place - second),
        _ => {
            let part = ["link", "key", "value"][(place - entries) % 3];
            format!("the {part} of entry {}", (place - entries) / 3 + 1)
        }
    }
}

/// What a run has compared.
#[derive(Debug)]
pub struct Tally {
    pub kinds: BTreeMap<&'static str, u64>,
    pub memories: usize,
    pub undamaged: usize,
    pub refused: usize,
    /// The memories that were repaired, and given to both calls again.
    pub again: usize,
}

/// The memories of a run, and what the rules answer.
pub struct Cases {
    kinds: Vec<&'static str>,
    memories: Vec<Memory>,
    answers: Vec<Answer>,
}

impl Cases {
    pub fn new(seed: u64, count: u64) -> Self {
        let (kinds, memories): (Vec<_>, Vec<_>) = memories(seed, count).unzip();
        let answers = memories.iter().map(rules::answer).collect();
        Cases {
            kinds,
            memories,
            answers,
        }
    }

    /// Compares a side with the rules, on the memories and then on what repair has left of them.
    pub fn compare(&self, side: &impl Side) -> Result<Tally, Failure> {
        let found = side.answers(&self.memories)?;
        let which = |place: usize| format!("memory {place} ({})", self.kinds[place]);
        check(&self.memories, &self.answers, &found, which)?;
        self.check_promise()?;

        let repaired: Vec<Memory> = self
            .answers
            .iter()
            .filter(|answer| answer.repair == 0)
            .map(|answer| answer.after.clone())
            .collect();
        let expected: Vec<Answer> = repaired.iter().map(unchanged).collect();
        let which = |place: usize| format!("what a repair has left, number {place},");
        check(&repaired, &expected, &side.answers(&repaired)?, which)?;
        Ok(self.tally(repaired.len()))
    }

    /// That a repair leaves an undamaged store as it is: of the rules, and so of a side that has answered the same.
    fn check_promise(&self) -> Result<(), Failure> {
        let undamaged = self
            .memories
            .iter()
            .zip(&self.answers)
            .filter(|(_, answer)| answer.undamaged == 1);
        for (memory, answer) in undamaged {
            if !keeps_what_is_held(memory, &answer.after) {
                let text = format!("a repair changes this undamaged store\n{memory}");
                return Err(Failure::Broken(text));
            }
        }
        Ok(())
    }

    fn tally(&self, again: usize) -> Tally {
        let mut kinds = BTreeMap::new();
        for &kind in &self.kinds {
            *kinds.entry(kind).or_default() += 1;
        }
        let count = |test: fn(&Answer) -> bool| self.answers.iter().filter(|a| test(a)).count();
        Tally {
            kinds,
            memories: self.memories.len(),
            undamaged: count(|answer| answer.undamaged == 1),
            refused: count(|answer| answer.repair != 0),
            again,
        }
    }
}

/// What the request says of a repaired store without a look at it: verify accepts it, and another repair changes nothing.
fn unchanged(memory: &Memory) -> Answer {
    Answer {
        verify: 0,
        undamaged: 1,
        repair: 0,
        after: memory.clone(),
    }
}

/// Whether no bucket chain is another, and no key and value on one: "mending a store it accepts changes no held key or value and
/// no bucket chain".
fn keeps_what_is_held(before: &Memory, after: &Memory) -> bool {
    let [Some(old), Some(new)] = [before, after].map(Chains::of) else {
        return false;
    };
    let held = |memory: &Memory, entry| (memory.key(entry), memory.value(entry));
    old.buckets == new.buckets
        && old
            .buckets
            .iter()
            .flat_map(|bucket| &bucket.entries)
            .all(|&entry| held(before, entry) == held(after, entry))
}

fn check(
    memories: &[Memory],
    expected: &[Answer],
    found: &[Numbers],
    which: impl Fn(usize) -> String,
) -> Result<(), Failure> {
    for (place, ((memory, expected), found)) in memories.iter().zip(expected).zip(found).enumerate()
    {
        let expected = numbers(expected);
        let differs = expected
            .iter()
            .zip(found)
            .position(|(one, other)| one != other);
        if let Some(number) = differs {
            return Err(Failure::Differs(Box::new(Difference {
                memory: memory.clone(),
                which: which(place),
                place: number,
                expected: expected[number],
                found: found[number],
            })));
        }
    }
    match found.len() == memories.len() {
        true => Ok(()),
        false => Err(Failure::Unanswered(format!(
            "{} memories are answered by {} answers",
            memories.len(),
            found.len()
        ))),
    }
}

#[cfg(test)]
mod tests {
    use super::*;
    use crate::{DEFAULT_MEMORIES, DEFAULT_SEED};

    fn one_memory() -> [Memory; 1] {
        let (_, memory) = memories(DEFAULT_SEED, 1).next().expect("one memory");
        [memory]
    }

    #[test]
    fn every_number_is_compared() {
        let memory = one_memory();
        let expected = [rules::answer(&memory[0])];
        for place in 0..NUMBERS {
            let mut found = numbers(&expected[0]);
            found[place] ^= 1;
            match check(&memory, &expected, &[found], |_| String::new()) {
                Err(Failure::Differs(difference)) => assert_eq!(difference.place, place),
                _ => panic!("{} is not compared", name_of(place)),
            }
        }
    }

    #[test]
    fn too_few_and_too_many_answers_are_noticed() {
        let memory = one_memory();
        let expected = [rules::answer(&memory[0])];
        for count in [0, 2] {
            let found = vec![numbers(&expected[0]); count];
            let verdict = check(&memory, &expected, &found, |_| String::new());
            assert!(matches!(verdict, Err(Failure::Unanswered(_))));
        }
    }

    #[test]
    fn the_rules_keep_what_the_request_promises() {
        match Cases::new(DEFAULT_SEED, DEFAULT_MEMORIES).compare(&rules::answer) {
            Ok(tally) => assert_eq!(tally.memories as u64, DEFAULT_MEMORIES),
            Err(failure) => panic!("{failure}"),
        }
    }

    #[test]
    fn a_difference_is_told_in_words() {
        let wrong = |memory: &Memory| Answer {
            undamaged: 1,
            ..rules::answer(memory)
        };
        let Err(failure) = Cases::new(DEFAULT_SEED, 1).compare(&wrong) else {
            panic!("the fault is not noticed");
        };
        let text = failure.to_string();
        assert!(text.starts_with("memory 0 (the specification's example) is answered otherwise\n"));
        assert!(
            text.contains("whether verify says that the store is undamaged: expected 0, found 1")
        );
        assert!(text.contains("capacity"));
    }
}
