//! What is timed: the rows of the table, and a choice of some of them.

use crate::order::{Work, CELLS};
use crate::report::grouped;
use crate::work::{adds_in_move, deletes_in_move};

/// The numbers of keys, the last as many as a store can hold.
const KEYS: &[u32] = &[16, 256, 4096, 65536];

/// Those for which a table is seen to grow from four buckets on.
const GROWN: &[u32] = &[4096, 65536];

/// The numbers of scan chains that cells are spread over.
const CHAINS: &[u32] = &[1, 10, 100, 1000];

/// Those at which such a store is checked and mended, to see how these grow with the
/// length of a chain.
const LONG_CHAINS: &[u32] = &[100, 1000, SLOW];

/// So many scan chains are timed only if a word chooses their rows: a call takes
/// seconds.
const SLOW: u32 = 10000;

/// Rounds of one work, at some numbers of keys or of scan chains, and the rows
/// that their times give.
pub struct Timing {
    pub work: Work,
    /// What these rounds contain and the rows do not mean: as many rounds of another
    /// work, or else what a run without any rounds takes.
    pub less: Option<Work>,
    pub numbers: &'static [u32],
    pub rows: &'static [Row],
}

pub struct Row {
    name: &'static str,
    pub unit: Unit,
    /// How many of what the row gives are in one round, of that number.
    pub in_round: fn(u32) -> u32,
}

#[derive(Clone, Copy)]
pub enum Unit {
    Nanoseconds,
    Microseconds,
    Milliseconds,
}

/// In the order of the table, for each number.
pub const TIMINGS: [Timing; 15] = [
    timing(Work::Adds, None, KEYS, &[row("add", |keys| keys)]),
    timing(Work::Finds, None, KEYS, &[row("find", |keys| keys)]),
    timing(Work::Changes, None, KEYS, &[row("change", |keys| keys)]),
    timing(
        Work::Deletes,
        Some(Work::Adds),
        KEYS,
        &[row("delete", |keys| keys)],
    ),
    timing(
        Work::Walks,
        None,
        KEYS,
        &[whole("walk: whole"), row("walk: a call", |keys| keys)],
    ),
    timing(
        Work::Passes,
        None,
        KEYS,
        &[
            whole("careful pass: whole"),
            row("careful pass: a key", |keys| keys),
        ],
    ),
    timing(
        Work::Checks,
        None,
        KEYS,
        &[whole("check: whole"), row("check: a key", |keys| keys)],
    ),
    timing(
        Work::Mends,
        None,
        KEYS,
        &[whole("mend: whole"), row("mend: a key", |keys| keys)],
    ),
    timing(
        Work::AddsInMove,
        Some(Work::Halves),
        KEYS,
        &[row("add in a move", adds_in_move)],
    ),
    timing(
        Work::DeletesInMove,
        Some(Work::Halves),
        KEYS,
        &[row("delete in a move", deletes_in_move)],
    ),
    timing(
        Work::Growth,
        None,
        GROWN,
        &[row("growth from 4 buckets: an add", |keys| keys)],
    ),
    timing(Work::SpreadAdds, None, CHAINS, &[row("add", |_| CELLS)]),
    timing(Work::SpreadFinds, None, CHAINS, &[row("find", |_| CELLS)]),
    timing(Work::SpreadChecks, None, LONG_CHAINS, &[long("check")]),
    timing(Work::SpreadMends, None, LONG_CHAINS, &[long("mend")]),
];

const fn timing(
    work: Work,
    less: Option<Work>,
    numbers: &'static [u32],
    rows: &'static [Row],
) -> Timing {
    Timing {
        work,
        less,
        numbers,
        rows,
    }
}

const fn row(name: &'static str, in_round: fn(u32) -> u32) -> Row {
    Row {
        name,
        unit: Unit::Nanoseconds,
        in_round,
    }
}

const fn whole(name: &'static str) -> Row {
    Row {
        name,
        unit: Unit::Microseconds,
        in_round: |_| 1,
    }
}

const fn long(name: &'static str) -> Row {
    Row {
        name,
        unit: Unit::Milliseconds,
        in_round: |_| 1,
    }
}

impl Timing {
    /// The number of keys, for a number of the work.
    pub fn keys(&self, number: u32) -> u32 {
        if self.work.is_spread() {
            CELLS
        } else {
            number
        }
    }

    /// Whether a call takes seconds, so that it is timed only if a word chooses it, and
    /// a few times.
    pub fn is_slow(&self, number: u32) -> bool {
        self.work.is_spread() && number >= SLOW
    }

    pub fn name(&self, row: &Row, number: u32) -> String {
        if self.work.is_spread() {
            let plural = if number == 1 { "" } else { "s" };
            let chains = grouped(number);
            format!("cells of {chains} scan chain{plural}: {}", row.name)
        } else {
            row.name.to_string()
        }
    }
}

/// The rows to be timed: those whose name begins with one of the words, and with one
/// of the numbers of keys. Where there are no words, or no numbers, any do; but slow
/// rows want a word.
#[derive(Default)]
pub struct Choice {
    names: Vec<String>,
    keys: Vec<u32>,
}

impl Choice {
    pub fn new(words: &[String]) -> Choice {
        let mut choice = Choice::default();
        for word in words {
            match word.parse() {
                Ok(keys) => choice.keys.push(keys),
                Err(_) => choice.names.push(word.clone()),
            }
        }
        choice
    }

    /// Whether it takes any row.
    pub fn takes_any(&self) -> bool {
        TIMINGS.iter().any(|timing| {
            let mut numbers = timing.numbers.iter();
            numbers.any(|&number| !self.rows_of(timing, number).is_empty())
        })
    }

    /// The rows of a timing at one number that it takes.
    pub fn rows_of<'t>(&self, timing: &'t Timing, number: u32) -> Vec<&'t Row> {
        if timing.is_slow(number) && self.names.is_empty() {
            return Vec::new();
        }
        let keys = timing.keys(number);
        let is_taken = |row: &&Row| self.takes(&timing.name(row, number), keys);
        timing.rows.iter().filter(is_taken).collect()
    }

    pub fn takes_all(&self) -> bool {
        self.names.is_empty() && self.keys.is_empty()
    }

    fn takes(&self, name: &str, keys: u32) -> bool {
        let by_name = self.names.iter().any(|start| name.starts_with(start));
        (self.names.is_empty() || by_name) && (self.keys.is_empty() || self.keys.contains(&keys))
    }
}

#[cfg(test)]
mod tests {
    use super::*;

    #[test]
    fn a_choice_goes_by_names_and_numbers() {
        let choice = |words: &[&str]| {
            Choice::new(
                &words
                    .iter()
                    .map(|word| word.to_string())
                    .collect::<Vec<_>>(),
            )
        };
        assert!(choice(&[]).takes_all());
        assert!(choice(&[]).takes("add", 16));
        assert!(choice(&["add"]).takes("add in a move", 16));
        assert!(choice(&["add", "find"]).takes("find", 16));
        assert!(!choice(&["add"]).takes("find", 16));
        assert!(choice(&["add", "16", "256"]).takes("add", 256));
        assert!(!choice(&["add", "16"]).takes("add", 256));
        assert!(choice(&["256"]).takes("find", 256));
    }

    #[test]
    fn a_choice_takes_some_row_or_none() {
        let takes_any = |words: &[&str]| {
            let words: Vec<String> = words.iter().map(|word| word.to_string()).collect();
            Choice::new(&words).takes_any()
        };
        assert!(takes_any(&[]));
        assert!(takes_any(&["walk"]));
        assert!(takes_any(&["cells of 1,000", "65000"]));
        assert!(!takes_any(&["walk", "17"]));
        assert!(!takes_any(&["nothing"]));
    }

    #[test]
    fn slow_rows_want_a_word() {
        let rows_taken = |words: &[&str]| {
            let words: Vec<String> = words.iter().map(|word| word.to_string()).collect();
            let choice = Choice::new(&words);
            let slow = TIMINGS
                .iter()
                .filter(|timing| timing.numbers.contains(&SLOW));
            slow.map(|timing| choice.rows_of(timing, SLOW).len())
                .sum::<usize>()
        };
        let cases: [(&[&str], usize); 5] = [
            (&[], 0),
            (&["65000"], 0),
            (&["check"], 0),
            (&["cells of 10,000"], 2),
            (&["cells of 10,000 scan chains: mend"], 1),
        ];
        for (words, count) in cases {
            assert_eq!(rows_taken(words), count, "{words:?}");
        }
    }

    #[test]
    fn no_two_rows_have_the_same_name_and_keys() {
        let mut rows = Vec::new();
        for timing in &TIMINGS {
            for &number in timing.numbers {
                for row in timing.rows {
                    rows.push((timing.name(row, number), timing.keys(number)));
                }
            }
        }
        let count = rows.len();
        rows.sort();
        rows.dedup();
        assert_eq!(rows.len(), count);
    }
}
