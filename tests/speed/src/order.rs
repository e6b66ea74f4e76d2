//! What both programs are asked to do: a line with a letter, a number of keys or
//! of scan chains, and a number of rounds.

use crate::store::is_legal_size;
use std::fmt;

/// The cells of a store whose cells are spread over scan chains, and the most
/// scan chains that they can be spread over.
pub const CELLS: u32 = 65000;

#[derive(Clone, Copy, Debug, PartialEq, Eq)]
pub enum Work {
    /// Each round starts the store anew and adds every key.
    Adds,
    Finds,
    Changes,
    /// Each round is one of adds, and then deletes every key.
    Deletes,
    /// Each round is a whole walk.
    Walks,
    /// Each round is a whole pass with a safe iterator.
    Passes,
    /// Each round is a check of the whole store.
    Checks,
    /// Each round is a mend of the whole store.
    Mends,
    /// Adds in a move, with all that comes before them.
    AddsInMove,
    /// Deletes in a move, with all that comes before them.
    DeletesInMove,
    /// What comes before either, alone.
    Halves,
    /// Each round starts with a small table and adds every key.
    Growth,
    /// Adds and finds of cells that are spread over so many scan chains, and checks
    /// and mends of such a store.
    SpreadAdds,
    SpreadFinds,
    SpreadChecks,
    SpreadMends,
}

impl Work {
    pub const ALL: [Work; 16] = [
        Work::Adds,
        Work::Finds,
        Work::Changes,
        Work::Deletes,
        Work::Walks,
        Work::Passes,
        Work::Checks,
        Work::Mends,
        Work::AddsInMove,
        Work::DeletesInMove,
        Work::Halves,
        Work::Growth,
        Work::SpreadAdds,
        Work::SpreadFinds,
        Work::SpreadChecks,
        Work::SpreadMends,
    ];

    fn letter(self) -> char {
        match self {
            Work::Adds => 'A',
            Work::Finds => 'F',
            Work::Changes => 'V',
            Work::Deletes => 'D',
            Work::Walks => 'W',
            Work::Passes => 'P',
            Work::Checks => 'C',
            Work::Mends => 'R',
            Work::AddsInMove => 'M',
            Work::DeletesInMove => 'E',
            Work::Halves => 'H',
            Work::Growth => 'G',
            Work::SpreadAdds => 'S',
            Work::SpreadFinds => 'T',
            Work::SpreadChecks => 'Y',
            Work::SpreadMends => 'Z',
        }
    }

    /// Whether its number is one of scan chains, and not of keys.
    pub fn is_spread(self) -> bool {
        matches!(
            self,
            Work::SpreadAdds | Work::SpreadFinds | Work::SpreadChecks | Work::SpreadMends
        )
    }

    fn takes(self, number: u32) -> bool {
        if self.is_spread() {
            (1..=CELLS).contains(&number)
        } else {
            is_legal_size(number)
        }
    }
}

/// So many rounds on a store for so many keys, or with cells that are spread over
/// so many scan chains.
#[derive(Clone, Copy, Debug, PartialEq, Eq)]
pub struct Order {
    pub work: Work,
    pub number: u32,
    pub rounds: u32,
}

impl fmt::Display for Order {
    fn fmt(&self, f: &mut fmt::Formatter) -> fmt::Result {
        write!(f, "{} {} {}", self.work.letter(), self.number, self.rounds)
    }
}

impl Order {
    pub fn parse(text: &str) -> Option<Order> {
        let line = text.strip_suffix('\n').unwrap_or(text);
        let words: Vec<&str> = line.split(' ').collect();
        let [letter, number, rounds] = words[..] else {
            return None;
        };
        let work = Work::ALL
            .into_iter()
            .find(|work| work.letter().to_string() == letter)?;
        let number = parse_number(number).filter(|&number| work.takes(number))?;
        let rounds = parse_number(rounds)?;
        Some(Order {
            work,
            number,
            rounds,
        })
    }
}

/// A number as a script has it: `parse` alone would take a sign and any number
/// of zeros.
fn parse_number(word: &str) -> Option<u32> {
    let is_plain = word.len() <= 10 && word.bytes().all(|b| b.is_ascii_digit());
    word.parse().ok().filter(|_| is_plain)
}

#[cfg(test)]
mod tests {
    use super::*;

    #[test]
    fn orders_are_read_as_they_are_written() {
        for work in Work::ALL {
            for number in [1, 4096, 65536, CELLS] {
                let order = Order {
                    work,
                    number,
                    rounds: 7,
                };
                let expected = Some(order).filter(|_| work.takes(number));
                assert_eq!(Order::parse(&order.to_string()), expected);
                assert_eq!(Order::parse(&format!("{order}\n")), expected);
            }
        }
        let longest = "W 0000065536 4294967295\n";
        assert_eq!(longest.len(), 24);
        assert!(Order::parse(longest).is_some());
    }

    #[test]
    fn each_work_has_a_letter_of_its_own() {
        let mut letters = Work::ALL.map(Work::letter).to_vec();
        letters.sort();
        letters.dedup();
        assert_eq!(letters.len(), Work::ALL.len());
    }

    #[test]
    fn numbers_of_keys_are_powers_of_two_and_numbers_of_scan_chains_any() {
        for number in 1..=70000u32 {
            for work in Work::ALL {
                let is_good = match work.letter() {
                    'S' | 'T' | 'Y' | 'Z' => number <= 65000,
                    _ => number <= 65536 && number.count_ones() == 1,
                };
                assert_eq!(work.takes(number), is_good, "{work:?} {number}");
            }
        }
    }

    #[test]
    fn bad_orders_are_refused() {
        for text in [
            "",
            "\n",
            "A",
            "A ",
            "A 1",
            "A 1 ",
            "A  1",
            "A  1 1",
            "A 1  1",
            "A 1 1 ",
            "A 1 1 1",
            " A 1 1",
            "X 1 1",
            "AA 1 1",
            "a 1 1",
            "A +1 1",
            "A 1 +1",
            "A 1 1\n\n",
            "A 1 4294967296",
            "A 1 00000000001",
            "A 00000000001 1",
            "A 0 1",
            "A 3 1",
            "A 4095 1",
            "A 131072 1",
            "A 4294967296 1",
            "S 0 1",
            "T 65001 1",
            "S 4294967296 1",
        ] {
            assert_eq!(Order::parse(text), None, "{text:?}");
        }
    }
}
