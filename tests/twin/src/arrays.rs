//! The arrays on which a program's fingerprints are compared with the twin's.
//!
//! The program takes arrays of six numbers of eight bytes, the lowest byte
//! first, and answers each with a line: its fingerprint in decimal.

use crate::fingerprint::{fingerprint, Numbers};
use crate::random::Random;
use crate::run::{exchange, expect_end, read_line, show, Failure};
use std::io::{self, BufRead, Read, Write};
use std::path::Path;

/// The bytes of an array.
const ARRAY: usize = 48;

/// Single bits and the like, alone at each place and at all of them; then random ones.
pub fn all(seed: u64, count: u64) -> Vec<Numbers> {
    let mut random = Random::new(seed);
    let mut arrays = edges();
    arrays.extend((0..count).map(|_| random_array(&mut random)));
    arrays
}

fn edges() -> Vec<Numbers> {
    let bits = (0..64).map(|bit| 1 << bit);
    let mut arrays = Vec::new();
    for number in bits.chain([0, u64::MAX, u64::MAX - 1, u64::MAX >> 1]) {
        arrays.push([number; 6]);
        for place in 0..6 {
            let mut alone = [0; 6];
            alone[place] = number;
            arrays.push(alone);
        }
    }
    arrays
}

fn random_array(random: &mut Random) -> Numbers {
    match random.below(3) {
        0 => [(); 6].map(|()| random.next()),
        1 => [(); 6].map(|()| edge(random)),
        _ => of_store(random),
    }
}

/// A number at or near an end of the range, or at a power of two.
fn edge(random: &mut Random) -> u64 {
    let power = 1 << random.below(64);
    let few = u64::from(random.below(4));
    random.pick(&[few, u64::MAX - few, power, power - 1])
}

/// Such numbers as a store has: at rest the other table has neither size nor keys.
fn of_store(random: &mut Random) -> Numbers {
    let buffer = u64::from(random.below(2));
    let [old, new] = [(); 2].map(|()| 1 << random.below(17));
    let [held, moved] = [(); 2].map(|()| u64::from(random.below(1000)));
    if random.below(2) == 0 {
        [buffer, old, held, 1 - buffer, 0, 0]
    } else {
        [buffer, old, held, 1 - buffer, new, moved]
    }
}

/// Runs the program once on all arrays and compares its output byte for byte.
pub fn check(program: &Path, arrays: &[Numbers]) -> Result<(), Failure> {
    let input: Vec<u8> = arrays
        .iter()
        .flatten()
        .flat_map(|number| number.to_le_bytes())
        .collect();
    exchange(program, &input, |output| compare(arrays, output))
}

fn compare(arrays: &[Numbers], output: &mut impl BufRead) -> Result<(), Failure> {
    let mut found = Vec::new();
    for (index, numbers) in arrays.iter().enumerate() {
        let expected = line(numbers);
        read_line(output, expected.len(), &mut found)?;
        if found != expected.as_bytes() {
            return Err(Failure::Differs(format!(
                "the fingerprint of array {} differs\n  numbers:  {numbers:?}\n  expected: {}\n  found:    {}",
                index + 1,
                show(expected.as_bytes(), 0),
                show(&found, 0),
            )));
        }
    }
    expect_end(output, "more fingerprints than arrays")
}

fn line(numbers: &Numbers) -> String {
    format!("{}\n", fingerprint(numbers))
}

/// Answers the arrays on standard input as the program does.
pub fn answer() -> io::Result<()> {
    let mut input = Vec::new();
    io::stdin().read_to_end(&mut input)?;
    let lines: String = input
        .chunks_exact(ARRAY)
        .map(|bytes| {
            let mut numbers = [0; 6];
            for (number, eight) in numbers.iter_mut().zip(bytes.chunks_exact(8)) {
                *number = u64::from_le_bytes(eight.try_into().expect("eight bytes"));
            }
            line(&numbers)
        })
        .collect();
    io::stdout().write_all(lines.as_bytes())
}

#[cfg(test)]
mod tests {
    use super::*;
    use std::collections::BTreeSet;

    #[test]
    fn arrays_are_repeatable_and_unlike() {
        assert_eq!(all(1, 100), all(1, 100));
        assert_ne!(all(1, 100), all(2, 100));
        let arrays: BTreeSet<Numbers> = all(1, 3000).into_iter().collect();
        assert!(arrays.len() > 3000, "{}", arrays.len());
    }

    /// Else a program that leaves a number out would agree.
    #[test]
    fn every_bit_comes_up_at_every_place() {
        for place in 0..6 {
            let arrays = all(1, 0);
            let ones = arrays.iter().fold(0, |ones, numbers| ones | numbers[place]);
            let zeros = arrays
                .iter()
                .fold(0, |zeros, numbers| zeros | !numbers[place]);
            assert_eq!((ones, zeros), (u64::MAX, u64::MAX));
        }
    }

    #[test]
    fn every_kind_of_difference_is_found() {
        let arrays = [[0; 6], [1, 0, 0, 0, 0, 0]];
        let [zeros, one] = arrays.map(|numbers| line(&numbers));
        for (output, message) in [
            (format!("{zeros}{one}"), ""),
            (format!("{one}{zeros}"), "the fingerprint of array 1"),
            (zeros.clone(), "the fingerprint of array 2"),
            (format!("{zeros}0{one}"), "the fingerprint of array 2"),
            (
                format!("{zeros}{}", one.trim()),
                "the fingerprint of array 2",
            ),
            (
                format!("{zeros}{one}{one}"),
                "more fingerprints than arrays",
            ),
        ] {
            match compare(&arrays, &mut output.as_bytes()) {
                Ok(()) => assert_eq!(message, ""),
                Err(failure) => {
                    let text = failure.to_string();
                    assert!(!message.is_empty() && text.starts_with(message), "{text}");
                }
            }
        }
    }
}
