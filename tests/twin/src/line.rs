//! The walk seen as a way along a line. It has nothing of `cursor.rs`, so that
//! a mistake there does not come again here.
//!
//! Every 32-bit number has a place on a line of 2^32 places: the number with
//! its binary digits read from right to left. A table of n buckets cuts the
//! line into n parts of equal length. Keys with the same remainder by n have
//! the same low digits, which weigh most in a place, so each bucket's keys are
//! those of one part. A walk goes from part to part, from the line's beginning
//! to its end, and a table that grows or shrinks between two calls is the same
//! line cut finer or coarser.

use std::ops::Range;

/// As many places as there are 32-bit numbers. It is also the line's end.
pub const LENGTH: u64 = 1 << 32;

/// The place of a key or of a cursor.
pub fn place(number: u32) -> u64 {
    (0..32).fold(0, |place, digit| 2 * place + u64::from(number >> digit & 1))
}

/// The number that has its place here. The line's end is no number's place: a
/// walk that has come there has ended, and is told so by 0.
pub fn number_at(here: u64) -> u32 {
    u32::try_from(here).map_or(0, |mirrored| place(mirrored) as u32)
}

/// The part with this place in it, of a line that is cut into so many.
pub fn part(place: u64, parts: u32) -> Range<u64> {
    let length = LENGTH / u64::from(parts);
    let start = place / length * length;
    start..start + length
}

#[cfg(test)]
mod tests {
    use super::*;
    use crate::cursor;

    /// The cursors of a walk along a line cut into `parts`, both zeros included.
    fn walk(parts: u32) -> Vec<u32> {
        let length = LENGTH / u64::from(parts);
        let stops = (0..=u64::from(parts)).map(|number| number * length);
        stops.map(number_at).collect()
    }

    /// Numbers of every kind: small, large, and with few or many ones.
    fn numbers() -> impl Iterator<Item = u32> {
        let powers = (0..32).flat_map(|digit| [1 << digit, !(1 << digit), u32::MAX >> digit]);
        let scattered = (0..500).map(|number: u32| number.wrapping_mul(2_654_435_761));
        (0..100).chain(powers).chain(scattered)
    }

    #[test]
    fn places_are_numbers_read_backwards() {
        assert_eq!(place(0), 0);
        assert_eq!(place(1), 2_147_483_648);
        assert_eq!(place(2), 1_073_741_824);
        assert_eq!(place(3), 3_221_225_472);
        assert_eq!(place(2_147_483_648), 1);
        assert_eq!(place(4_294_967_295), 4_294_967_295);
        assert_eq!(number_at(LENGTH), 0);
        for number in numbers() {
            assert_eq!(number_at(place(number)), number);
        }
    }

    #[test]
    fn published_walks() {
        assert_eq!(walk(1), [0, 0]);
        assert_eq!(walk(4), [0, 2, 1, 3, 0]);
        assert_eq!(walk(8), [0, 4, 2, 6, 1, 5, 3, 7, 0]);
    }

    #[test]
    fn a_bucket_is_a_part() {
        for parts in [1, 2, 4, 64, 4096, 65_536] {
            for cursor in 0..100 {
                let part = part(place(cursor), parts);
                for key in numbers() {
                    let same = key % parts == cursor % parts;
                    assert_eq!(part.contains(&place(key)), same, "{key}, {cursor}, {parts}");
                }
            }
        }
    }

    /// The model reckons another way, and comes to the same.
    #[test]
    fn the_model_goes_along_the_line() {
        for small in [1, 2, 4, 32, 1024, 16_384] {
            // Sizes further apart make groups too long for a quick test.
            for large in [2 * small, 4 * small, 4096, 65_536]
                .into_iter()
                .filter(|&large| small < large && large <= 4096 * small)
            {
                for cursor in numbers() {
                    let at = place(cursor);
                    let whole = part(at, small);
                    assert_eq!(cursor::next(cursor, small), number_at(whole.end));
                    let group = cursor::group(cursor, small, large);
                    assert_eq!(group.next, number_at(whole.end));
                    let mut reached = part(at, large).start;
                    for bucket in group.large {
                        let next = part(reached, large);
                        assert_eq!(bucket, number_at(next.start), "{cursor}, {small}, {large}");
                        reached = next.end;
                    }
                    assert_eq!(reached, whole.end, "{cursor}, {small}, {large}");
                }
            }
        }
    }
}
