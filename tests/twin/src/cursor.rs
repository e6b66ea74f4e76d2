//! Cursor arithmetic of the walk: pure numbers, no store.
//!
//! A cursor counts upwards with its bits read backwards. Because of that the
//! buckets already visited stay visited when a table doubles or halves.

/// The cursor after `cursor` in a table of `size` buckets (a power of two).
pub fn next(cursor: u32, size: u32) -> u32 {
    // With every bit above the table's own set to one, the carry of the
    // reversed addition runs through them and leaves them all zero.
    let filled = cursor | !(size - 1);
    filled.reverse_bits().wrapping_add(1).reverse_bits()
}

/// The buckets that one call visits while two tables are live.
#[derive(Debug, PartialEq, Eq)]
pub struct Group {
    /// The bucket of the smaller table, visited first.
    pub small: u32,
    /// The buckets of the larger table, in the order of the visit.
    pub large: Vec<u32>,
    /// The cursor that the call answers.
    pub next: u32,
}

/// The group of `cursor` in tables of `small` and of `large` buckets.
pub fn group(cursor: u32, small: u32, large: u32) -> Group {
    let between = (small - 1) ^ (large - 1);
    let mut buckets = Vec::new();
    let mut at = cursor;
    loop {
        buckets.push(at % large);
        at = next(at, large);
        if at & between == 0 {
            break;
        }
    }
    Group {
        small: cursor % small,
        large: buckets,
        next: at,
    }
}

#[cfg(test)]
mod tests {
    use super::*;

    /// All cursors from 0 until 0 comes back, both zeros included.
    fn walk(size: u32) -> Vec<u32> {
        let mut cursors = vec![0];
        loop {
            let at = next(cursors[cursors.len() - 1], size);
            cursors.push(at);
            if at == 0 {
                return cursors;
            }
        }
    }

    fn expect_group(cursor: u32, sizes: (u32, u32), small: u32, large: &[u32], next: u32) {
        let wanted = Group {
            small,
            large: large.to_vec(),
            next,
        };
        assert_eq!(group(cursor, sizes.0, sizes.1), wanted);
    }

    #[test]
    fn published_walks() {
        assert_eq!(walk(4), [0, 2, 1, 3, 0]);
        assert_eq!(walk(8), [0, 4, 2, 6, 1, 5, 3, 7, 0]);
    }

    #[test]
    fn every_walk_visits_every_bucket_once() {
        for exponent in 0..=16 {
            let size = 1 << exponent;
            let mut visited = walk(size);
            assert_eq!(visited.pop(), Some(0));
            visited.sort_unstable();
            assert_eq!(visited, (0..size).collect::<Vec<_>>());
        }
    }

    #[test]
    fn size_one_always_ends() {
        for cursor in [0, 1, 2, 7, 4096, u32::MAX - 1, u32::MAX] {
            assert_eq!(next(cursor, 1), 0);
        }
    }

    #[test]
    fn bits_above_the_table_are_ignored() {
        assert_eq!((5 % 4, next(5, 4)), (1, 3));
        assert_eq!((u32::MAX % 4, next(u32::MAX, 4)), (3, 0));
        // 8 shrunk to 4: bucket 3 once more, then the end.
        assert_eq!((7 % 4, next(7, 4)), (3, 0));
    }

    #[test]
    fn groups_of_two_tables() {
        expect_group(2, (4, 8), 2, &[2, 6], 1);
        expect_group(0, (4, 16), 0, &[0, 8, 4, 12], 2);
        expect_group(8, (4, 16), 0, &[8, 4, 12], 2);
        expect_group(0, (1, 4), 0, &[0, 2, 1, 3], 0);
        expect_group(u32::MAX, (2, 8), 1, &[7], 0);
    }
}
