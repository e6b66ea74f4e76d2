//! The fingerprint that a plain pass keeps, after dictFingerprint of Redis.

/// What goes in: of the old table and then of the other the number of its
/// buffer, its size and the keys that it holds.
pub type Numbers = [u64; 6];

/// Every number is added to the hash of those before it, and the sum is hashed.
pub fn fingerprint(numbers: &Numbers) -> u64 {
    numbers
        .iter()
        .fold(0, |hash: u64, &number| hashed(hash.wrapping_add(number)))
}

/// Thomas Wang's hash of a 64-bit number. Redis has numbers with a sign; these
/// have none, so sums wrap and right shifts bring in zeros.
fn hashed(mut hash: u64) -> u64 {
    hash = (!hash).wrapping_add(hash << 21);
    hash ^= hash >> 24;
    hash = hash.wrapping_add(hash << 3).wrapping_add(hash << 8);
    hash ^= hash >> 14;
    hash = hash.wrapping_add(hash << 2).wrapping_add(hash << 4);
    hash ^= hash >> 28;
    hash.wrapping_add(hash << 31)
}

#[cfg(test)]
mod tests {
    use super::*;

    // The numbers below were made by a program in C: Redis's own lines, with
    // unsigned numbers.

    #[test]
    fn hashes_computed_apart() {
        for (number, hash) in [
            (0, 0x77cf_a1ee_f01b_ca90),
            (1, 0x5bca_7c69_b794_f8ce),
            (2, 0xb795_033f_6f2a_0674),
            (u64::MAX, 0x1f89_206e_3f8e_c794),
        ] {
            assert_eq!(hashed(number), hash, "{number}");
        }
    }

    #[test]
    fn fingerprints_computed_apart() {
        for (numbers, print) in [
            ([0; 6], 9596644176926630232),
            ([1, 0, 0, 0, 0, 0], 7909414568721491680),
            ([0, 0, 0, 0, 0, 1], 4622184928937162944),
            ([u64::MAX; 6], 2911645009034555964),
            ([1 << 63, 0, 0, 0, 0, 0], 9187931256492310619),
            ([0, 4, 0, 1, 0, 0], 13078267905649422074),
            ([0, 4, 3, 1, 0, 0], 6592724455718159528),
            ([0, 4, 4, 1, 0, 0], 10790537964210101343),
            ([0, 4, 3, 1, 8, 2], 14474427534345541117),
            ([1, 8, 4, 0, 0, 0], 17735077309615224655),
            ([0, 8, 11013, 1, 256, 46240], 1014862717411466258),
            ([0, 4096, 61146, 1, 2048, 0], 1014862717411466258),
        ] {
            assert_eq!(fingerprint(&numbers), print, "{numbers:?}");
        }
    }
}
