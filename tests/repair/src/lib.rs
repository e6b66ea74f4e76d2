//! Verify and repair once more, written from the request and the specification alone, and memory with every kind of
//! damage on which the program `repair_main` is compared with them, number for number.

pub mod compare;
pub mod damage;
pub mod faults;
pub mod memories;
pub mod memory;
/// The same random numbers as those of the other comparison, the calls over bytes.
#[path = "../../exports/src/random.rs"]
pub mod random;
pub mod rules;
pub mod run;
pub mod states;
pub mod store;

/// The seed of a run that is not given one, as in the gate.
pub const DEFAULT_SEED: u64 = 11;

/// The memories of a run that is not told how many.
pub const DEFAULT_MEMORIES: u64 = 20_000;
