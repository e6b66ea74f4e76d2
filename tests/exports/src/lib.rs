//! Tests the store's C exports on random and damaged memory against a plain Rust model, every byte of every slice
//! compared.

pub mod arguments;
pub mod call;
pub mod cases;
pub mod compare;
pub mod damage;
pub mod events;
pub mod faults;
pub mod model;
pub mod plant;
pub mod random;
pub mod slices;
pub mod told;

/// The seed of a run that is not given one, as in the gate.
pub const DEFAULT_SEED: u64 = 8;

/// The calls of a run that is not told how many.
pub const DEFAULT_CALLS: u64 = 500_000;
