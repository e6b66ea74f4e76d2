//! The exports once more in plain Rust, over bytes, written from `docs/SPECIFICATION.md` alone. No line of the store
//! was read for it, nor of the other tests: two readings of one page are worth comparing, a reading and its copy are
//! not.
//!
//! It is written for clarity, in the page's order, and comments cite the page's headings. A call that must be known
//! to be refused before it writes works on a copy here.

pub mod bytes;
pub mod numbers;
pub mod passes;
pub mod store;
pub mod walk;
