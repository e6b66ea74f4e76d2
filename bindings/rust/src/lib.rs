//! A store of suspect cells that is proved, for Rust.
//!
//! A scan-diagnosis tool keeps suspect flip-flops, each with a count of fails, in a hash
//! dictionary, and hands them to a viewer bit by bit while failures still arrive and the table
//! changes its size. The store behind this crate is written in Rattle. Every call of it is proved
//! to answer exactly as its definition says, for any numbers and any memory. This crate calls it
//! by its C exports, and adds what Rust can say about them: owned memory, borrows, errors and
//! iterators. It has no dependencies.
//!
//! ```
#![doc = include_str!("../examples/walk.rs")]
//! ```
//!
//! # Ways through a store
//!
//! | | while it goes on | each cell held throughout comes |
//! |---|---|---|
//! | [`Store::walk`], an iterator | the store is borrowed | exactly once |
//! | [`Walk`] | anything may happen to the store | at least once; exactly once while the table does not shrink |
//! | [`PlainPass`] | the store should not change; its end notices some changes | exactly once, if nothing changed |
//! | [`CarefulPass`], and [`Store::careful_pass`] with a closure | anything but a start or an end too many; no key moves until it is ended | exactly once |
//!
//! Each of the last three hands out group by group, by its `next`, or cell by cell, by the iterator
//! `suspects`, which borrows the store. `docs/PASSES.md` says when to use which.
//!
//! # Where it is said
//!
//! `docs/SPECIFICATION.md` says what the store does, whole. This crate follows its words, and the
//! code's names for the calls; [`Error`] has the numbers of its answers. The functions of [`raw`]
//! are the exports one for one, and all that is `unsafe` is in that module.
//!
//! # What a call costs
//!
//! A call copies the three buffers of the store to the stack, and one that may change the store
//! copies them back. So its time goes by their lengths, which [`Memory::zeroed`] can keep short. A
//! thread that makes calls needs the stack for that; what Rust gives a thread by itself is enough.
//! The head of `bindings/c/suspects.h` has the figures of both.
//!
//! # What is proved
//!
//! Each export is proved, for any bytes, to answer and to leave the memory as the plain call below
//! it does on the same numbers. Of sequences of plain calls it is proved that the store stays
//! undamaged, and what walks and careful passes hand out. That is not stated once more of sequences
//! of exports: `docs/PROMISES.md`, "Calls over bytes".
//!
//! # To build it
//!
//! The archive of the exports comes first: `rt lib` in the repository's folder `crates/exports`.
//! The variable `SUSPECTS_ARCHIVE_DIR` names its folder, by an absolute path, where that is not the
//! repository's `crates/exports/out`.

mod bytes;
mod cell;
mod error;
mod list;
mod memory;
mod passes;
pub mod raw;
mod store;
mod walk;

pub use cell::{Cell, Suspect};
pub use error::Error;
pub use memory::Memory;
pub use passes::{CarefulPass, PlainPass};
pub use store::{Step, Store};
pub use walk::Walk;
