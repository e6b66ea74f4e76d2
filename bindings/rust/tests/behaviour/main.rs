//! What the crate does, over the archive that it is built with.

mod changes;
mod errors;
mod map;
mod memory;
mod passes;
mod walks;
