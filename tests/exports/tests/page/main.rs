//! The examples of `docs/SPECIFICATION.md` and of `docs/PASSES.md`: every call of them is made over bytes, with the
//! model and with the archive, all bytes are compared, and both must answer what the page says. So they show too that
//! the model reads the page rightly. In `sequences` the model alone is held against a plain map.

mod bytes;
mod cases;
mod passes;
mod sequences;
mod shape;
