//! What the exports write. All numbers are little-endian.

use crate::Error;
use crate::raw::ANSWER_BYTES;

/// The 32-bit number with this index, counted from 0. It must lie within the bytes.
pub(crate) fn number(bytes: &[u8], index: usize) -> u32 {
    u32::from_le_bytes(bytes.as_chunks().0[index])
}

/// What an export that was answered 0 has written to its answer.
pub(crate) struct Answer([u8; ANSWER_BYTES]);

impl Answer {
    /// Lends an answer to a call, which writes it and returns its number.
    pub(crate) fn of(call: impl FnOnce(&mut [u8]) -> u32) -> Result<Answer, Error> {
        let mut answer = [0; ANSWER_BYTES];
        let number = call(&mut answer);
        Error::check(number, &answer)?;
        Ok(Answer(answer))
    }

    pub(crate) fn first(&self) -> u32 {
        number(&self.0, 0)
    }

    pub(crate) fn second(&self) -> u32 {
        number(&self.0, 1)
    }

    pub(crate) fn fingerprint(&self) -> u64 {
        u64::from_le_bytes(self.0)
    }
}
