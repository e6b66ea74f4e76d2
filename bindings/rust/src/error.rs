//! The answers by which a call refuses.

use std::fmt;

use crate::bytes;
use crate::raw::ANSWER_BYTES;

/// Why a call was refused: the answers other than done, by their names in `docs/SPECIFICATION.md`,
/// "Answers".
///
/// A refused call has changed nothing, neither the store nor the walk or the pass that made it.
///
/// Each call names its errors. Where more than one applies, the first that it names is given.
#[derive(Clone, Copy, Debug, PartialEq, Eq, Hash)]
#[non_exhaustive]
pub enum Error {
    /// 1: the state is not sound beside the buffers, or a flag is above 1, or a length is none that
    /// the exports take. A start reads no state; there it is such a length, or a buffer that is too
    /// short for the capacity or the size.
    BadState,
    /// 2: a chain that the call must read is not sound. It has a link out of range, a key that
    /// belongs in another bucket, more entries than the table is said to hold, or it loops. This is
    /// for memory that something else has written; what is proved of a store that only had calls
    /// since its start is said at [`Store`](crate::Store).
    Damaged,
    /// 3: the key is not held.
    Absent,
    /// 4: the key is held already.
    Present,
    /// 5: the store holds as many keys as its capacity.
    Full,
    /// 6: the capacity is outside its limit, or the size is: not a power of two, or too large. At
    /// a resize also: the size is the present one, or the other bucket buffer is too short for it.
    BadSize,
    /// 7: a move is under way.
    Moving,
    /// 8: no move is under way.
    NotMoving,
    /// 9: the list is too short. Only the calls of [`raw`](crate::raw) answer this; a walk and the
    /// passes make their list longer, and call again.
    Short {
        /// How many keys there are to be handed out. Each needs eight bytes of the list.
        keys: u32,
    },
    /// 15: the store has another fingerprint than when the plain pass began.
    Changed,
    /// 16: no careful pass is under way.
    NoCarefulPass,
    /// 17: 255 careful passes are under way, which is the limit.
    TooManyCarefulPasses,
    /// 18: a careful pass is under way, so that no key may move.
    Paused,
}

impl Error {
    /// What an export said: its number, and the answer that it wrote.
    ///
    /// ```
    /// use suspects::{Error, raw};
    ///
    /// let mut answer = [0; raw::ANSWER_BYTES];
    /// let number = raw::find(&[0; raw::STATE_BYTES], &[], &[], &[], &mut answer, 8);
    /// assert_eq!(Error::check(number, &answer), Err(Error::BadState));
    /// ```
    ///
    /// # Errors
    ///
    /// The error that has the number, if that is not 0.
    ///
    /// # Panics
    ///
    /// If no answer has the number. The proof of the exports excludes it, so the archive that is
    /// linked is not theirs, and nothing is known of what it has done.
    pub fn check(number: u32, answer: &[u8; ANSWER_BYTES]) -> Result<(), Error> {
        Err(match number {
            0 => return Ok(()),
            1 => Error::BadState,
            2 => Error::Damaged,
            3 => Error::Absent,
            4 => Error::Present,
            5 => Error::Full,
            6 => Error::BadSize,
            7 => Error::Moving,
            8 => Error::NotMoving,
            9 => Error::Short { keys: bytes::number(answer, 1) },
            15 => Error::Changed,
            16 => Error::NoCarefulPass,
            17 => Error::TooManyCarefulPasses,
            18 => Error::Paused,
            _ => panic!("{number} is no answer of the store: another archive is linked"),
        })
    }

    /// The number of the answer.
    ///
    /// ```
    /// # use suspects::Error;
    /// assert_eq!(Error::Absent.number(), 3);
    /// ```
    pub const fn number(self) -> u32 {
        match self {
            Error::BadState => 1,
            Error::Damaged => 2,
            Error::Absent => 3,
            Error::Present => 4,
            Error::Full => 5,
            Error::BadSize => 6,
            Error::Moving => 7,
            Error::NotMoving => 8,
            Error::Short { .. } => 9,
            Error::Changed => 15,
            Error::NoCarefulPass => 16,
            Error::TooManyCarefulPasses => 17,
            Error::Paused => 18,
        }
    }
}

impl fmt::Display for Error {
    fn fmt(&self, f: &mut fmt::Formatter<'_>) -> fmt::Result {
        f.write_str(match self {
            Error::BadState => "bad state: the state is not sound, or a buffer does not fit it",
            Error::Damaged => "damaged: a chain that the call must read is not sound",
            Error::Absent => "absent: the key is not held",
            Error::Present => "present: the key is held already",
            Error::Full => "full: as many keys are held as the store has entries",
            Error::BadSize => "bad size: the capacity or the size is none that the store can have",
            Error::Moving => "moving: a move is under way",
            Error::NotMoving => "not moving: no move is under way",
            Error::Short { keys } => {
                return write!(f, "short: the list has no room for {keys} keys");
            }
            Error::Changed => "changed: the store has changed since the plain pass began",
            Error::NoCarefulPass => "no careful pass: none is under way",
            Error::TooManyCarefulPasses => "too many careful passes: 255 are under way",
            Error::Paused => "paused: no key may move while a careful pass is under way",
        })
    }
}

impl std::error::Error for Error {}
