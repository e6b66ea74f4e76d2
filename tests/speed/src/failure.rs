//! Why a run of this program fails.

use std::fmt;
use std::io;

pub enum Failure {
    /// Two programs answer an order differently, or one of them breaks off.
    Differs(String),
    Io(io::Error),
    /// The arguments are not those of the usage.
    Misused,
}

impl From<io::Error> for Failure {
    fn from(error: io::Error) -> Self {
        Failure::Io(error)
    }
}

impl fmt::Display for Failure {
    fn fmt(&self, f: &mut fmt::Formatter) -> fmt::Result {
        match self {
            Failure::Differs(difference) => f.write_str(difference),
            Failure::Io(error) => error.fmt(f),
            Failure::Misused => f.write_str("wrong use"),
        }
    }
}
