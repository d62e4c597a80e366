//! Why a walk does not begin, or gives no more.

use crate::Refusal;
use std::fmt;

/// Why a walk does not begin, or gives no more.
///
/// Whichever it is, a gate has not seen all that the bytes hold.
#[derive(Clone, Copy, Debug, PartialEq, Eq)]
#[non_exhaustive]
pub enum Error {
    /// The library refuses the bytes.
    Refused(Refusal),
    /// The library has said a number that this crate does not know: it is of another version.
    Unknown {
        /// What the number is of.
        what: &'static str,
        /// The number.
        number: u64,
    },
    /// [`Exports`](crate::Exports) came to no export within its budget of nodes. The bytes are not
    /// refused: there is more to be read.
    Budget {
        /// The budget, all of which was visited.
        nodes: u64,
    },
}

impl Error {
    /// The refusal, where it is one.
    #[must_use]
    pub const fn refusal(self) -> Option<Refusal> {
        match self {
            Error::Refused(refusal) => Some(refusal),
            Error::Unknown { .. } | Error::Budget { .. } => None,
        }
    }

    pub(crate) const fn unknown(what: &'static str, number: u64) -> Error {
        Error::Unknown { what, number }
    }
}

impl fmt::Display for Error {
    fn fmt(&self, f: &mut fmt::Formatter<'_>) -> fmt::Result {
        match self {
            Error::Refused(refusal) => write!(f, "{refusal}"),
            Error::Unknown { what, number } => {
                write!(f, "{what} that this crate does not know: {number}")
            }
            Error::Budget { nodes } => write!(f, "no export found within {nodes} trie nodes"),
        }
    }
}

impl std::error::Error for Error {}

impl From<Refusal> for Error {
    fn from(refusal: Refusal) -> Error {
        Error::Refused(refusal)
    }
}
