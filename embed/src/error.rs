//! What can go wrong with a pool and its file.

use crate::Refusal;
use std::{fmt, io};

/// Why a pool could not be made, opened or closed.
#[derive(Debug)]
pub enum Error {
    /// A call was refused.
    Refused(Refusal),
    /// The pool is not well formed.
    Fault {
        /// The node at fault, as the check answers it.
        node: u64,
    },
    /// The file could not be used; the words say what was tried and why it failed.
    Io(io::Error),
}

impl fmt::Display for Error {
    fn fmt(&self, f: &mut fmt::Formatter<'_>) -> fmt::Result {
        match self {
            Error::Refused(refusal) => write!(f, "refused: {refusal}"),
            Error::Fault { node: 0 } => write!(f, "not well formed: the tree's nodes differ from the header's count"),
            Error::Fault { node } => write!(f, "not well formed: fault at node {node}"),
            Error::Io(cause) => write!(f, "{cause}"),
        }
    }
}

impl std::error::Error for Error {
    fn source(&self) -> Option<&(dyn std::error::Error + 'static)> {
        match self {
            Error::Refused(refusal) => Some(refusal),
            Error::Fault { .. } => None,
            Error::Io(cause) => Some(cause),
        }
    }
}

impl From<Refusal> for Error {
    fn from(refusal: Refusal) -> Error {
        Error::Refused(refusal)
    }
}

impl From<io::Error> for Error {
    fn from(cause: io::Error) -> Error {
        Error::Io(cause)
    }
}
