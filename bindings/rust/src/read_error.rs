//! The error of a store that is read by ranges.

use crate::error::Refusal;
use std::{error, fmt, io};

/// An error of a store that is read by ranges.
///
/// ```
/// use std::io;
/// use zevkhadun::{RangedStore, ReadError, Refusal};
///
/// let refused = RangedStore::open(|_, len| Ok(vec![0; len]), 28).unwrap_err();
/// assert!(matches!(refused, ReadError::Refused(Refusal::BadVersion)));
/// let failed = RangedStore::open(|_, _| Err(io::Error::other("no route")), 28).unwrap_err();
/// assert_eq!(failed.to_string(), "no route");
/// ```
#[derive(Debug)]
#[non_exhaustive]
pub enum ReadError {
    /// An error of the library: the file is not that of a store, it has no document of the number, or the document is
    /// damaged.
    Refused(Refusal),
    /// The read of a range failed, or it returned another number of bytes, which is an
    /// [`UnexpectedEof`](io::ErrorKind::UnexpectedEof).
    Io(io::Error),
}

impl fmt::Display for ReadError {
    fn fmt(&self, f: &mut fmt::Formatter<'_>) -> fmt::Result {
        match self {
            ReadError::Refused(refusal) => refusal.fmt(f),
            ReadError::Io(error) => error.fmt(f),
        }
    }
}

impl error::Error for ReadError {
    fn source(&self) -> Option<&(dyn error::Error + 'static)> {
        match self {
            ReadError::Refused(refusal) => Some(refusal),
            ReadError::Io(error) => Some(error),
        }
    }
}

impl From<Refusal> for ReadError {
    fn from(refusal: Refusal) -> ReadError {
        ReadError::Refused(refusal)
    }
}

impl From<io::Error> for ReadError {
    fn from(error: io::Error) -> ReadError {
        ReadError::Io(error)
    }
}
