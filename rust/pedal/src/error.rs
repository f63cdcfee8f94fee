//! Why there is no answer: the library refused, or could not be asked.

use std::fmt;

use crate::{Broken, Refusal};

/// Why there is no answer.
#[derive(Clone, Debug, PartialEq, Eq)]
pub enum Error {
    /// The library refused the question.
    Refused(Refusal),
    /// The library could not be asked.
    Broken(Broken),
}

impl Error {
    /// The refusal, if the library was asked.
    pub fn refusal(&self) -> Option<&Refusal> {
        match self {
            Error::Refused(refusal) => Some(refusal),
            Error::Broken(_) => None,
        }
    }
}

impl fmt::Display for Error {
    /// The words of either.
    fn fmt(&self, f: &mut fmt::Formatter<'_>) -> fmt::Result {
        match self {
            Error::Refused(refusal) => refusal.fmt(f),
            Error::Broken(broken) => broken.fmt(f),
        }
    }
}

impl std::error::Error for Error {}

impl From<Refusal> for Error {
    /// The library refused.
    fn from(refusal: Refusal) -> Error {
        Error::Refused(refusal)
    }
}

impl From<Broken> for Error {
    /// The library could not be asked.
    fn from(broken: Broken) -> Error {
        Error::Broken(broken)
    }
}
