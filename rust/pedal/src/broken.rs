//! Why the library could not be asked, in words.

use std::fmt;

/// The library could not be asked: what happened, and what to do about it.
///
/// This is never a refusal, which is an answer of the library.
#[derive(Clone, Debug, PartialEq, Eq)]
pub struct Broken {
    /// The words.
    words: String,
}

impl Broken {
    /// Trouble in these words.
    pub(crate) fn new(words: impl Into<String>) -> Broken {
        Broken {
            words: words.into(),
        }
    }
}

impl fmt::Display for Broken {
    /// The words.
    fn fmt(&self, f: &mut fmt::Formatter<'_>) -> fmt::Result {
        f.write_str(&self.words)
    }
}

impl std::error::Error for Broken {}
