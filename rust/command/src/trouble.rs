//! What can go wrong, and the exit status that says so.

use std::fmt;
use std::io;

use pedal::{Broken, Error, Refusal};

/// The exit status.
#[derive(Clone, Copy, Debug, PartialEq, Eq)]
pub enum Status {
    /// Answered, and lawful where that was asked.
    Answered = 0,
    /// A fault, or no schedule.
    Fault = 1,
    /// The library refused the question.
    Refused = 2,
    /// The input or the command line cannot be read.
    Unreadable = 3,
    /// The library could not be asked.
    Broken = 4,
}

/// Why there is no answer.
#[derive(Debug)]
pub enum Trouble {
    /// The library refused the question.
    Refused(Refusal),
    /// The library could not be asked.
    Broken(Broken),
    /// A line of an input cannot be read.
    Line {
        /// The input's name.
        source: String,
        /// The line, counted from 1.
        line: usize,
        /// What is wrong with it.
        reason: String,
    },
    /// An input cannot be read at all.
    Source {
        /// The input's name.
        source: String,
        /// Why not.
        error: io::Error,
    },
    /// The command line makes no sense.
    Usage(String),
    /// The answer cannot be written.
    Output(io::Error),
}

impl Trouble {
    /// The exit status for this trouble.
    pub fn status(&self) -> Status {
        match self {
            Trouble::Refused(_) => Status::Refused,
            Trouble::Broken(_) => Status::Broken,
            _ => Status::Unreadable,
        }
    }
}

impl fmt::Display for Trouble {
    /// Says what went wrong, and where.
    fn fmt(&self, f: &mut fmt::Formatter<'_>) -> fmt::Result {
        match self {
            Trouble::Refused(refusal) => write!(f, "{refusal} (place {})", refusal.place),
            Trouble::Broken(broken) => write!(f, "{broken}"),
            Trouble::Line {
                source,
                line,
                reason,
            } => write!(f, "{source}, line {line}: {reason}"),
            Trouble::Source { source, error } => write!(f, "{source} cannot be read: {error}"),
            Trouble::Usage(reason) => write!(f, "{reason}; see pedal --help"),
            Trouble::Output(error) => write!(f, "the answer cannot be written: {error}"),
        }
    }
}

impl From<Error> for Trouble {
    /// A refusal and a library that could not be asked are troubles of their own.
    fn from(error: Error) -> Trouble {
        match error {
            Error::Refused(refusal) => Trouble::Refused(refusal),
            Error::Broken(broken) => Trouble::Broken(broken),
        }
    }
}

impl From<io::Error> for Trouble {
    /// What fails while an answer is printed is its output.
    fn from(error: io::Error) -> Trouble {
        Trouble::Output(error)
    }
}

/// Passes what was written; a closed pipe counts as written, since nobody reads on.
pub fn unless_closed(written: io::Result<()>) -> Result<(), Trouble> {
    match written {
        Err(error) if error.kind() != io::ErrorKind::BrokenPipe => Err(Trouble::Output(error)),
        _ => Ok(()),
    }
}
