//! A question to the engine and the answer to it, as bytes: `docs/ENGINE.md`.

use std::fmt;

use super::{GraphRows, Row};
use crate::limits::{MOST_EDGES, MOST_OPERATIONS};

/// The most entries of a row that the engine takes.
pub(super) const LONGEST_ROW: usize = 4096;

/// A row of a graph that is cut to this length is still past its limit.
const _: () = assert!(MOST_OPERATIONS < LONGEST_ROW && MOST_EDGES < LONGEST_ROW);

/// An entry of a row.
pub trait Entry: Copy {
    /// Adds the entry to some bytes.
    fn put(self, bytes: &mut Vec<u8>);
}

impl Entry for u8 {
    /// One byte.
    fn put(self, bytes: &mut Vec<u8>) {
        bytes.push(self);
    }
}

impl Entry for u16 {
    /// Two bytes.
    fn put(self, bytes: &mut Vec<u8>) {
        bytes.extend(self.to_le_bytes());
    }
}

/// A question in the making, or made.
pub(crate) struct Question {
    /// The number of its function.
    number: u32,
    /// What follows the size: the numbers, then the rows.
    body: Vec<u8>,
    /// How many bytes at the body's end may come back changed.
    written: usize,
}

/// An answer that fits its question.
#[derive(Debug, PartialEq, Eq)]
pub(crate) struct Answer<const N: usize> {
    /// The numbers of the C struct.
    pub(crate) numbers: [usize; N],
    /// The entries of the row that the question may write, as bytes.
    pub(crate) written: Vec<u8>,
}

/// What is wrong with an answer.
#[derive(Clone, Copy, Debug, PartialEq, Eq)]
pub(crate) enum Nonsense {
    /// The question was not asked, for this fault in its framing.
    Kind(u32),
    /// The answer has another size than it must have.
    Size {
        /// Its size.
        is: u32,
        /// The size that it must have.
        due: usize,
    },
    /// Something that is only read came back changed, at this byte of the question.
    Changed(usize),
    /// The numbers are none that the header allows.
    Numbers,
}

impl Question {
    /// Begins the question to a function with the numbers that it takes.
    pub(crate) fn new(number: u32, numbers: &[usize]) -> Question {
        let mut body = Vec::new();
        for &number in numbers {
            body.extend((number as u64).to_le_bytes());
        }
        Question {
            number,
            body,
            written: 0,
        }
    }

    /// Adds a row that is only read, or as many of its entries as the engine takes.
    ///
    /// No answer about a graph is another one for that: every row of a graph has a limit below,
    /// and where one is past its limit, or a row that must match it has another length, that
    /// alone is the refusal.
    pub(crate) fn row<T: Entry>(mut self, row: Row<'_, T>) -> Question {
        let entries = row.entries();
        let entries = &entries[..entries.len().min(LONGEST_ROW)];
        self.body.extend((entries.len() as u32).to_le_bytes());
        for entry in entries {
            entry.put(&mut self.body);
        }
        self
    }

    /// Adds the rows of a graph.
    pub(crate) fn graph(self, graph: GraphRows<'_>) -> Question {
        let operations = self.row(graph.delays).row(graph.types);
        operations.row(graph.from).row(graph.to)
    }

    /// Adds the row that may be written, which is the last.
    ///
    /// Of a longer row than the engine takes only the first entries are ever written, one for
    /// each operation.
    pub(crate) fn written(self, row: Row<'_, u16>) -> Question {
        let written = 2 * row.length().min(LONGEST_ROW);
        let question = self.row(row);
        Question {
            written,
            ..question
        }
    }

    /// All bytes of the question.
    pub(crate) fn message(&self) -> Vec<u8> {
        let size = self.body.len() as u32;
        let head = [self.number.to_le_bytes(), size.to_le_bytes()].concat();
        [head, self.body.clone()].concat()
    }

    /// How many bytes follow an answer's kind and size, if those are as they must be for an
    /// answer of so many numbers.
    pub(crate) fn due(&self, head: [u8; 8], numbers: usize) -> Result<usize, Nonsense> {
        let [k0, k1, k2, k3, s0, s1, s2, s3] = head;
        let kind = u32::from_le_bytes([k0, k1, k2, k3]);
        let is = u32::from_le_bytes([s0, s1, s2, s3]);
        let due = 8 * numbers + self.body.len();
        match kind {
            0 if usize::try_from(is) == Ok(due) => Ok(due),
            0 => Err(Nonsense::Size { is, due }),
            _ => Err(Nonsense::Kind(kind)),
        }
    }

    /// The answer in the bytes that follow its size, if all but the written row came back as it
    /// was.
    pub(crate) fn answer<const N: usize>(&self, bytes: &[u8]) -> Result<Answer<N>, Nonsense> {
        let (numbers, body) = bytes.split_at(8 * N);
        let kept = self.body.len() - self.written;
        let mut pairs = self.body[..kept].iter().zip(body);
        match pairs.position(|(sent, came)| sent != came) {
            Some(place) => Err(Nonsense::Changed(place)),
            None => Ok(Answer {
                numbers: read_numbers(numbers)?,
                written: body[kept..].to_vec(),
            }),
        }
    }
}

/// The numbers in some bytes.
fn read_numbers<const N: usize>(bytes: &[u8]) -> Result<[usize; N], Nonsense> {
    let mut numbers = [0; N];
    for (number, bytes) in numbers.iter_mut().zip(bytes.chunks_exact(8)) {
        let mut eight = [0; 8];
        eight.copy_from_slice(bytes);
        let read = usize::try_from(u64::from_le_bytes(eight));
        *number = read.map_err(|_| Nonsense::Numbers)?;
    }
    Ok(numbers)
}

impl fmt::Display for Nonsense {
    /// What the engine did.
    fn fmt(&self, f: &mut fmt::Formatter<'_>) -> fmt::Result {
        match self {
            Nonsense::Kind(kind) => {
                let words = match kind {
                    1 => "it found its end too early",
                    2 => "it knows no such question",
                    3 => "numbers and rows do not fill the size for it",
                    4 => "it is too long for it",
                    _ => "for no reason that is known here",
                };
                write!(f, "did not ask the question (kind {kind}: {words})")
            }
            Nonsense::Size { is, due } => {
                write!(f, "answered {is} bytes where {due} are due")
            }
            Nonsense::Changed(place) => {
                write!(
                    f,
                    "changed what it may only read, byte {place} of the question"
                )
            }
            Nonsense::Numbers => f.write_str("gave numbers that no question is answered by"),
        }
    }
}
