//! An independent second opinion on the scheduler: the same questions, answered from the
//! scope paper alone.
//!
//! `direct` answers every question by the plainest method there is; `quick` answers the ones
//! worth timing by methods chosen for speed. Neither shares code with the other.

#![forbid(unsafe_code)]
#![warn(missing_docs)]

pub mod direct;
mod limits;
pub mod quick;

pub use limits::{LAST_STEP, LONGEST_DELAY, MOST_EDGES, MOST_KINDS, MOST_OPERATIONS, MOST_ROWS};

/// A graph lent as rows: a delay and a type for each operation, two ends for each edge.
#[derive(Clone, Copy, Debug)]
pub struct Graph<'a> {
    /// The delay of each operation, in steps.
    pub delays: &'a [u8],
    /// The type of each operation.
    pub types: &'a [u8],
    /// How many types there are.
    pub kinds: usize,
    /// The operation that each edge leaves.
    pub from: &'a [u16],
    /// The operation that each edge enters.
    pub to: &'a [u16],
}

/// A question turned down: the number of the check that failed, and where.
#[derive(Clone, Copy, Debug, PartialEq, Eq)]
pub struct Refusal {
    /// The number of the check, as the scope paper counts them.
    pub number: usize,
    /// The operation, edge, type or cycle length at fault; 0 where there is nothing to say.
    pub place: usize,
}

/// A list schedule in the making.
#[derive(Clone, Copy, Debug, PartialEq, Eq)]
pub struct State {
    /// The step that the next advance works on.
    pub step: usize,
    /// The start of each operation, 0 for one that is unplaced.
    pub starts: [u16; MOST_OPERATIONS],
}

/// What the checker finds in a schedule.
#[derive(Clone, Copy, Debug, PartialEq, Eq)]
pub enum Finding {
    /// Nothing is wrong.
    Lawful,
    /// This operation starts at 0 or ends past the bound.
    Untimely(usize),
    /// This edge's second operation starts before its first has ended.
    Broken(usize),
    /// At this step more operations of this type are running than it has units.
    OverUse {
        /// The earliest step with over-use.
        step: usize,
        /// The lowest type over-used at that step.
        kind: usize,
    },
}
