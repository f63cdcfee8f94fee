//! The list schedule, watched step by step.

use crate::face::{self, Row, WrittenRow};
use crate::limits::MOST_OPERATIONS;
use crate::refusal::Lent;
use crate::{Error, Graph};

/// A list schedule in the making.
#[derive(Clone, Copy, Debug, PartialEq, Eq)]
pub struct State {
    /// The step that the next advance works on.
    pub step: usize,
    /// The start of each operation, 0 for one that is unplaced.
    pub starts: [u16; MOST_OPERATIONS],
}

impl Default for State {
    /// The fresh state.
    fn default() -> State {
        State::fresh()
    }
}

impl State {
    /// Step 1, and nothing placed.
    pub fn fresh() -> State {
        State {
            step: 1,
            starts: [0; MOST_OPERATIONS],
        }
    }

    /// The state after the list schedule's rule at its step, one step further on; the same state
    /// if all operations are placed.
    pub fn advance(self, graph: &Graph, units: &[u8]) -> Result<State, Error> {
        let mut next = self;
        let starts = WrittenRow::of(&mut next.starts);
        let answer = face::advance(graph.rows(), Row::of(units), self.step, starts)?;
        let lent = Lent {
            step: self.step,
            ..Lent::units(units)
        };
        graph.settle(answer.refusal, answer.place, lent)?;
        next.step = answer.step;
        Ok(next)
    }
}
