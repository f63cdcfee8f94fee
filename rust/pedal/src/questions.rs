//! The questions about a graph, each handed on to the proved library.

use crate::face::{self, Row, WrittenRow};
use crate::limits::MOST_KINDS;
use crate::refusal::Lent;
use crate::{ffi, Error, Graph, Schedules};

/// A list schedule.
#[derive(Clone, Debug, PartialEq, Eq)]
pub struct Schedule {
    /// The start of each operation.
    pub starts: Vec<u16>,
    /// The last step in which anything runs.
    pub latency: usize,
}

/// What the checker finds in a schedule.
#[derive(Clone, Copy, Debug, PartialEq, Eq)]
pub enum Finding {
    /// Nothing is wrong.
    Lawful,
    /// This operation starts at 0 or ends past the bound.
    Untimely {
        /// The lowest such operation.
        operation: usize,
    },
    /// This edge's second operation starts before its first has ended.
    Broken {
        /// The lowest such edge.
        edge: usize,
    },
    /// More operations of this type are running than it has units.
    OverUse {
        /// The earliest step with over-use.
        step: usize,
        /// The lowest type over-used at that step.
        kind: usize,
    },
}

impl Finding {
    /// The finding that a verdict speaks of.
    fn of(verdict: ffi::Verdict) -> Finding {
        match verdict.finding {
            ffi::PEDAL_LAWFUL => Finding::Lawful,
            ffi::PEDAL_UNTIMELY => Finding::Untimely {
                operation: verdict.first,
            },
            ffi::PEDAL_BROKEN => Finding::Broken {
                edge: verdict.first,
            },
            _ => Finding::OverUse {
                step: verdict.first,
                kind: verdict.second,
            },
        }
    }
}

impl Graph {
    /// The earliest start of each operation under precedence alone.
    pub fn asap(&self) -> Result<Vec<u16>, Error> {
        let mut out = self.row();
        let answer = face::asap(self.rows(), WrittenRow::of(&mut out))?;
        self.settle_row(answer.refusal, answer.place, &out, Lent::default())?;
        Ok(out)
    }

    /// The latest start of each operation under precedence and a latency bound.
    pub fn alap(&self, bound: usize) -> Result<Vec<u16>, Error> {
        let mut out = self.row();
        let answer = face::alap(self.rows(), bound, WrittenRow::of(&mut out))?;
        self.settle_row(answer.refusal, answer.place, &out, Lent::bound(bound))?;
        Ok(out)
    }

    /// The latest less the earliest start of each operation.
    pub fn mobility(&self, bound: usize) -> Result<Vec<u16>, Error> {
        let mut out = self.row();
        let answer = face::mobility(self.rows(), bound, WrittenRow::of(&mut out))?;
        self.settle_row(answer.refusal, answer.place, &out, Lent::bound(bound))?;
        Ok(out)
    }

    /// The list schedule under unit counts, one for each type.
    pub fn list(&self, units: &[u8]) -> Result<Schedule, Error> {
        let mut starts = self.row();
        let out = WrittenRow::of(&mut starts);
        let answer = face::list(self.rows(), Row::of(units), out)?;
        self.settle_row(answer.refusal, answer.place, &starts, Lent::units(units))?;
        let latency = answer.latency;
        Ok(Schedule { starts, latency })
    }

    /// Whether a schedule is lawful for the units and the bound, or its first fault.
    pub fn check(&self, units: &[u8], bound: usize, starts: &[u16]) -> Result<Finding, Error> {
        let verdict = face::check(self.rows(), Row::of(units), bound, Row::of(starts))?;
        let lent = Lent {
            starts: Some(starts.len()),
            bound,
            ..Lent::units(units)
        };
        self.settle(verdict.refusal, verdict.place, lent)?;
        Ok(Finding::of(verdict))
    }

    /// For each type the most operations running at any one step, under any row of starts.
    pub fn peak(&self, starts: &[u16]) -> Result<[usize; MOST_KINDS], Error> {
        let answer = face::peak(self.rows(), Row::of(starts))?;
        let lent = Lent {
            starts: Some(starts.len()),
            ..Lent::default()
        };
        self.settle(answer.refusal, answer.place, lent)?;
        Ok(answer.peak)
    }

    /// All lawful schedules for the units and the bound, in the order of words.
    pub fn schedules(&self, units: &[u8], bound: usize) -> Result<Schedules<'_>, Error> {
        Schedules::new(self, units, bound)
    }
}

impl Lent {
    /// A bound alone.
    pub(crate) fn bound(bound: usize) -> Lent {
        Lent {
            bound,
            ..Lent::default()
        }
    }

    /// Units alone.
    pub(crate) fn units(units: &[u8]) -> Lent {
        Lent {
            units: Some(units.len()),
            ..Lent::default()
        }
    }
}
