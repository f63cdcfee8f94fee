//! Why a question was turned down, in words.

use std::fmt;

use crate::limits::{LAST_STEP, LONGEST_DELAY, MOST_EDGES, MOST_KINDS, MOST_OPERATIONS, MOST_ROWS};
use crate::{Error, Graph};

/// A question turned down: the number and place that the library gives, and the reason in words.
#[derive(Clone, Debug, PartialEq, Eq)]
pub struct Refusal {
    /// The number of the check that failed, 1 to [`LAST_REFUSAL`](crate::LAST_REFUSAL).
    pub number: usize,
    /// The operation, edge, type or cycle length at fault; 0 where there is nothing to say.
    pub place: usize,
    /// The cycle in edge direction from its lowest number, if the graph has one.
    pub cycle: Option<Vec<u16>>,
    /// The reason, with the culprit by name where names are known.
    reason: String,
}

impl Refusal {
    /// The reason alone, without the number.
    pub fn reason(&self) -> &str {
        &self.reason
    }

    /// A refusal of a view, which has no graph.
    pub(crate) fn of_view(number: usize, reason: String) -> Refusal {
        Refusal {
            number,
            place: 0,
            cycle: None,
            reason,
        }
    }
}

impl fmt::Display for Refusal {
    /// The number and the reason.
    fn fmt(&self, f: &mut fmt::Formatter<'_>) -> fmt::Result {
        write!(f, "refusal {}: {}", self.number, self.reason)
    }
}

impl std::error::Error for Refusal {}

/// What was lent beside the graph, as far as a refusal speaks of it.
#[derive(Clone, Copy, Default)]
pub(crate) struct Lent {
    /// The number of units, where units are lent.
    pub(crate) units: Option<usize>,
    /// The number of starts, where a row of starts is lent.
    pub(crate) starts: Option<usize>,
    /// The bound.
    pub(crate) bound: usize,
    /// The state's step.
    pub(crate) step: usize,
}

impl Graph {
    /// Passes an answer, or makes a refusal of its number and place.
    pub(crate) fn settle(&self, number: usize, place: usize, lent: Lent) -> Result<(), Error> {
        match number {
            0 => Ok(()),
            7 => self.refuse(7, place, self.cycle()?, lent),
            _ => self.refuse(number, place, None, lent),
        }
    }

    /// Like `settle`, where a cycle would be written over the first entries of a row.
    pub(crate) fn settle_row(
        &self,
        number: usize,
        place: usize,
        row: &[u16],
        lent: Lent,
    ) -> Result<(), Error> {
        match number {
            0 => Ok(()),
            7 => self.refuse(7, place, row.get(..place).map(<[u16]>::to_vec), lent),
            _ => self.refuse(number, place, None, lent),
        }
    }

    /// The refusal, with its reason in words.
    fn refuse(
        &self,
        number: usize,
        place: usize,
        cycle: Option<Vec<u16>>,
        lent: Lent,
    ) -> Result<(), Error> {
        let reason = match number {
            7 => self.cycle_words(cycle.as_deref().unwrap_or(&[])),
            9 => self.bound_words(lent.bound)?,
            _ => self.words(number, place, lent),
        };
        Err(Error::Refused(Refusal {
            number,
            place,
            cycle,
            reason,
        }))
    }

    /// The cycle that the library shows where a row is lent to it.
    fn cycle(&self) -> Result<Option<Vec<u16>>, Error> {
        match self.asap() {
            Err(Error::Refused(refusal)) => Ok(refusal.cycle),
            answer => answer.map(|_| None),
        }
    }

    /// The reason of each number but 7, 9, 12 and 13.
    fn words(&self, number: usize, place: usize, lent: Lent) -> String {
        match number {
            1 => self.size_words(),
            2 => self.length_words(lent),
            3 => self.operation_words(place),
            4 => self.edge_words(place),
            5 => "the output row is shorter than the number of operations".to_string(),
            6 => format!("type {} is in use and has no unit", self.kind_name(place)),
            8 => format!("the bound {} is above {LAST_STEP}", lent.bound),
            10 => format!(
                "the product of (mobility + 1) over all operations exceeds {MOST_ROWS}; a lower \
                 bound leaves fewer schedules"
            ),
            11 => format!(
                "the state has an operation unplaced and its step {} is outside 1 to {LAST_STEP}",
                lent.step
            ),
            _ => format!("an unknown reason at place {place}"),
        }
    }

    /// Refusal 1: what there is too much of.
    fn size_words(&self) -> String {
        format!(
            "more than {MOST_OPERATIONS} operations, {MOST_EDGES} edges or {MOST_KINDS} types: \
             operations {}, edges {}, types {}",
            self.operations(),
            self.edges(),
            self.kinds
        )
    }

    /// Refusal 2: the first pair of lengths that differ.
    fn length_words(&self, lent: Lent) -> String {
        let count = self.operations();
        let pairs = [
            ("types", self.types.len(), "delays", count),
            ("to", self.to.len(), "from", self.from.len()),
            (
                "units",
                lent.units.unwrap_or(self.kinds),
                "types of unit",
                self.kinds,
            ),
            ("starts", lent.starts.unwrap_or(count), "operations", count),
        ];
        let differ = pairs.iter().find(|(_, length, _, other)| length != other);
        let detail =
            differ.map(|(one, length, to, other)| format!(": {one} {length}, {to} {other}"));
        let detail = detail.unwrap_or_default();
        format!("rows that must match differ in length{detail}")
    }

    /// Refusal 3: the operation at fault, with its delay and type.
    fn operation_words(&self, place: usize) -> String {
        let delay = self.delays.get(place).copied().unwrap_or(0);
        let kind = self.types.get(place).copied().unwrap_or(0);
        format!(
            "operation {}: the delay is outside 1 to {LONGEST_DELAY}, or its type is not below \
             {} (delay {delay}, type {kind})",
            self.operation_name(place),
            self.kinds
        )
    }

    /// Refusal 4: the edge at fault, with its ends.
    fn edge_words(&self, place: usize) -> String {
        format!(
            "edge {place} ({}): an end is not below {}, the number of operations",
            self.edge_name(place),
            self.operations()
        )
    }

    /// Refusal 7: the cycle, which ends where it began.
    fn cycle_words(&self, cycle: &[u16]) -> String {
        let closed: Vec<u16> = cycle.iter().chain(cycle.first()).copied().collect();
        format!("the graph has a cycle: {}", self.path_name(&closed))
    }

    /// Refusal 9: the bound and the latency that it falls short of.
    fn bound_words(&self, bound: usize) -> Result<String, Error> {
        let latency = self.latency(&self.asap()?);
        Ok(format!(
            "the bound {bound} is below the ASAP latency {latency}"
        ))
    }
}
