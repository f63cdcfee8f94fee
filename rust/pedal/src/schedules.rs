//! All lawful schedules, one after another.

use std::iter::FusedIterator;

use crate::face::{self, Row, WrittenRow};
use crate::refusal::Lent;
use crate::{ffi, Error, Graph};

/// An iterator over all lawful schedules of a graph, each a row of starts, in the order of words.
///
/// Each schedule is searched for when it is asked for. Where the library can be asked no more,
/// the iterator gives that error, and then ends.
#[derive(Clone, Debug)]
pub struct Schedules<'a> {
    /// The graph.
    graph: &'a Graph,
    /// The unit counts.
    units: Vec<u8>,
    /// The latency bound.
    bound: usize,
    /// How far the listing has come.
    place: Place,
}

/// How far a listing has come.
#[derive(Clone, Debug)]
enum Place {
    /// This is the first schedule, not yet handed out.
    First(Vec<u16>),
    /// This schedule was handed out last.
    After(Vec<u16>),
    /// None is left.
    End,
}

impl<'a> Schedules<'a> {
    /// Finds the first schedule, so that a refusal comes before any listing.
    pub(crate) fn new(
        graph: &'a Graph,
        units: &[u8],
        bound: usize,
    ) -> Result<Schedules<'a>, Error> {
        let mut schedules = Schedules {
            graph,
            units: units.to_vec(),
            bound,
            place: Place::End,
        };
        if let Some(first) = schedules.first()? {
            schedules.place = Place::First(first);
        }
        Ok(schedules)
    }

    /// The least lawful schedule.
    fn first(&self) -> Result<Option<Vec<u16>>, Error> {
        let mut out = self.graph.row();
        let (graph, units) = (self.graph.rows(), Row::of(&self.units));
        let answer = face::first(graph, units, self.bound, WrittenRow::of(&mut out))?;
        self.found(answer, out)
    }

    /// The least lawful schedule after a row.
    fn after(&self, row: &[u16]) -> Result<Option<Vec<u16>>, Error> {
        let mut out = self.graph.row();
        let (graph, units) = (self.graph.rows(), Row::of(&self.units));
        let (after, written) = (Row::of(row), WrittenRow::of(&mut out));
        let answer = face::next(graph, units, self.bound, after, written)?;
        self.found(answer, out)
    }

    /// The row that an answer found, if it found one.
    fn found(&self, answer: ffi::Listed, out: Vec<u16>) -> Result<Option<Vec<u16>>, Error> {
        let lent = Lent {
            bound: self.bound,
            ..Lent::units(&self.units)
        };
        let (number, place) = (answer.refusal, answer.place);
        self.graph.settle_row(number, place, &out, lent)?;
        Ok((answer.found == 1).then_some(out))
    }
}

impl Iterator for Schedules<'_> {
    type Item = Result<Vec<u16>, Error>;

    /// The next lawful schedule. The question is the one that the first schedule answered, so
    /// that it cannot be refused.
    fn next(&mut self) -> Option<Result<Vec<u16>, Error>> {
        let found = match std::mem::replace(&mut self.place, Place::End) {
            Place::First(row) => Ok(Some(row)),
            Place::After(row) => self.after(&row),
            Place::End => Ok(None),
        };
        if let Ok(Some(row)) = &found {
            self.place = Place::After(row.clone());
        }
        found.transpose()
    }
}

impl FusedIterator for Schedules<'_> {}
