//! Asking the proved library, in the way that is chosen.

use pedal::{face, Broken};

use crate::row::Row;
use crate::{Answer, Input, Question};

/// The rows of a graph, ready to be lent.
struct Graph {
    /// The delays.
    delays: Row<u8>,
    /// The types.
    types: Row<u8>,
    /// The number of types.
    kinds: usize,
    /// Where edges leave.
    from: Row<u16>,
    /// Where edges lead.
    to: Row<u16>,
}

/// The rows of an input, ready to be lent.
struct Lent {
    /// The graph.
    graph: Graph,
    /// The unit counts.
    units: Row<u8>,
    /// The row that the question only reads, beside the graph and the units.
    read: Row<u16>,
    /// The row that the question may write.
    written: Row<u16>,
}

/// The numbers of an answer: refusal, place, and the rest.
type Numbers = (usize, usize, Vec<usize>);

impl Graph {
    /// Readies the rows of an input's graph.
    fn new(input: &Input) -> Graph {
        let null = input.null;
        Graph {
            delays: Row::new("delays", &input.delays, 0xA1, null),
            types: Row::new("types", &input.types, 0xA2, null),
            kinds: input.kinds,
            from: Row::new("from", &input.from, 0xA3A3, null),
            to: Row::new("to", &input.to, 0xA4A4, null),
        }
    }

    /// The rows as they are lent.
    fn lend(&self) -> face::GraphRows<'_> {
        face::GraphRows {
            delays: self.delays.lend(),
            types: self.types.lend(),
            kinds: self.kinds,
            from: self.from.lend(),
            to: self.to.lend(),
        }
    }
}

impl Lent {
    /// Readies the rows of an input for a question.
    fn new(question: Question, input: &Input) -> Lent {
        let null = input.null;
        let (read, written): (&[u16], &[u16]) = match question {
            Question::Advance => (&[], &input.state),
            Question::Check | Question::Peak => (&input.starts, &[]),
            Question::Next => (&input.after, &input.out),
            _ => (&[], &input.out),
        };
        Lent {
            graph: Graph::new(input),
            units: Row::new("units", &input.units, 0xA5, null),
            read: Row::new("the row only read", read, 0xA6A6, null),
            written: Row::new("around the row written", written, 0xA7A7, null),
        }
    }

    /// The rows and margins that were changed and must not have been.
    fn spoiled(&self) -> Vec<&'static str> {
        let rows = [
            self.graph.delays.changed(),
            self.graph.types.changed(),
            self.graph.from.changed(),
            self.graph.to.changed(),
            self.units.changed(),
            self.read.changed(),
            self.written.overrun(),
        ];
        rows.into_iter().flatten().collect()
    }

    /// Earliest starts.
    fn asap(&mut self) -> Result<Numbers, Broken> {
        let answer = face::asap(self.graph.lend(), self.written.lend_to_write())?;
        Ok((answer.refusal, answer.place, vec![]))
    }

    /// Latest starts.
    fn alap(&mut self, bound: usize) -> Result<Numbers, Broken> {
        let answer = face::alap(self.graph.lend(), bound, self.written.lend_to_write())?;
        Ok((answer.refusal, answer.place, vec![]))
    }

    /// Latest less earliest starts.
    fn mobility(&mut self, bound: usize) -> Result<Numbers, Broken> {
        let answer = face::mobility(self.graph.lend(), bound, self.written.lend_to_write())?;
        Ok((answer.refusal, answer.place, vec![]))
    }

    /// The list schedule.
    fn list(&mut self) -> Result<Numbers, Broken> {
        let (graph, units) = (self.graph.lend(), self.units.lend());
        let answer = face::list(graph, units, self.written.lend_to_write())?;
        Ok((answer.refusal, answer.place, vec![answer.latency]))
    }

    /// One step of the list schedule.
    fn advance(&mut self, step: usize) -> Result<Numbers, Broken> {
        let (graph, units) = (self.graph.lend(), self.units.lend());
        let answer = face::advance(graph, units, step, self.written.lend_to_write())?;
        Ok((answer.refusal, answer.place, vec![answer.step]))
    }

    /// The checker.
    fn check(&self, bound: usize) -> Result<Numbers, Broken> {
        let (graph, units) = (self.graph.lend(), self.units.lend());
        let answer = face::check(graph, units, bound, self.read.lend())?;
        let values = vec![answer.finding, answer.first, answer.second];
        Ok((answer.refusal, answer.place, values))
    }

    /// Peak use.
    fn peak(&self) -> Result<Numbers, Broken> {
        let answer = face::peak(self.graph.lend(), self.read.lend())?;
        Ok((answer.refusal, answer.place, answer.peak.to_vec()))
    }

    /// The least schedule.
    fn first(&mut self, bound: usize) -> Result<Numbers, Broken> {
        let (graph, units) = (self.graph.lend(), self.units.lend());
        let answer = face::first(graph, units, bound, self.written.lend_to_write())?;
        Ok((answer.refusal, answer.place, vec![answer.found]))
    }

    /// The least schedule after a row.
    fn next(&mut self, bound: usize) -> Result<Numbers, Broken> {
        let (graph, units, after) = (self.graph.lend(), self.units.lend(), self.read.lend());
        let answer = face::next(graph, units, bound, after, self.written.lend_to_write())?;
        Ok((answer.refusal, answer.place, vec![answer.found]))
    }
}

/// A part of a channel's table.
fn view(input: &Input) -> Result<Answer, Broken> {
    let a = Row::new("channel A's table", &input.a, 0xA8A8, input.null);
    let b = Row::new("channel B's table", &input.b, 0xA9A9, input.null);
    let (channel, first, count) = (input.channel, input.first, input.count);
    let part = face::view(a.lend(), b.lend(), channel, first, count)?;
    Ok(Answer {
        refusal: part.refusal,
        place: 0,
        values: vec![part.start, part.length],
        row: vec![],
        spoiled: [a.changed(), b.changed()].into_iter().flatten().collect(),
    })
}

/// Asks the proved library one question about an input.
pub fn ask(question: Question, input: &Input) -> Result<Answer, Broken> {
    let mut lent = Lent::new(question, input);
    let (refusal, place, values) = match question {
        Question::Asap => lent.asap(),
        Question::Alap => lent.alap(input.bound),
        Question::Mobility => lent.mobility(input.bound),
        Question::List => lent.list(),
        Question::Advance => lent.advance(input.step),
        Question::Check => lent.check(input.bound),
        Question::Peak => lent.peak(),
        Question::First => lent.first(input.bound),
        Question::Next => lent.next(input.bound),
        Question::View => return view(input),
    }?;
    Ok(Answer {
        refusal,
        place,
        values,
        row: lent.written.content().to_vec(),
        spoiled: lent.spoiled(),
    })
}
