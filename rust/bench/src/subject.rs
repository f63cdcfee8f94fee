//! The graphs that are timed.

use pedal::face::{GraphRows, Row};
use pedal::{MOST_EDGES, MOST_KINDS, MOST_OPERATIONS};
use samples::{Size, Xorshift};
use second::{quick, Graph};

/// How many edges the largest graph has room for, to each operation.
const EDGES_EACH: usize = MOST_EDGES / MOST_OPERATIONS;
/// The longest delay of a tangle.
const LONGEST_DELAY: usize = 4;

/// A graph with all that the questions take.
pub struct Subject {
    /// What it is called.
    pub name: String,
    /// The graph.
    pub sample: samples::Graph,
    /// The unit counts.
    pub units: Vec<u8>,
    /// The latency bound.
    pub bound: usize,
    /// A lawful schedule.
    pub starts: Vec<u16>,
}

impl Subject {
    /// A graph with its list schedule on two units of each type, and the latency as the bound.
    fn scheduled(name: &str, sample: samples::Graph) -> Subject {
        let mut subject = Subject {
            name: name.to_string(),
            units: vec![2; sample.kinds],
            sample,
            bound: 0,
            starts: Vec::new(),
        };
        subject.settle();
        subject
    }

    /// Random operations and random edges that go forward: one for each operation, or as many as
    /// the largest graph has room for.
    pub fn tangle(count: usize, dense: bool) -> Subject {
        let mut rng = Xorshift::new(count as u64 * 2 + u64::from(dense) + 1_000_003);
        let sample = samples::tangle(&mut rng, size(count, dense));
        Subject::scheduled(name(dense), sample)
    }

    /// A chain with a few operations beside it and one unit of each type, so that all its
    /// schedules can be listed.
    pub fn ladder(count: usize, dense: bool) -> Subject {
        let mut rng = Xorshift::new(count as u64 * 2 + u64::from(dense) + 2_000_003);
        let (sample, bound) = samples::ladder(&mut rng, size(count, dense));
        Subject {
            name: name(dense).to_string(),
            units: vec![1; sample.kinds],
            sample,
            bound,
            starts: Vec::new(),
        }
    }

    /// The eleven-operation graph at bound 5, with two units of each type.
    pub fn eleven() -> Subject {
        let mut subject = Subject::scheduled("eleven operations, bound 5", samples::eleven());
        subject.bound = 5;
        subject
    }

    /// Takes the list schedule, and its latency as the bound.
    fn settle(&mut self) {
        let mut starts = self.row();
        let latency = quick::list_schedule(&self.graph(), &self.units, &mut starts);
        self.bound = latency.expect("a graph that is in order");
        self.starts = starts;
    }

    /// The graph as the plain side takes it.
    pub fn graph(&self) -> Graph<'_> {
        Graph {
            delays: &self.sample.delays,
            types: &self.sample.types,
            kinds: self.sample.kinds,
            from: &self.sample.from,
            to: &self.sample.to,
        }
    }

    /// The graph as the proved side takes it.
    #[inline]
    pub fn rows(&self) -> GraphRows<'_> {
        GraphRows {
            delays: Row::of(&self.sample.delays),
            types: Row::of(&self.sample.types),
            kinds: self.sample.kinds,
            from: Row::of(&self.sample.from),
            to: Row::of(&self.sample.to),
        }
    }

    /// A row for the output.
    pub fn row(&self) -> Vec<u16> {
        vec![0; self.sample.operations()]
    }
}

/// What graphs of few or many edges are called.
fn name(dense: bool) -> &'static str {
    if dense {
        "dense"
    } else {
        "sparse"
    }
}

/// How large a graph of some operations and few or many edges is.
fn size(count: usize, dense: bool) -> Size {
    let edges = if dense { EDGES_EACH * count } else { count };
    Size {
        operations: count,
        longest_delay: LONGEST_DELAY,
        kinds: MOST_KINDS,
        edges: edges.min(count * (count - 1) / 2),
    }
}
