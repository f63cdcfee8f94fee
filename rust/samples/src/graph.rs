//! Graphs as rows, and random ones of any shape.

use crate::rows::{in_order, shuffled};
use crate::Xorshift;

/// Operations with their delays and types, and the edges between them.
#[derive(Clone, Debug, Default, PartialEq, Eq)]
pub struct Graph {
    /// The delay of each operation, in steps.
    pub delays: Vec<u8>,
    /// The type of each operation.
    pub types: Vec<u8>,
    /// How many types there are.
    pub kinds: usize,
    /// The operation that each edge leaves.
    pub from: Vec<u16>,
    /// The operation that each edge leads to.
    pub to: Vec<u16>,
}

/// How large a graph is to be.
#[derive(Clone, Copy, Debug, PartialEq, Eq)]
pub struct Size {
    /// How many operations it has.
    pub operations: usize,
    /// The longest delay that it may have; the shortest is 1.
    pub longest_delay: usize,
    /// How many types it has, one or more.
    pub kinds: usize,
    /// The most edges that it may have.
    pub edges: usize,
}

impl Graph {
    /// A random graph: its edges go forward in some order of the operations, but for a rare few.
    pub fn random(rng: &mut Xorshift, size: Size) -> Graph {
        let mut graph = Graph::without_edges(rng, size);
        let order = match rng.below(2) {
            0 => in_order(size.operations),
            _ => shuffled(rng, size.operations),
        };
        if rng.once_in(3) {
            graph.join_neighbours(rng, &order);
        }
        let each = if rng.once_in(8) { 4 } else { 2 };
        for _ in 0..rng.between(0, size.edges.min(each * size.operations)) {
            graph.join_forward(rng, &order);
        }
        if rng.once_in(10) {
            graph.join_backward(rng, &order);
        }
        graph.from.truncate(size.edges);
        graph.to.truncate(size.edges);
        graph
    }

    /// Operations with random delays and types, and nothing between them.
    pub fn without_edges(rng: &mut Xorshift, size: Size) -> Graph {
        let mut graph = Graph {
            kinds: size.kinds,
            ..Graph::default()
        };
        for _ in 0..size.operations {
            graph.delays.push(rng.between(1, size.longest_delay) as u8);
            graph.types.push(rng.below(size.kinds) as u8);
        }
        graph
    }

    /// How many operations there are.
    pub fn operations(&self) -> usize {
        self.delays.len()
    }

    /// How many edges there are.
    pub fn edges(&self) -> usize {
        self.from.len()
    }

    /// Adds an edge.
    pub fn join(&mut self, from: u16, to: u16) {
        self.from.push(from);
        self.to.push(to);
    }

    /// Whether an edge is there.
    pub fn is_joined(&self, from: u16, to: u16) -> bool {
        let mut ends = self.from.iter().zip(&self.to);
        ends.any(|edge| edge == (&from, &to))
    }

    /// Joins most neighbours of an order, so that little freedom is left.
    fn join_neighbours(&mut self, rng: &mut Xorshift, order: &[u16]) {
        for pair in order.windows(2) {
            if !rng.once_in(8) {
                self.join(pair[0], pair[1]);
            }
        }
    }

    /// Joins an operation to one further on in an order, now and then twice.
    fn join_forward(&mut self, rng: &mut Xorshift, order: &[u16]) {
        let (i, j) = (rng.below(order.len()), rng.below(order.len()));
        let times = if rng.once_in(12) { 2 } else { 1 };
        for _ in 0..times {
            if i != j {
                self.join(order[i.min(j)], order[i.max(j)]);
            }
        }
    }

    /// Joins an operation or two to themselves or to one further back in an order, which may
    /// close a cycle.
    fn join_backward(&mut self, rng: &mut Xorshift, order: &[u16]) {
        for _ in 0..rng.between(1, 2) {
            let (i, j) = (rng.below(order.len()), rng.below(order.len()));
            if !order.is_empty() {
                self.join(order[i.max(j)], order[i.min(j)]);
            }
        }
    }
}
