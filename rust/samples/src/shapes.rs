//! Graphs of a shape that is known, without cycles.

use crate::rows::bytes;
use crate::{Graph, Size, Xorshift};

/// How many operations of a ladder stand beside its chain.
const SIDES: usize = 5;
/// How many starts such an operation has to choose from.
const WINDOW: usize = 5;

/// Random operations and as many edges as are allowed, each once and to a higher number.
pub fn tangle(rng: &mut Xorshift, size: Size) -> Graph {
    let mut graph = Graph::without_edges(rng, size);
    join_upward(&mut graph, rng, size.operations, size.edges);
    graph
}

/// A chain with a few operations beside it, all of delay 1, and as many edges as are allowed; and
/// a bound that leaves a long chain no freedom, and a short one a little.
pub fn ladder(rng: &mut Xorshift, size: Size) -> (Graph, usize) {
    let chain = size.operations - SIDES;
    let mut graph = Graph {
        delays: vec![1; size.operations],
        types: bytes(rng, size.operations, 0, size.kinds - 1),
        kinds: size.kinds,
        ..Graph::default()
    };
    for operation in 1..chain {
        graph.join(operation as u16 - 1, operation as u16);
    }
    join_sides(&mut graph, rng, chain);
    join_upward(&mut graph, rng, chain, size.edges);
    let bound = if chain > WINDOW { chain } else { chain + 2 };
    (graph, bound)
}

/// The eleven-operation graph of the scope paper, every delay 1.
pub fn eleven() -> Graph {
    Graph {
        delays: vec![1; 11],
        types: vec![0, 0, 0, 1, 1, 0, 0, 0, 1, 1, 1],
        kinds: 2,
        from: vec![0, 1, 2, 3, 5, 6, 7, 9],
        to: vec![2, 2, 3, 4, 6, 4, 8, 10],
    }
}

/// Joins operations among the first to higher ones, up to a number of edges or until there is
/// hardly room for more.
fn join_upward(graph: &mut Graph, rng: &mut Xorshift, first: usize, edges: usize) {
    for _ in 0..100 * edges {
        let (i, j) = (rng.below(first) as u16, rng.below(first) as u16);
        if graph.edges() < edges && i < j && !graph.is_joined(i, j) {
            graph.join(i, j);
        }
    }
}

/// Ties each operation beside a chain to two operations on it, some steps apart.
fn join_sides(graph: &mut Graph, rng: &mut Xorshift, chain: usize) {
    for side in chain..graph.operations() {
        let first = rng.below(chain.saturating_sub(WINDOW + 1).max(1));
        graph.join(first as u16, side as u16);
        if first + WINDOW + 1 < chain {
            graph.join(side as u16, (first + WINDOW + 1) as u16);
        }
    }
}
