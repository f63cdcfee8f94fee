//! What is made is as large as was said, and the same again from the same seed.

use crate::{eleven, ladder, overwrite, shuffled, tangle, Graph, Size, Xorshift};

/// A size of some operations and edges.
fn size(operations: usize, edges: usize) -> Size {
    Size {
        operations,
        longest_delay: 3,
        kinds: 2,
        edges,
    }
}

/// Demands that a graph is no larger than was said, and that its edges have ends.
fn is_within(graph: &Graph, size: Size) {
    assert_eq!(graph.delays.len(), size.operations);
    assert_eq!(graph.types.len(), size.operations);
    assert!(graph.edges() <= size.edges && graph.to.len() == graph.edges());
    let delays = 1..=size.longest_delay;
    assert!(graph
        .delays
        .iter()
        .all(|&d| delays.contains(&usize::from(d))));
    assert!(graph.types.iter().all(|&k| usize::from(k) < size.kinds));
    let mut ends = graph.from.iter().chain(&graph.to);
    assert!(ends.all(|&end| usize::from(end) < size.operations));
}

/// Whether every edge leads to a higher number, and none comes twice.
fn is_upward(graph: &Graph) -> bool {
    let mut edges: Vec<(u16, u16)> = graph.from.iter().copied().zip(graph.to.clone()).collect();
    edges.sort_unstable();
    edges.iter().all(|(i, j)| i < j) && edges.windows(2).all(|pair| pair[0] != pair[1])
}

/// The same seed gives the same numbers, near seeds give others, and none is out of range.
#[test]
fn numbers() {
    let draw = |seed: u64| Xorshift::spread(seed).bits();
    assert_eq!(draw(5), draw(5));
    assert_ne!(draw(4), draw(5));
    let mut rng = Xorshift::new(0);
    assert!((0..1000).all(|_| (3..=7).contains(&rng.between(3, 7))));
    assert_eq!(rng.below(0), 0);
}

/// A shuffled row has every number once; a row without entries cannot be overwritten.
#[test]
fn rows() {
    let mut rng = Xorshift::new(1);
    let mut row = shuffled(&mut rng, 50);
    assert!(!row.is_sorted());
    row.sort_unstable();
    assert_eq!(row, (0..50).collect::<Vec<u16>>());
    overwrite(&mut rng, &mut row[..0], 99);
    overwrite(&mut rng, &mut row, 99);
    assert_eq!(row.iter().filter(|&&entry| entry == 99).count(), 1);
}

/// Random graphs of every size are as large as was said.
#[test]
fn random_graphs() {
    let mut rng = Xorshift::new(2);
    for operations in 0..40 {
        for edges in [0, 1, 10, 60] {
            let size = size(operations, edges);
            is_within(&Graph::random(&mut rng, size), size);
        }
    }
    let make = || Graph::random(&mut Xorshift::new(3), size(20, 60));
    assert_eq!(make(), make());
}

/// Tangles have all their edges, and the graph of the paper its eight; none has a cycle.
#[test]
fn tangles() {
    for operations in [8, 16, 64] {
        let size = size(operations, 2 * operations);
        let graph = tangle(&mut Xorshift::new(4), size);
        is_within(&graph, size);
        assert_eq!(graph.edges(), size.edges);
        assert!(is_upward(&graph));
    }
    assert_eq!(eleven().edges(), 8);
}

/// A ladder's chain is as long as its bound, but for a short one.
#[test]
fn ladders() {
    for (operations, due) in [(8, 5), (16, 11), (64, 59)] {
        let size = size(operations, 4 * operations);
        let (graph, bound) = ladder(&mut Xorshift::new(5), size);
        is_within(&graph, size);
        assert_eq!(bound, due);
        assert!(graph.is_joined(0, 1) && !graph.is_joined(1, 0));
    }
}
