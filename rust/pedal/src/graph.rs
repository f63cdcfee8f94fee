//! A graph of operations, with their names where they have some.

use crate::face::{GraphRows, Row};

/// Operations with their delays and types, and the edges between them.
///
/// Any rows make a graph; each question refuses the ones that are at fault.
#[derive(Clone, Debug, PartialEq, Eq)]
pub struct Graph {
    /// The delay of each operation, in steps.
    pub(crate) delays: Vec<u8>,
    /// The type of each operation.
    pub(crate) types: Vec<u8>,
    /// How many types there are.
    pub(crate) kinds: usize,
    /// The operation that each edge leaves.
    pub(crate) from: Vec<u16>,
    /// The operation that each edge leads to.
    pub(crate) to: Vec<u16>,
    /// The names of the operations, none where the graph was built from numbers.
    pub(crate) operation_names: Vec<String>,
    /// The names of the types, none where the graph was built from numbers.
    pub(crate) kind_names: Vec<String>,
}

impl Graph {
    /// Builds a graph from numbers: a delay and a type for each operation, the number of types,
    /// and for each edge where it leaves and where it leads.
    pub fn new(
        delays: impl Into<Vec<u8>>,
        types: impl Into<Vec<u8>>,
        kinds: usize,
        from: impl Into<Vec<u16>>,
        to: impl Into<Vec<u16>>,
    ) -> Graph {
        Graph {
            delays: delays.into(),
            types: types.into(),
            kinds,
            from: from.into(),
            to: to.into(),
            operation_names: Vec::new(),
            kind_names: Vec::new(),
        }
    }

    /// The number of operations.
    pub fn operations(&self) -> usize {
        self.delays.len()
    }

    /// The number of types.
    pub fn kinds(&self) -> usize {
        self.kinds
    }

    /// The number of edges.
    pub fn edges(&self) -> usize {
        self.from.len()
    }

    /// The delay of each operation.
    pub fn delays(&self) -> &[u8] {
        &self.delays
    }

    /// The type of each operation.
    pub fn types(&self) -> &[u8] {
        &self.types
    }

    /// The operation that each edge leaves.
    pub fn from(&self) -> &[u16] {
        &self.from
    }

    /// The operation that each edge leads to.
    pub fn to(&self) -> &[u16] {
        &self.to
    }

    /// An operation's name, or its number where it has none.
    pub fn operation_name(&self, operation: usize) -> String {
        named(&self.operation_names, operation)
    }

    /// A type's name, or its number where it has none.
    pub fn kind_name(&self, kind: usize) -> String {
        named(&self.kind_names, kind)
    }

    /// An edge by the names of its ends, or by its number where the graph has no such edge.
    pub fn edge_name(&self, edge: usize) -> String {
        match (self.from.get(edge), self.to.get(edge)) {
            (Some(&i), Some(&j)) => self.path_name(&[i, j]),
            _ => edge.to_string(),
        }
    }

    /// Operations one after another, by name.
    pub(crate) fn path_name(&self, path: &[u16]) -> String {
        let names = path.iter().map(|&i| self.operation_name(usize::from(i)));
        names.collect::<Vec<String>>().join(" -> ")
    }

    /// The last step in which anything runs under a row of starts, 0 if there is nothing to run.
    pub fn latency(&self, starts: &[u16]) -> usize {
        let pairs = starts.iter().zip(&self.delays);
        let ends = pairs.map(|(&start, &delay)| usize::from(start) + usize::from(delay));
        ends.max().unwrap_or(0).saturating_sub(1)
    }

    /// The graph's rows, to be lent.
    pub(crate) fn rows(&self) -> GraphRows<'_> {
        GraphRows {
            delays: Row::of(&self.delays),
            types: Row::of(&self.types),
            kinds: self.kinds,
            from: Row::of(&self.from),
            to: Row::of(&self.to),
        }
    }

    /// A row with an entry for each operation.
    pub(crate) fn row(&self) -> Vec<u16> {
        vec![0; self.operations()]
    }
}

/// The name at a number, or the number itself where there is none.
fn named(names: &[String], number: usize) -> String {
    names
        .get(number)
        .cloned()
        .unwrap_or_else(|| number.to_string())
}
