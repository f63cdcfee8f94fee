//! Building a graph from names.

use std::collections::hash_map::Entry;
use std::collections::HashMap;
use std::fmt;

use crate::Graph;

/// Builds a graph from the names of types and operations, which the graph then keeps.
///
/// Types and operations are numbered in the order in which they are named.
#[derive(Clone, Debug)]
pub struct GraphBuilder {
    /// The graph so far.
    graph: Graph,
    /// The number of each type.
    kinds: HashMap<String, u8>,
    /// The number of each operation.
    operations: HashMap<String, u16>,
}

/// Why a name was turned down.
#[derive(Clone, Debug, PartialEq, Eq)]
pub enum NameError {
    /// No type has this name.
    UnknownKind(String),
    /// No operation has this name.
    UnknownOperation(String),
    /// A type of this name is there already.
    KindTwice(String),
    /// An operation of this name is there already.
    OperationTwice(String),
    /// A type's number would not fit into a byte.
    TooManyKinds,
    /// An operation's number would not fit into 16 bits.
    TooManyOperations,
}

impl fmt::Display for NameError {
    /// Says what is wrong with the name.
    fn fmt(&self, f: &mut fmt::Formatter<'_>) -> fmt::Result {
        match self {
            NameError::UnknownKind(name) => write!(f, "type {name} is unknown"),
            NameError::UnknownOperation(name) => write!(f, "operation {name} is unknown"),
            NameError::KindTwice(name) => write!(f, "type {name} is named twice"),
            NameError::OperationTwice(name) => write!(f, "operation {name} is named twice"),
            NameError::TooManyKinds => write!(f, "more than 256 types cannot be numbered"),
            NameError::TooManyOperations => {
                write!(f, "more than 65,536 operations cannot be numbered")
            }
        }
    }
}

impl std::error::Error for NameError {}

impl Default for GraphBuilder {
    /// Nothing named yet.
    fn default() -> GraphBuilder {
        GraphBuilder::new()
    }
}

impl GraphBuilder {
    /// Begins a graph in which nothing is named yet.
    pub fn new() -> GraphBuilder {
        GraphBuilder {
            graph: Graph::new([], [], 0, [], []),
            kinds: HashMap::new(),
            operations: HashMap::new(),
        }
    }

    /// Adds a type.
    pub fn kind(&mut self, name: &str) -> Result<&mut GraphBuilder, NameError> {
        let number = u8::try_from(self.graph.kinds).map_err(|_| NameError::TooManyKinds)?;
        match self.kinds.entry(name.to_string()) {
            Entry::Occupied(_) => return Err(NameError::KindTwice(name.to_string())),
            Entry::Vacant(place) => place.insert(number),
        };
        self.graph.kinds += 1;
        self.graph.kind_names.push(name.to_string());
        Ok(self)
    }

    /// Adds an operation of a type that is there, with its delay in steps.
    pub fn operation(
        &mut self,
        name: &str,
        kind: &str,
        delay: u8,
    ) -> Result<&mut GraphBuilder, NameError> {
        let kind = self.kind_number(kind)?;
        let number = u16::try_from(self.graph.operations());
        let number = number.map_err(|_| NameError::TooManyOperations)?;
        match self.operations.entry(name.to_string()) {
            Entry::Occupied(_) => return Err(NameError::OperationTwice(name.to_string())),
            Entry::Vacant(place) => place.insert(number),
        };
        self.graph.delays.push(delay);
        self.graph.types.push(kind);
        self.graph.operation_names.push(name.to_string());
        Ok(self)
    }

    /// Adds an edge between operations that are there: the second needs what the first gives.
    pub fn edge(&mut self, from: &str, to: &str) -> Result<&mut GraphBuilder, NameError> {
        let ends = (self.operation_number(from)?, self.operation_number(to)?);
        self.graph.from.push(ends.0);
        self.graph.to.push(ends.1);
        Ok(self)
    }

    /// The number of an operation.
    pub fn operation_number(&self, name: &str) -> Result<u16, NameError> {
        let number = self.operations.get(name).copied();
        number.ok_or_else(|| NameError::UnknownOperation(name.to_string()))
    }

    /// The number of a type.
    pub fn kind_number(&self, name: &str) -> Result<u8, NameError> {
        let number = self.kinds.get(name).copied();
        number.ok_or_else(|| NameError::UnknownKind(name.to_string()))
    }

    /// The graph of all that was named.
    pub fn build(self) -> Graph {
        self.graph
    }
}
