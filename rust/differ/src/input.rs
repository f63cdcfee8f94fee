//! One input for every question.

use std::fmt;

use second::Graph;

/// Rows and numbers for all ten functions.
#[derive(Clone, Debug, Default, PartialEq, Eq)]
pub struct Input {
    /// The delay of each operation.
    pub delays: Vec<u8>,
    /// The type of each operation.
    pub types: Vec<u8>,
    /// The number of types.
    pub kinds: usize,
    /// Where each edge leaves.
    pub from: Vec<u16>,
    /// Where each edge leads.
    pub to: Vec<u16>,
    /// The unit counts.
    pub units: Vec<u8>,
    /// The latency bound.
    pub bound: usize,
    /// A row of starts for the checker and peak use.
    pub starts: Vec<u16>,
    /// A row after which the lister is asked.
    pub after: Vec<u16>,
    /// What the output row holds before the question.
    pub out: Vec<u16>,
    /// A state's step.
    pub step: usize,
    /// A state's starts.
    pub state: Vec<u16>,
    /// Channel A's table.
    pub a: Vec<u16>,
    /// Channel B's table.
    pub b: Vec<u16>,
    /// The channel to view.
    pub channel: usize,
    /// The view's first entry.
    pub first: usize,
    /// The view's number of entries.
    pub count: usize,
    /// Whether empty rows are lent with null pointers.
    pub null: bool,
}

impl Input {
    /// The graph as the second opinion takes it.
    pub fn graph(&self) -> Graph<'_> {
        Graph {
            delays: &self.delays,
            types: &self.types,
            kinds: self.kinds,
            from: &self.from,
            to: &self.to,
        }
    }
}

impl From<samples::Graph> for Input {
    /// An input with a graph, and nothing else yet.
    fn from(graph: samples::Graph) -> Input {
        Input {
            delays: graph.delays,
            types: graph.types,
            kinds: graph.kinds,
            from: graph.from,
            to: graph.to,
            ..Input::default()
        }
    }
}

impl fmt::Display for Input {
    /// The input as Rust literals.
    fn fmt(&self, f: &mut fmt::Formatter<'_>) -> fmt::Result {
        writeln!(f, "let input = Input {{")?;
        writeln!(f, "    delays: vec!{:?},", self.delays)?;
        writeln!(f, "    types: vec!{:?},", self.types)?;
        writeln!(f, "    kinds: {},", self.kinds)?;
        writeln!(f, "    from: vec!{:?},", self.from)?;
        writeln!(f, "    to: vec!{:?},", self.to)?;
        writeln!(f, "    units: vec!{:?},", self.units)?;
        writeln!(f, "    bound: {},", self.bound)?;
        writeln!(f, "    starts: vec!{:?},", self.starts)?;
        writeln!(f, "    after: vec!{:?},", self.after)?;
        writeln!(f, "    out: vec!{:?},", self.out)?;
        writeln!(f, "    step: {},", self.step)?;
        writeln!(f, "    state: vec!{:?},", self.state)?;
        writeln!(f, "    a: vec!{:?},", self.a)?;
        writeln!(f, "    b: vec!{:?},", self.b)?;
        writeln!(f, "    channel: {},", self.channel)?;
        writeln!(f, "    first: {},", self.first)?;
        writeln!(f, "    count: {},", self.count)?;
        writeln!(f, "    null: {},", self.null)?;
        write!(f, "}};")
    }
}
