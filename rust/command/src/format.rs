//! From the lines of an input to a graph and what goes with it.

use std::collections::HashMap;

use pedal::{Graph, GraphBuilder, NameError};

use crate::input::Source;
use crate::lines::{self, Item};
use crate::trouble::Trouble;

/// All that an input says.
#[derive(Debug)]
pub struct Job {
    /// The graph.
    pub graph: Graph,
    /// The units of each type, where they are given.
    units: Vec<Option<u8>>,
    /// The latency bound, where it is given.
    bound: Option<usize>,
    /// The start of each operation, where it is given.
    starts: Vec<Option<u16>>,
    /// The input's name.
    source: String,
    /// The input's last line.
    last_line: usize,
}

/// What is wrong, and on which line.
type Fault = (usize, String);

/// An item and its line.
type Numbered<'a> = (usize, Item<'a>);

/// A job in the making.
struct Making {
    /// The graph so far.
    builder: GraphBuilder,
    /// The units of each type so far.
    units: Vec<Option<u8>>,
    /// The bound and its line.
    bound: Option<(usize, usize)>,
    /// Each operation's start and its line.
    starts: HashMap<u16, (u16, usize)>,
    /// Everything that is wrong so far.
    faults: Vec<Fault>,
}

/// Reads an input as a whole, or says what is wrong on the first line that is.
pub fn read(source: &Source) -> Result<Job, Trouble> {
    let unreadable = |(line, reason): Fault| Trouble::Line {
        source: source.name.clone(),
        line,
        reason,
    };
    let items = items(&source.text).map_err(unreadable)?;
    let making = Making::of(&items).map_err(unreadable)?;
    let last_line = source.text.lines().count().max(1);
    if items.is_empty() {
        return Err(unreadable((
            last_line,
            "there is nothing in the input".to_string(),
        )));
    }
    Ok(making.job(source.name.clone(), last_line))
}

/// The items of a text, with their lines.
fn items(text: &str) -> Result<Vec<Numbered<'_>>, Fault> {
    let mut items = Vec::new();
    for (place, line) in text.lines().enumerate() {
        let item = lines::item(line).map_err(|reason| (place + 1, reason))?;
        items.extend(item.map(|item| (place + 1, item)));
    }
    Ok(items)
}

/// A name's fault in words.
fn words(error: NameError) -> String {
    match error {
        NameError::UnknownKind(name) => {
            format!(
                "type {} is unknown: no type line has it",
                lines::shown(&name)
            )
        }
        NameError::UnknownOperation(name) => {
            format!(
                "operation {} is unknown: no op line has it",
                lines::shown(&name)
            )
        }
        other => other.to_string(),
    }
}

impl Making {
    /// Takes types first, then operations, then the rest, so that lines may come in any order.
    fn of(items: &[Numbered]) -> Result<Making, Fault> {
        let mut making = Making {
            builder: GraphBuilder::new(),
            units: Vec::new(),
            bound: None,
            starts: HashMap::new(),
            faults: Vec::new(),
        };
        for take in [
            Making::take_kind,
            Making::take_operation,
            Making::take_other,
        ] {
            for (line, item) in items {
                if let Err(reason) = take(&mut making, *line, item) {
                    making.faults.push((*line, reason));
                }
            }
        }
        match making.faults.iter().min() {
            Some(fault) => Err(fault.clone()),
            None => Ok(making),
        }
    }

    /// Takes an item if it is a type.
    fn take_kind(&mut self, _: usize, item: &Item) -> Result<(), String> {
        if let Item::Kind { name, units } = item {
            self.builder.kind(name).map_err(words)?;
            self.units.push(*units);
        }
        Ok(())
    }

    /// Takes an item if it is an operation.
    fn take_operation(&mut self, _: usize, item: &Item) -> Result<(), String> {
        if let Item::Operation { name, kind, delay } = item {
            self.builder.operation(name, kind, *delay).map_err(words)?;
        }
        Ok(())
    }

    /// Takes an item if it is neither a type nor an operation.
    fn take_other(&mut self, line: usize, item: &Item) -> Result<(), String> {
        match item {
            Item::Edge { from, to } => self.builder.edge(from, to).map_err(words).map(drop),
            Item::Bound(bound) => self.take_bound(line, *bound),
            Item::Start { name, step } => self.take_start(line, name, *step),
            _ => Ok(()),
        }
    }

    /// Takes the bound, once.
    fn take_bound(&mut self, line: usize, bound: usize) -> Result<(), String> {
        match self.bound.replace((bound, line)) {
            Some((_, first)) => Err(format!("the bound is given twice, first on line {first}")),
            None => Ok(()),
        }
    }

    /// Takes an operation's start, once.
    fn take_start(&mut self, line: usize, name: &str, step: u16) -> Result<(), String> {
        let operation = self.builder.operation_number(name).map_err(words)?;
        match self.starts.insert(operation, (step, line)) {
            Some((_, first)) => Err(format!(
                "the start of {name} is given twice, first on line {first}"
            )),
            None => Ok(()),
        }
    }

    /// The job.
    fn job(self, source: String, last_line: usize) -> Job {
        let graph = self.builder.build();
        let start_of = |operation: usize| {
            let number = u16::try_from(operation).ok()?;
            self.starts.get(&number).map(|(step, _)| *step)
        };
        Job {
            starts: (0..graph.operations()).map(start_of).collect(),
            graph,
            units: self.units,
            bound: self.bound.map(|(bound, _)| bound),
            source,
            last_line,
        }
    }
}

impl Job {
    /// The trouble that something is missing, which shows at the input's end.
    fn missing(&self, reason: String) -> Trouble {
        Trouble::Line {
            source: self.source.clone(),
            line: self.last_line,
            reason,
        }
    }

    /// The bound, which the question needs.
    pub fn bound(&self) -> Result<usize, Trouble> {
        let reason = "the input ends without a bound, as: bound 4";
        self.bound.ok_or_else(|| self.missing(reason.to_string()))
    }

    /// The units of a type, where they are given.
    pub fn units_of(&self, kind: usize) -> Option<u8> {
        self.units.get(kind).copied().flatten()
    }

    /// The units of every type, which the question needs.
    pub fn units(&self) -> Result<Vec<u8>, Trouble> {
        let lacking = |kind: usize| {
            let name = self.graph.kind_name(kind);
            self.missing(format!(
                "the input ends without the units of type {name}, as: type {name} units 1"
            ))
        };
        let units = self.units.iter().enumerate();
        units
            .map(|(kind, units)| units.ok_or_else(|| lacking(kind)))
            .collect()
    }

    /// The start of every operation, which the question needs.
    pub fn starts(&self) -> Result<Vec<u16>, Trouble> {
        let lacking = |operation: usize| {
            let name = self.graph.operation_name(operation);
            self.missing(format!(
                "the input ends without the start of operation {name}, as: start {name} 1"
            ))
        };
        let starts = self.starts.iter().enumerate();
        starts
            .map(|(i, start)| start.ok_or_else(|| lacking(i)))
            .collect()
    }
}
