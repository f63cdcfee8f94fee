//! The checker's verdict in words.

use pedal::{Finding, Graph};

use crate::answers::Answer;
use crate::format::Job;
use crate::table::{Side, Table};
use crate::trouble::{Status, Trouble};

/// A schedule that was checked.
struct Checked<'a> {
    /// The graph.
    graph: &'a Graph,
    /// The units of each type.
    units: Vec<u8>,
    /// The latency bound.
    bound: usize,
    /// The start of each operation.
    starts: Vec<u16>,
}

/// Says that the schedule is lawful, or names its first fault.
pub fn check(job: &Job, csv: bool) -> Result<Answer, Trouble> {
    let checked = Checked {
        graph: &job.graph,
        units: job.units()?,
        bound: job.bound()?,
        starts: job.starts()?,
    };
    let finding = job
        .graph
        .check(&checked.units, checked.bound, &checked.starts)?;
    let status = match finding {
        Finding::Lawful => Status::Answered,
        _ => Status::Fault,
    };
    let text = if csv {
        checked.row(finding)
    } else {
        checked.words(finding)
    };
    Ok((text, status))
}

impl Checked<'_> {
    /// The finding in words.
    fn words(&self, finding: Finding) -> String {
        match finding {
            Finding::Lawful => "lawful\n".to_string(),
            Finding::Untimely { operation } => format!("fault: {}\n", self.untimely(operation)),
            Finding::Broken { edge } => format!("fault: {}\n", self.broken(edge)),
            Finding::OverUse { step, kind } => format!("fault: {}\n", self.over_use(step, kind)),
        }
    }

    /// The steps in which an operation runs, the first and the last.
    fn run(&self, operation: usize) -> (usize, usize) {
        let start = usize::from(self.starts[operation]);
        let delay = usize::from(self.graph.delays()[operation]);
        (start, (start + delay).saturating_sub(1))
    }

    /// A start of 0 or a finish past the bound.
    fn untimely(&self, operation: usize) -> String {
        let name = self.graph.operation_name(operation);
        match self.run(operation) {
            (0, _) => format!("{name} starts at step 0, and steps count from 1"),
            (start, end) => format!(
                "{name} starts at step {start} and runs to step {end}, past the bound {}",
                self.bound
            ),
        }
    }

    /// An edge whose end starts too early.
    fn broken(&self, edge: usize) -> String {
        let i = usize::from(self.graph.from()[edge]);
        let j = usize::from(self.graph.to()[edge]);
        format!(
            "edge {} is broken: {} starts at step {}, but {} runs to the end of step {}",
            self.graph.edge_name(edge),
            self.graph.operation_name(j),
            self.run(j).0,
            self.graph.operation_name(i),
            self.run(i).1
        )
    }

    /// The operations of a type that run at a step.
    fn running(&self, step: usize, kind: usize) -> Vec<String> {
        let runs = |&operation: &usize| {
            let (start, end) = self.run(operation);
            usize::from(self.graph.types()[operation]) == kind && start <= step && step <= end
        };
        let operations = (0..self.graph.operations()).filter(runs);
        operations.map(|i| self.graph.operation_name(i)).collect()
    }

    /// More running than there are units.
    fn over_use(&self, step: usize, kind: usize) -> String {
        let units = match self.units[kind] {
            1 => "1 unit".to_string(),
            units => format!("{units} units"),
        };
        format!(
            "type {} over-used at step {step}: {} run on {units}",
            self.graph.kind_name(kind),
            self.running(step, kind).join(", ")
        )
    }

    /// The finding as a table of one row.
    fn row(&self, finding: Finding) -> String {
        let columns = ["finding", "operation", "from", "to", "step", "type"];
        let mut table = Table::new(&columns.map(|name| (name, Side::Left)));
        let name = |operation: u16| self.graph.operation_name(usize::from(operation));
        let entries = match finding {
            Finding::Lawful => [("finding", "lawful".to_string())].to_vec(),
            Finding::Untimely { operation } => vec![
                ("finding", "untimely".to_string()),
                ("operation", self.graph.operation_name(operation)),
            ],
            Finding::Broken { edge } => vec![
                ("finding", "broken".to_string()),
                ("from", name(self.graph.from()[edge])),
                ("to", name(self.graph.to()[edge])),
            ],
            Finding::OverUse { step, kind } => vec![
                ("finding", "over-use".to_string()),
                ("step", step.to_string()),
                ("type", self.graph.kind_name(kind)),
            ],
        };
        let entry = |column: &str| {
            let found = entries.iter().find(|(name, _)| *name == column);
            found.map(|(_, entry)| entry.clone()).unwrap_or_default()
        };
        table.push(columns.map(entry).to_vec());
        table.text(true)
    }
}
