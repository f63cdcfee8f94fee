//! The list schedule step by step.

use pedal::State;

use crate::answers::Answer;
use crate::format::Job;
use crate::table::{Side, Table};
use crate::trouble::{Status, Trouble};

/// The operations of a graph that some test holds for, by name.
fn names(job: &Job, holds: impl Fn(usize) -> bool) -> String {
    let chosen = (0..job.graph.operations()).filter(|&operation| holds(operation));
    let names = chosen.map(|operation| job.graph.operation_name(operation));
    names.collect::<Vec<String>>().join(" ")
}

/// Whether an operation is placed and runs at a step.
fn runs_at(job: &Job, state: &State, operation: usize, step: usize) -> bool {
    let start = usize::from(state.starts[operation]);
    let end = start + usize::from(job.graph.delays()[operation]);
    start != 0 && start <= step && step < end
}

/// What an advance did: what started at the step, and what then runs on each type.
fn row(job: &Job, step: usize, after: &State) -> Vec<String> {
    let mut row = vec![
        step.to_string(),
        names(job, |operation| {
            usize::from(after.starts[operation]) == step
        }),
    ];
    for kind in 0..job.graph.kinds() {
        row.push(names(job, |operation| {
            let own = usize::from(job.graph.types()[operation]);
            own == kind && runs_at(job, after, operation, step)
        }));
    }
    row
}

/// The heading: the step, what starts, and each type with its units.
fn table(job: &Job, csv: bool, units: &[u8]) -> Table {
    let kinds: Vec<String> = units
        .iter()
        .enumerate()
        .map(|(kind, units)| {
            let name = job.graph.kind_name(kind);
            if csv {
                name
            } else {
                format!("on {name} (of {units})")
            }
        })
        .collect();
    let mut columns = vec![("step", Side::Right), ("starts", Side::Left)];
    columns.extend(kinds.iter().map(|name| (name.as_str(), Side::Left)));
    Table::new(&columns)
}

/// Advances from the fresh state until nothing changes any more.
pub fn watch(job: &Job, csv: bool) -> Result<Answer, Trouble> {
    let units = job.units()?;
    let mut table = table(job, csv, &units);
    let mut state = State::fresh();
    loop {
        let next = state.advance(&job.graph, &units)?;
        if next == state {
            break;
        }
        table.push(row(job, state.step, &next));
        state = next;
    }
    let placed = &state.starts[..job.graph.operations()];
    let below = format!("all placed, latency {}\n", job.graph.latency(placed));
    let below = if csv { String::new() } else { below };
    Ok((table.text(csv) + &below, Status::Answered))
}
