//! The questions that are answered by one table.

use crate::format::Job;
use crate::table::{Side, Table};
use crate::trouble::{Status, Trouble};

/// An answer's text and its exit status.
pub type Answer = (String, Status);

/// A table of the operations with further columns of numbers, and a line below it.
fn operations(job: &Job, csv: bool, columns: &[(&str, &[u16])], below: &str) -> Answer {
    let mut head = vec![
        ("operation", Side::Left),
        ("type", Side::Left),
        ("delay", Side::Right),
    ];
    head.extend(columns.iter().map(|(name, _)| (*name, Side::Right)));
    let mut table = Table::new(&head);
    for operation in 0..job.graph.operations() {
        table.push(operation_row(job, operation, columns));
    }
    let text = table.text(csv);
    let below = if csv { "" } else { below };
    (text + below, Status::Answered)
}

/// The row of an operation.
fn operation_row(job: &Job, operation: usize, columns: &[(&str, &[u16])]) -> Vec<String> {
    let kind = usize::from(job.graph.types()[operation]);
    let mut row = vec![
        job.graph.operation_name(operation),
        job.graph.kind_name(kind),
        job.graph.delays()[operation].to_string(),
    ];
    row.extend(
        columns
            .iter()
            .map(|(_, numbers)| numbers[operation].to_string()),
    );
    row
}

/// Earliest starts.
pub fn asap(job: &Job, csv: bool) -> Result<Answer, Trouble> {
    let starts = job.graph.asap()?;
    let below = format!("latency {}\n", job.graph.latency(&starts));
    Ok(operations(job, csv, &[("earliest", &starts)], &below))
}

/// Latest starts.
pub fn alap(job: &Job, csv: bool) -> Result<Answer, Trouble> {
    let bound = job.bound()?;
    let starts = job.graph.alap(bound)?;
    let below = format!("bound {bound}\n");
    Ok(operations(job, csv, &[("latest", &starts)], &below))
}

/// Latest less earliest starts, beside both.
pub fn mobility(job: &Job, csv: bool) -> Result<Answer, Trouble> {
    let bound = job.bound()?;
    let mobility = job.graph.mobility(bound)?;
    let (early, late) = (job.graph.asap()?, job.graph.alap(bound)?);
    let columns: [(&str, &[u16]); 3] = [
        ("earliest", &early),
        ("latest", &late),
        ("mobility", &mobility),
    ];
    let below = format!("bound {bound}\n");
    Ok(operations(job, csv, &columns, &below))
}

/// The list schedule.
pub fn list(job: &Job, csv: bool) -> Result<Answer, Trouble> {
    let schedule = job.graph.list(&job.units()?)?;
    let below = format!("latency {}\n", schedule.latency);
    Ok(operations(job, csv, &[("start", &schedule.starts)], &below))
}

/// Peak use, beside the units where they are given.
pub fn peak(job: &Job, csv: bool) -> Result<Answer, Trouble> {
    let peaks = job.graph.peak(&job.starts()?)?;
    let columns = [
        ("type", Side::Left),
        ("units", Side::Right),
        ("peak", Side::Right),
    ];
    let mut table = Table::new(&columns);
    for (kind, peak) in peaks.iter().enumerate().take(job.graph.kinds()) {
        let nothing = if csv { "" } else { "-" };
        let units = job.units_of(kind).map(|units| units.to_string());
        table.push(vec![
            job.graph.kind_name(kind),
            units.unwrap_or_else(|| nothing.to_string()),
            peak.to_string(),
        ]);
    }
    Ok((table.text(csv), Status::Answered))
}
