//! All lawful schedules, each printed as it is found.

use std::io::{self, Write};

use pedal::Schedules;

use crate::format::Job;
use crate::table::{self, Side};
use crate::trouble::{self, Status, Trouble};

/// How the lines of a listing look.
struct Look {
    /// The width and side of each column.
    places: Vec<(usize, Side)>,
    /// Whether the lines are for machines.
    csv: bool,
}

impl Look {
    /// Columns wide enough for every name, and for every start up to the bound.
    fn new(heading: &[String], bound: usize, csv: bool) -> Look {
        let widest = bound.to_string().len();
        let places = heading.iter();
        let places = places.map(|name| (table::width(name).max(widest), Side::Right));
        Look {
            places: places.collect(),
            csv,
        }
    }

    /// A line of the listing.
    fn line(&self, entries: &[String]) -> String {
        let entries: Vec<&str> = entries.iter().map(String::as_str).collect();
        if self.csv {
            return table::csv_line(&entries);
        }
        table::aligned_line(&entries, &self.places)
    }
}

/// The heading: a number for each schedule, and each operation by name.
fn heading(job: &Job) -> Vec<String> {
    let names = (0..job.graph.operations()).map(|i| job.graph.operation_name(i));
    std::iter::once("schedule".to_string())
        .chain(names)
        .collect()
}

/// A schedule's number and starts.
fn entries(number: usize, starts: &[u16]) -> Vec<String> {
    let starts = starts.iter().map(u16::to_string);
    std::iter::once(number.to_string()).chain(starts).collect()
}

/// Prints schedules as they are found, up to the limit, and gives their number.
fn stream(
    out: &mut impl Write,
    look: &Look,
    schedules: Schedules<'_>,
    limit: usize,
) -> Result<usize, Trouble> {
    let mut count = 0;
    for starts in schedules.take(limit) {
        count += 1;
        out.write_all(look.line(&entries(count, &starts?)).as_bytes())?;
    }
    Ok(count)
}

/// The line below the schedules.
fn closing(count: usize, limit: Option<usize>) -> String {
    match (count, limit) {
        (0, _) => "no lawful schedule\n".to_string(),
        (1, None) => "1 schedule\n".to_string(),
        (_, Some(limit)) if limit == count => {
            format!("{count} shown, the limit; there may be more\n")
        }
        _ => format!("{count} schedules\n"),
    }
}

/// Prints the heading, the schedules and how many they are.
fn list(
    out: &mut impl Write,
    look: &Look,
    heading: &[String],
    schedules: Schedules<'_>,
    limit: Option<usize>,
) -> Result<usize, Trouble> {
    out.write_all(look.line(heading).as_bytes())?;
    let count = stream(out, look, schedules, limit.unwrap_or(usize::MAX))?;
    if !look.csv {
        out.write_all(closing(count, limit).as_bytes())?;
    }
    out.flush()?;
    Ok(count)
}

/// Lists all lawful schedules; it is a fault that there is none.
pub fn all(job: &Job, csv: bool, limit: Option<usize>) -> Result<Status, Trouble> {
    let (units, bound) = (job.units()?, job.bound()?);
    let schedules = job.graph.schedules(&units, bound)?;
    let heading = heading(job);
    let look = Look::new(&heading, bound, csv);
    let mut out = io::stdout().lock();
    match list(&mut out, &look, &heading, schedules, limit) {
        Ok(0) => Ok(Status::Fault),
        Ok(_) => Ok(Status::Answered),
        Err(Trouble::Output(error)) => {
            trouble::unless_closed(Err(error)).map(|()| Status::Answered)
        }
        Err(trouble) => Err(trouble),
    }
}
