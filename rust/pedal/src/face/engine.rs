//! The way through the engine: every question as `docs/ENGINE.md` has it.

use super::question::LONGEST_ROW;
use super::{GraphRows, Question, Row, WrittenRow};
use crate::ffi::{self, Advanced, Filled, Listed, Part, Peaks, Scheduled, Verdict};
use crate::limits::{LAST_REFUSAL, MOST_KINDS, MOST_OPERATIONS};
use crate::{process, Broken};

/// Asks a question and writes the row that comes back, if the numbers are possible ones.
fn ask<const N: usize>(
    question: &Question,
    out: WrittenRow<'_, u16>,
    possible: impl Fn(&[usize; N]) -> bool,
) -> Result<[usize; N], Broken> {
    let answer = process::ask(question, possible)?;
    let entries = out.entries().iter_mut();
    for (entry, bytes) in entries.zip(answer.written.chunks_exact(2)) {
        *entry = u16::from_le_bytes([bytes[0], bytes[1]]);
    }
    Ok(answer.numbers)
}

/// Whether a question about a graph may end with this refusal: a graph of too many operations
/// is refused.
fn may_end(graph: GraphRows<'_>, refusal: usize) -> bool {
    let fits = graph.delays.length() <= MOST_OPERATIONS;
    refusal <= LAST_REFUSAL && (fits || refusal != 0)
}

/// Asks one of the three questions that fill a table.
fn fill(
    number: u32,
    numbers: &[usize],
    graph: GraphRows<'_>,
    out: WrittenRow<'_, u16>,
) -> Result<Filled, Broken> {
    let question = Question::new(number, numbers).graph(graph);
    let question = question.written(out.read());
    let [refusal, place] = ask(&question, out, |numbers| may_end(graph, numbers[0]))?;
    Ok(Filled { refusal, place })
}

/// Earliest starts.
pub fn asap(graph: GraphRows<'_>, out: WrittenRow<'_, u16>) -> Result<Filled, Broken> {
    fill(1, &[graph.kinds], graph, out)
}

/// Latest starts.
pub fn alap(
    graph: GraphRows<'_>,
    bound: usize,
    out: WrittenRow<'_, u16>,
) -> Result<Filled, Broken> {
    fill(2, &[graph.kinds, bound], graph, out)
}

/// Latest less earliest starts.
pub fn mobility(
    graph: GraphRows<'_>,
    bound: usize,
    out: WrittenRow<'_, u16>,
) -> Result<Filled, Broken> {
    fill(3, &[graph.kinds, bound], graph, out)
}

/// The list schedule.
pub fn list(
    graph: GraphRows<'_>,
    units: Row<'_, u8>,
    out: WrittenRow<'_, u16>,
) -> Result<Scheduled, Broken> {
    let question = Question::new(4, &[graph.kinds]).graph(graph);
    let question = question.row(units).written(out.read());
    let [refusal, place, latency] = ask(&question, out, |numbers| may_end(graph, numbers[0]))?;
    Ok(Scheduled {
        refusal,
        place,
        latency,
    })
}

/// One step of the list schedule.
pub fn advance(
    graph: GraphRows<'_>,
    units: Row<'_, u8>,
    step: usize,
    starts: WrittenRow<'_, u16>,
) -> Result<Advanced, Broken> {
    let question = Question::new(5, &[graph.kinds, step]).graph(graph);
    let question = question.row(units).written(starts.read());
    let [refusal, place, step] = ask(&question, starts, |numbers| may_end(graph, numbers[0]))?;
    Ok(Advanced {
        refusal,
        place,
        step,
    })
}

/// The checker.
pub fn check(
    graph: GraphRows<'_>,
    units: Row<'_, u8>,
    bound: usize,
    starts: Row<'_, u16>,
) -> Result<Verdict, Broken> {
    let question = Question::new(6, &[graph.kinds, bound]).graph(graph);
    let question = question.row(units).row(starts);
    let possible = |&[refusal, _, finding, first, second]: &[usize; 5]| {
        may_end(graph, refusal) && may_find(graph, finding, first, second)
    };
    let [refusal, place, finding, first, second] = ask(&question, WrittenRow::null(), possible)?;
    Ok(Verdict {
        refusal,
        place,
        finding,
        first,
        second,
    })
}

/// Whether a finding names what the graph has.
fn may_find(graph: GraphRows<'_>, finding: usize, first: usize, second: usize) -> bool {
    match finding {
        ffi::PEDAL_LAWFUL => true,
        ffi::PEDAL_UNTIMELY => first < graph.delays.length(),
        ffi::PEDAL_BROKEN => first < graph.from.length(),
        ffi::PEDAL_OVER_USE => second < graph.kinds,
        _ => false,
    }
}

/// Peak use.
pub fn peak(graph: GraphRows<'_>, starts: Row<'_, u16>) -> Result<Peaks, Broken> {
    let question = Question::new(7, &[graph.kinds]).graph(graph).row(starts);
    let possible = |numbers: &[usize; 2 + MOST_KINDS]| may_end(graph, numbers[0]);
    let [refusal, place, peak @ ..] = ask(&question, WrittenRow::null(), possible)?;
    Ok(Peaks {
        refusal,
        place,
        peak,
    })
}

/// Asks one of the lister's two questions.
fn find(
    question: &Question,
    graph: GraphRows<'_>,
    out: WrittenRow<'_, u16>,
) -> Result<Listed, Broken> {
    let possible = |&[refusal, _, found]: &[usize; 3]| may_end(graph, refusal) && found <= 1;
    let [refusal, place, found] = ask(question, out, possible)?;
    Ok(Listed {
        refusal,
        place,
        found,
    })
}

/// The least lawful schedule.
pub fn first(
    graph: GraphRows<'_>,
    units: Row<'_, u8>,
    bound: usize,
    out: WrittenRow<'_, u16>,
) -> Result<Listed, Broken> {
    let question = Question::new(8, &[graph.kinds, bound]).graph(graph);
    find(&question.row(units).written(out.read()), graph, out)
}

/// The least lawful schedule after a row.
pub fn next(
    graph: GraphRows<'_>,
    units: Row<'_, u8>,
    bound: usize,
    after: Row<'_, u16>,
    out: WrittenRow<'_, u16>,
) -> Result<Listed, Broken> {
    let question = Question::new(9, &[graph.kinds, bound]).graph(graph);
    let question = question.row(units).row(after);
    find(&question.written(out.read()), graph, out)
}

/// A part of a channel's table.
pub fn view(
    a: Row<'_, u16>,
    b: Row<'_, u16>,
    channel: usize,
    first: usize,
    count: usize,
) -> Result<Part, Broken> {
    let lengths = [a.length(), b.length()];
    if let Some(length) = lengths.into_iter().find(|&length| length > LONGEST_ROW) {
        return Err(too_long(length));
    }
    let question = Question::new(10, &[channel, first, count]).row(a).row(b);
    let table = lengths[usize::from(channel != 0)];
    let possible = |&[refusal, start, length]: &[usize; 3]| {
        refusal <= LAST_REFUSAL && start <= table && length <= table - start
    };
    let [refusal, start, length] = ask(&question, WrittenRow::null(), possible)?;
    Ok(Part {
        refusal,
        start,
        length,
    })
}

/// A table's length counts in full, so that a long one cannot be cut as a graph's row can.
fn too_long(length: usize) -> Broken {
    Broken::new(format!(
        "a table of {length} entries is longer than the engine takes, which is {LONGEST_ROW}, and \
         was not viewed: lend shorter tables, or link the library, which views tables of any length"
    ))
}
