//! The seam: every function of `include/pedal.h`, asked in one of two ways.
//!
//! Linked, the rows are lent to the C face itself. Through the engine, a proved program that asks
//! the same face for us, they go to it and come back (`docs/ENGINE.md`). The answer is the same,
//! and nothing above this module knows which way it came. The library is linked on x86-64 Linux;
//! elsewhere, and where the environment variable `PEDAL_WAY` is `engine`, the engine is asked.
//!
//! An error is the way's own: the engine is missing, died or made no sense. A refusal is an
//! answer, with its number in the struct.

mod engine;
#[cfg(linked)]
#[allow(unsafe_code)]
mod linked;
mod question;
mod row;
#[cfg(test)]
mod tests;
mod way;

pub(crate) use question::{Answer, Nonsense, Question};
pub use row::{GraphRows, Row, WrittenRow};
pub use way::{way, Way};

use crate::ffi::{Advanced, Filled, Listed, Part, Peaks, Scheduled, Verdict};
use crate::{process, Broken};

/// Asks a question in the way that is chosen.
macro_rules! ask {
    ($question:ident($($lent:expr),*)) => {
        match way()? {
            #[cfg(linked)]
            Way::Linked => Ok(linked::$question($($lent),*)),
            _ => aside(move || engine::$question($($lent),*)),
        }
    };
}

/// Asks a question apart from the linked way, which then has its rows in registers alone.
#[cold]
#[inline(never)]
fn aside<T>(ask: impl FnOnce() -> Result<T, Broken>) -> Result<T, Broken> {
    ask()
}

/// Ends what a way keeps running. A program that calls this at its end leaves nothing behind; one
/// that does not leaves an engine that ends by itself. A further question starts another.
pub fn end() {
    process::end();
}

/// Earliest starts under precedence alone: `pedal_asap`.
#[inline]
pub fn asap(graph: GraphRows<'_>, out: WrittenRow<'_, u16>) -> Result<Filled, Broken> {
    ask!(asap(graph, out))
}

/// Latest starts under precedence and the bound: `pedal_alap`.
#[inline]
pub fn alap(
    graph: GraphRows<'_>,
    bound: usize,
    out: WrittenRow<'_, u16>,
) -> Result<Filled, Broken> {
    ask!(alap(graph, bound, out))
}

/// Latest less earliest starts: `pedal_mobility`.
#[inline]
pub fn mobility(
    graph: GraphRows<'_>,
    bound: usize,
    out: WrittenRow<'_, u16>,
) -> Result<Filled, Broken> {
    ask!(mobility(graph, bound, out))
}

/// The list schedule under unit counts: `pedal_list`.
#[inline]
pub fn list(
    graph: GraphRows<'_>,
    units: Row<'_, u8>,
    out: WrittenRow<'_, u16>,
) -> Result<Scheduled, Broken> {
    ask!(list(graph, units, out))
}

/// One step of the list schedule, the starts changed in place: `pedal_advance`.
#[inline]
pub fn advance(
    graph: GraphRows<'_>,
    units: Row<'_, u8>,
    step: usize,
    starts: WrittenRow<'_, u16>,
) -> Result<Advanced, Broken> {
    ask!(advance(graph, units, step, starts))
}

/// Whether a schedule is lawful, or its first fault: `pedal_check`.
#[inline]
pub fn check(
    graph: GraphRows<'_>,
    units: Row<'_, u8>,
    bound: usize,
    starts: Row<'_, u16>,
) -> Result<Verdict, Broken> {
    ask!(check(graph, units, bound, starts))
}

/// Peak use of any row of starts: `pedal_peak`.
#[inline]
pub fn peak(graph: GraphRows<'_>, starts: Row<'_, u16>) -> Result<Peaks, Broken> {
    ask!(peak(graph, starts))
}

/// The least lawful schedule: `pedal_first`.
#[inline]
pub fn first(
    graph: GraphRows<'_>,
    units: Row<'_, u8>,
    bound: usize,
    out: WrittenRow<'_, u16>,
) -> Result<Listed, Broken> {
    ask!(first(graph, units, bound, out))
}

/// The least lawful schedule after a row: `pedal_next`.
#[inline]
pub fn next(
    graph: GraphRows<'_>,
    units: Row<'_, u8>,
    bound: usize,
    after: Row<'_, u16>,
    out: WrittenRow<'_, u16>,
) -> Result<Listed, Broken> {
    ask!(next(graph, units, bound, after, out))
}

/// A part of a channel's table: `pedal_view`.
#[inline]
pub fn view(
    a: Row<'_, u16>,
    b: Row<'_, u16>,
    channel: usize,
    first: usize,
    count: usize,
) -> Result<Part, Broken> {
    ask!(view(a, b, channel, first, count))
}
