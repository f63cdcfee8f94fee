//! The linked way: rows are lent to the C face here, and nowhere else.

use super::{GraphRows, Row, WrittenRow};
use crate::ffi::{self, Advanced, Filled, Listed, Part, Peaks, Scheduled, Verdict};

/// Calls a function of the C face with a graph's rows and whatever else it takes.
macro_rules! call {
    ($function:ident, $graph:expr $(, $other:expr)*) => {{
        let graph: GraphRows<'_> = $graph;
        // SAFETY: every pointer goes with the length of the row that it was taken from, or is
        // null with length 0; those rows outlive the call, and a row that is written is borrowed
        // for that alone, so that it overlaps no other.
        unsafe {
            ffi::$function(
                graph.delays.pointer(),
                graph.delays.length(),
                graph.types.pointer(),
                graph.types.length(),
                graph.kinds,
                graph.from.pointer(),
                graph.from.length(),
                graph.to.pointer(),
                graph.to.length(),
                $($other,)*
            )
        }
    }};
}

/// Earliest starts.
#[inline]
pub fn asap(graph: GraphRows<'_>, out: WrittenRow<'_, u16>) -> Filled {
    let (out, out_len) = out.parts();
    call!(pedal_asap, graph, out, out_len)
}

/// Latest starts.
#[inline]
pub fn alap(graph: GraphRows<'_>, bound: usize, out: WrittenRow<'_, u16>) -> Filled {
    let (out, out_len) = out.parts();
    call!(pedal_alap, graph, bound, out, out_len)
}

/// Latest less earliest starts.
#[inline]
pub fn mobility(graph: GraphRows<'_>, bound: usize, out: WrittenRow<'_, u16>) -> Filled {
    let (out, out_len) = out.parts();
    call!(pedal_mobility, graph, bound, out, out_len)
}

/// The list schedule.
#[inline]
pub fn list(graph: GraphRows<'_>, units: Row<'_, u8>, out: WrittenRow<'_, u16>) -> Scheduled {
    let (units, units_len) = (units.pointer(), units.length());
    let (out, out_len) = out.parts();
    call!(pedal_list, graph, units, units_len, out, out_len)
}

/// One step of the list schedule.
#[inline]
pub fn advance(
    graph: GraphRows<'_>,
    units: Row<'_, u8>,
    step: usize,
    starts: WrittenRow<'_, u16>,
) -> Advanced {
    let (units, units_len) = (units.pointer(), units.length());
    let (starts, starts_len) = starts.parts();
    call!(
        pedal_advance,
        graph,
        units,
        units_len,
        step,
        starts,
        starts_len
    )
}

/// The checker.
#[inline]
pub fn check(
    graph: GraphRows<'_>,
    units: Row<'_, u8>,
    bound: usize,
    starts: Row<'_, u16>,
) -> Verdict {
    let (units, units_len) = (units.pointer(), units.length());
    let (starts, starts_len) = (starts.pointer(), starts.length());
    call!(
        pedal_check,
        graph,
        units,
        units_len,
        bound,
        starts,
        starts_len
    )
}

/// Peak use.
#[inline]
pub fn peak(graph: GraphRows<'_>, starts: Row<'_, u16>) -> Peaks {
    call!(pedal_peak, graph, starts.pointer(), starts.length())
}

/// The least lawful schedule.
#[inline]
pub fn first(
    graph: GraphRows<'_>,
    units: Row<'_, u8>,
    bound: usize,
    out: WrittenRow<'_, u16>,
) -> Listed {
    let (units, units_len) = (units.pointer(), units.length());
    let (out, out_len) = out.parts();
    call!(pedal_first, graph, units, units_len, bound, out, out_len)
}

/// The least lawful schedule after a row.
#[inline]
pub fn next(
    graph: GraphRows<'_>,
    units: Row<'_, u8>,
    bound: usize,
    after: Row<'_, u16>,
    out: WrittenRow<'_, u16>,
) -> Listed {
    let (units, units_len) = (units.pointer(), units.length());
    let (after, after_len) = (after.pointer(), after.length());
    let (out, out_len) = out.parts();
    call!(pedal_next, graph, units, units_len, bound, after, after_len, out, out_len)
}

/// A part of a channel's table.
#[inline]
pub fn view(a: Row<'_, u16>, b: Row<'_, u16>, channel: usize, first: usize, count: usize) -> Part {
    let (a, a_len) = (a.pointer(), a.length());
    let (b, b_len) = (b.pointer(), b.length());
    // SAFETY: as above; both tables are only read.
    unsafe { ffi::pedal_view(a, a_len, b, b_len, channel, first, count) }
}
